//! Writes the Rust of the library `capi` and of all it rests on.
mod as_rust;

fn main() {
    as_rust::write(&["capi"], "../..", "crate");
}
