// The table by its proved library, by the same source compiled as Rust, by a hand-written twin, and a locked map: the
// same work for each.
pub mod fields;
pub mod leaf;
pub mod places;
pub mod sides;
pub mod text;
pub mod turns;
pub mod twin;
pub mod work;

#[allow(dead_code, unused_variables, clippy::all)]
mod same {
    include!(concat!(env!("OUT_DIR"), "/same.rs"));
}
