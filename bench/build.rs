// Makes a Rust file of the source of each static library that is compared, and links the libraries.
#[path = "../tests/same/as_rust.rs"]
mod as_rust;

use std::{env, path::Path};

const LIBRARIES: [&str; 2] = ["leaves", "capi"];

fn main() {
    as_rust::write(&LIBRARIES, "..", "crate::same");
    let root = env::var("CARGO_MANIFEST_DIR").expect("cargo sets it");
    let folder = Path::new(&root).join("../target/staticlib");
    println!("cargo:rustc-link-search=native={}", folder.display());
    for name in LIBRARIES {
        println!(
            "cargo:rerun-if-changed={}",
            folder.join(format!("lib{name}.a")).display()
        );
        println!("cargo:rustc-link-lib=static={name}");
    }
}
