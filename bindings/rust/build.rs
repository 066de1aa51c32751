// Links the static library of the Rattle crate `capi_c`, which `tests/built.sh capi` builds.
use std::{env, path::Path, process};

const MISSING: &str = "target/staticlib/libcapi.a is not there: it is the proved table, which this crate links.
Run ./build.sh at the top of the repository; or, for the library alone, tests/built.sh capi.
Both need the Rattle toolchain (rt) and prove what they build: minutes the first time.";

fn main() {
    let root = env::var("CARGO_MANIFEST_DIR").expect("cargo sets CARGO_MANIFEST_DIR");
    let library = Path::new(&root).join("../../target/staticlib");
    println!("cargo:rerun-if-changed={}", library.join("libcapi.a").display());
    if !library.join("libcapi.a").is_file() {
        eprintln!("{MISSING}");
        process::exit(1);
    }
    println!("cargo:rustc-link-search=native={}", library.display());
    println!("cargo:rustc-link-lib=static=capi");
}
