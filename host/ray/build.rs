//! Finds the library: in the directory that RAY_LIB_DIR names, absolute or as seen from host/, else
//! in target/staticlib.

use std::env;
use std::path::Path;

fn main() {
    println!("cargo:rerun-if-changed=build.rs");
    println!("cargo:rerun-if-env-changed=RAY_LIB_DIR");
    let host = Path::new(env!("CARGO_MANIFEST_DIR")).join("..");
    let directory =
        host.join(env::var_os("RAY_LIB_DIR").unwrap_or_else(|| "../target/staticlib".into()));
    let library = directory.join("libraycore.a");
    assert!(
        library.is_file(),
        "{} is missing: build it with `./staticlib raycore`, or set RAY_LIB_DIR",
        library.display()
    );
    println!("cargo:rerun-if-changed={}", library.display());
    println!("cargo:rustc-link-search=native={}", directory.display());
    println!("cargo:rustc-link-lib=static=raycore");
}
