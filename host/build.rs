//! Finds the libraries under test, and makes the oracle out of the Rust source.

use std::path::{Path, PathBuf};
use std::{env, fs};

#[path = "oracle/sha256.rs"]
mod sha256;
#[path = "oracle/slices.rs"]
mod slices;

fn main() {
    println!("cargo:rerun-if-changed=build.rs");
    println!("cargo:rerun-if-changed=oracle");
    link_libraries();
    make_oracle();
}

/// The directory that `variable` names, else `default` beside Cargo.toml.
fn directory(variable: &str, default: &str) -> PathBuf {
    println!("cargo:rerun-if-env-changed={variable}");
    let here = Path::new(env!("CARGO_MANIFEST_DIR"));
    here.join(env::var_os(variable).unwrap_or_else(|| default.into()))
}

/// The angle functions come with the product's own library, the other entries with the one that
/// serves tests alone.
fn link_libraries() {
    let directory = directory("RAY_LIB_DIR", "../target/staticlib");
    println!("cargo:rustc-link-search=native={}", directory.display());
    for name in ["raycore", "test_entries", "findf_entry"] {
        let library = directory.join(format!("lib{name}.a"));
        assert!(
            library.is_file(),
            "{} is missing: build it with `./staticlib {name}`, or set RAY_LIB_DIR",
            library.display()
        );
        println!("cargo:rerun-if-changed={}", library.display());
        println!("cargo:rustc-link-lib=static={name}");
    }
}

/// Writes two files: the items that call no angle function, and the others as each variant of
/// alterations.txt has them, in a module of its own. Sets cfg(oracle). Where the source is not at
/// hand the oracle is left out, but not in CI.
fn make_oracle() {
    println!("cargo:rerun-if-env-changed=CI");
    let source = directory("HFCAST_SRC", "../../shared/docs/src");
    if !source.is_dir() {
        let missing = format!("the Rust source is not at hand: no {}", source.display());
        assert!(env::var_os("CI").is_none(), "{missing}; set HFCAST_SRC");
        println!("cargo:warning={missing}; the tests against it are skipped");
        return;
    }
    let items = slices::parse(include_str!("oracle/slices.txt"));
    let (variants, alterations) =
        slices::parse_alterations(include_str!("oracle/alterations.txt"), &items)
            .unwrap_or_else(|e| panic!("{e}"));
    let mut modules = vec![String::new(); variants.len()];
    let mut once = String::new();
    for slice in &items {
        let file = source.join(slice.file);
        println!("cargo:rerun-if-changed={}", file.display());
        let text = fs::read_to_string(&file).unwrap_or_else(|e| panic!("{}: {e}", file.display()));
        let text = slice.cut(&text).unwrap_or_else(|e| panic!("{e}"));
        if slice.has_angle_calls() {
            for (variant, module) in variants.iter().zip(&mut modules) {
                *module +=
                    &variant.of(slice, &text, &alterations).unwrap_or_else(|e| panic!("{e}"));
            }
        } else {
            once += &text;
        }
    }
    let mut text: String = variants.iter().zip(modules).map(module).collect();
    let names: Vec<_> = variants.iter().map(|v| format!("{}::VARIANT", v.name)).collect();
    text += &format!("pub const VARIANTS: &[Variant] = &[{}];\n", names.join(", "));
    let out = PathBuf::from(env::var_os("OUT_DIR").unwrap());
    fs::write(out.join("once.rs"), once).unwrap();
    fs::write(out.join("variants.rs"), text).unwrap();
    println!("cargo:rustc-cfg=oracle");
}

/// The module of a variant, over what src/oracle.rs has.
fn module((variant, text): (&slices::Variant, String)) -> String {
    let name = variant.name;
    format!(
        "pub mod {name} {{\n\
         use super::counts::*;\n\
         use super::*;\n\
         pub const VARIANT: Variant = Variant {{ name: \"{name}\", findf, fdist, esmod }};\n\
         {text}}}\n"
    )
}
