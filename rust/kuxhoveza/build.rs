//! Writes the header's constants as Rust's, and links the library that KUXHOVEZA_LIB names: an archive, or a shared
//! library. By default it is the proved archive that `sh tools/archive` writes.

mod constants;

use std::env;
use std::path::{Path, PathBuf};

fn main() {
    println!("cargo:rerun-if-changed=build.rs");
    println!("cargo:rerun-if-changed=constants.rs");
    constants::write("../../include/kuxhoveza.h");
    println!("cargo:rerun-if-env-changed=KUXHOVEZA_LIB");
    let here = PathBuf::from(env::var("CARGO_MANIFEST_DIR").unwrap());
    let default = here.join("../../target/libkuxhoveza.a");
    link(&env::var_os("KUXHOVEZA_LIB").map_or(default, PathBuf::from));
}

fn link(library: &Path) {
    println!("cargo:rerun-if-changed={}", library.display());
    // Without it the constants can be used all the same.
    if !library.exists() {
        return;
    }
    let kind = match library.extension() {
        Some(extension) if extension == "so" => "dylib",
        _ => "static",
    };
    let folder = library.parent().unwrap().display();
    let stem = library.file_stem().unwrap().to_str().unwrap();
    let name = stem.strip_prefix("lib").expect("lib*.a or lib*.so");
    println!("cargo:rustc-link-search=native={folder}");
    println!("cargo:rustc-link-lib={kind}={name}");
}
