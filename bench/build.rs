//! A second copy of the archive, in which the exported functions and those that it calls outside itself have other names:
//! what it copies and clears is counted there, and the copy that is timed stays as it is. Without an archive nothing is
//! counted.

use std::path::PathBuf;
use std::process::Command;
use std::{env, fs};

const NAMES: [&str; 14] = [
    "memcpy",
    "memmove",
    "memset",
    "kuxhoveza_layout_version",
    "kuxhoveza_transition",
    "kuxhoveza_verdict",
    "kuxhoveza_write_sheet",
    "kuxhoveza_read_sheet",
    "kuxhoveza_write_run",
    "kuxhoveza_read_run",
    "kuxhoveza_write_event",
    "kuxhoveza_read_event",
    "kuxhoveza_call",
    "kuxhoveza_call_on",
];

fn main() {
    println!("cargo:rerun-if-changed=build.rs");
    println!("cargo:rerun-if-env-changed=KUXHOVEZA_LIB");
    println!("cargo:rustc-check-cfg=cfg(counted)");
    let here = PathBuf::from(env::var("CARGO_MANIFEST_DIR").unwrap());
    let default = here.join("../target/libkuxhoveza.a");
    let library = env::var_os("KUXHOVEZA_LIB").map_or(default, PathBuf::from);
    println!("cargo:rerun-if-changed={}", library.display());
    if !library.extension().is_some_and(|it| it == "a") || !library.exists() {
        return;
    }
    let out = PathBuf::from(env::var("OUT_DIR").unwrap());
    let counted = out.join("libcounted.a");
    fs::copy(&library, &counted).unwrap();
    let renamed = NAMES.map(|name| format!("--redefine-sym={name}=counted_{name}"));
    let status = Command::new("objcopy").args(renamed).arg(&counted).status();
    assert!(status.expect("objcopy").success(), "objcopy");
    println!("cargo:rustc-link-search=native={}", out.display());
    println!("cargo:rustc-link-lib=static=counted");
    println!("cargo:rustc-cfg=counted");
}
