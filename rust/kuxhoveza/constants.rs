//! For build scripts: the constants of include/kuxhoveza.h as Rust's, in the file layout.rs of OUT_DIR.

use std::path::PathBuf;
use std::{env, fs};

/// `header` is its path from the package that is built.
pub fn write(header: &str) {
    let header = PathBuf::from(env::var("CARGO_MANIFEST_DIR").unwrap()).join(header);
    println!("cargo:rerun-if-changed={}", header.display());
    let text = fs::read_to_string(header).unwrap();
    let constants: String = text.lines().filter_map(constant).collect();
    let out = PathBuf::from(env::var("OUT_DIR").unwrap());
    fs::write(out.join("layout.rs"), constants).unwrap();
}

/// Macros with arguments are none.
fn constant(line: &str) -> Option<String> {
    let (name, value) = line.strip_prefix("#define KUXHOVEZA_")?.split_once(' ')?;
    (!name.contains('(')).then(|| format!("pub const {name}: usize = {value};\n"))
}
