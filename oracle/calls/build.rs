//! Writes the header's constants as Rust's.

#[path = "../../rust/kuxhoveza/constants.rs"]
mod constants;

fn main() {
    println!("cargo:rerun-if-changed=build.rs");
    println!("cargo:rerun-if-changed=../../rust/kuxhoveza/constants.rs");
    constants::write("../../include/kuxhoveza.h");
}
