//! Tells the linker where the proved static library lies, if ABI_LIB_DIR says so.

use std::{env, fs};

fn main() {
    println!("cargo:rerun-if-changed=build.rs");
    println!("cargo:rerun-if-env-changed=ABI_LIB_DIR");
    let Ok(dir) = env::var("ABI_LIB_DIR") else {
        return;
    };
    let dir = fs::canonicalize(dir).expect("ABI_LIB_DIR is a folder");
    println!("cargo:rerun-if-changed={}", dir.join("libyarngravel.a").display());
    println!("cargo:rustc-link-search=native={}", dir.display());
}
