//! Links libculvraod.a from the folder in `CULVRAOD_LIB_DIR`, or from
//! `target/staticlib` beside this crate's folder.

use std::env;
use std::path::{Path, PathBuf};

fn main() {
    let dir = match env::var_os("CULVRAOD_LIB_DIR") {
        Some(dir) => PathBuf::from(dir),
        None => Path::new(&env::var_os("CARGO_MANIFEST_DIR").unwrap()).join("../target/staticlib"),
    };
    println!("cargo:rerun-if-env-changed=CULVRAOD_LIB_DIR");
    println!(
        "cargo:rerun-if-changed={}",
        dir.join("libculvraod.a").display()
    );
    println!("cargo:rustc-link-search=native={}", dir.display());
    println!("cargo:rustc-link-lib=static=culvraod");
}
