//! Links the proved static library.
//!
//! `ZENTURPA_LIB` is the folder of `libmoves.a`, by default the repository's `target/staticlib`.

use std::env;
use std::path::PathBuf;

fn main() {
    println!("cargo:rerun-if-env-changed=ZENTURPA_LIB");
    let package = PathBuf::from(env::var("CARGO_MANIFEST_DIR").expect("cargo sets it"));
    let moves = match env::var_os("ZENTURPA_LIB") {
        Some(folder) => PathBuf::from(folder),
        None => package.join("../target/staticlib"),
    };
    println!("cargo:rerun-if-changed={}", moves.join("libmoves.a").display());
    println!("cargo:rustc-link-search=native={}", moves.display());
    println!("cargo:rustc-link-lib=static=moves");
}
