//! Finds the compiled library. Only the binary links it, so a missing archive
//! stops the binary alone (by `library_missing`) and leaves the unit tests.

use std::env;
use std::path::PathBuf;

fn main() {
    let package = PathBuf::from(env::var("CARGO_MANIFEST_DIR").expect("cargo sets the folder"));
    let folder = package.join("../../target/native");
    let archive = folder.join("libtippovrain.a");
    println!("cargo:rerun-if-changed={}", archive.display());
    println!("cargo:rustc-check-cfg=cfg(library_missing)");
    if archive.exists() {
        println!("cargo:rustc-link-search=native={}", folder.display());
    } else {
        println!("cargo:rustc-cfg=library_missing");
    }
}
