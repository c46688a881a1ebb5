//! Finds libtippovrain.a and links it.

use std::env;
use std::path::{Path, PathBuf};
use std::process::Command;

fn main() {
    println!("cargo:rerun-if-env-changed=TIPPOVRAIN_LIB_DIR");
    println!("cargo:rerun-if-env-changed=PKG_CONFIG_PATH");
    let folder = library_folder();
    let archive = folder.join("libtippovrain.a");
    assert!(
        archive.is_file(),
        "there is no {}: in the repository run tools/native-lib tippovrain; elsewhere let TIPPOVRAIN_LIB_DIR be the \
         absolute path of the folder that has it",
        archive.display()
    );
    println!("cargo:rerun-if-changed={}", archive.display());
    println!("cargo:rustc-link-search=native={}", folder.display());
    println!("cargo:rustc-link-lib=static=tippovrain");
}

/// The first of: TIPPOVRAIN_LIB_DIR; in the repository the folder of tools/native-lib; the folder in which
/// `make install` puts the library beside this crate; what pkg-config says.
fn library_folder() -> PathBuf {
    if let Some(folder) = env::var_os("TIPPOVRAIN_LIB_DIR") {
        return folder.into();
    }
    let package = PathBuf::from(env::var_os("CARGO_MANIFEST_DIR").expect("cargo sets the folder"));
    // an installed library never stands in for the one under test
    if package.join("../../crates.txt").is_file() {
        return package.join("../../target/native");
    }
    let beside = package.join("../../../lib");
    if beside.join("libtippovrain.a").is_file() {
        return beside;
    }
    pkg_config().unwrap_or(beside)
}

/// The library's folder as pkg-config knows it, where there is such a program.
fn pkg_config() -> Option<PathBuf> {
    let said = Command::new("pkg-config")
        .args(["--variable=libdir", "tippovrain"])
        .output()
        .ok()?;
    let folder = String::from_utf8(said.stdout).ok()?;
    (said.status.success() && !folder.trim().is_empty()).then(|| Path::new(folder.trim()).into())
}
