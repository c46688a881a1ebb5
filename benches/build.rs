//! Links target/native/libtippovrain.a, which tools/native-lib makes for the machine at hand.
use std::path::Path;

fn main() {
    let native = Path::new(env!("CARGO_MANIFEST_DIR")).join("../target/native");
    let archive = native.join("libtippovrain.a");
    assert!(
        archive.is_file(),
        "there is no {}: run tools/native-lib tippovrain",
        archive.display()
    );
    println!("cargo:rustc-link-search=native={}", native.display());
    println!("cargo:rustc-link-lib=static=tippovrain");
    println!("cargo:rerun-if-changed={}", archive.display());
}
