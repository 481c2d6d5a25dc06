//! Links the proved archive.

use std::path::Path;

const ARCHIVE: &str = "exports";

fn main() {
    let package = std::env::var("CARGO_MANIFEST_DIR").expect("cargo names the package's folder");
    let folder = Path::new(&package).join("../target/staticlib");
    let archive = folder.join(format!("lib{ARCHIVE}.a"));
    println!("cargo::rerun-if-changed={}", archive.display());
    if !archive.exists() {
        println!("cargo::error=no proved archive to test: run `./archive.sh` at the repository's root first");
        return;
    }
    println!("cargo::rustc-link-search=native={}", folder.display());
    println!("cargo::rustc-link-lib=static={ARCHIVE}");
}
