//! With the feature `proved`, links the proved library from the repository's `target/staticlib`.

use std::env;
use std::path::Path;

fn main() {
    println!("cargo:rerun-if-changed=build.rs");
    if env::var_os("CARGO_FEATURE_PROVED").is_none() {
        return;
    }
    let manifest = env::var("CARGO_MANIFEST_DIR").expect("cargo sets the manifest's directory");
    let directory = Path::new(&manifest).join("../target/staticlib");
    let archive = directory.join("libchecker.a");
    println!("cargo:rerun-if-changed={}", archive.display());
    if !archive.exists() {
        panic!("target/staticlib/libchecker.a isn't there: run `tools/staticlib` first");
    }
    println!("cargo:rustc-link-search=native={}", directory.display());
    println!("cargo:rustc-link-lib=static=checker");
}
