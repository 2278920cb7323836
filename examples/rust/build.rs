// Links native/libhourbench.a of this package, wherever it stands, and again when the archive changed.
use std::{env, path::Path};

fn main() {
    let native = Path::new(&env::var("CARGO_MANIFEST_DIR").unwrap()).join("native");
    let archive = native.join("libhourbench.a");
    println!("cargo::rerun-if-changed={}", archive.display());
    if !archive.exists() {
        println!("cargo::error={} is missing: `tools/install` of Hourbench makes it", archive.display());
    }
    println!("cargo::rustc-link-search=native={}", native.display());
    println!("cargo::rustc-link-lib=static=hourbench");
}
