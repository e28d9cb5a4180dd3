//! Links libsettle.a from the folder that SETTLE_LIB names, else from target/lib of the repository.
use std::{env, path::PathBuf};

const HINT: &str = "make it by bin/libsettle";

fn main() {
    let top = PathBuf::from(env::var_os("CARGO_MANIFEST_DIR").expect("cargo sets it")).join("../..");
    let folder = env::var_os("SETTLE_LIB").map_or(top.join("target/lib"), PathBuf::from);
    let archive = folder.join("libsettle.a");
    if !archive.is_file() {
        println!("cargo::error=there is no {}: {HINT}", archive.display());
    }
    println!("cargo::rustc-link-search=native={}", folder.display());
    println!("cargo::rustc-link-lib=static=settle");
    println!("cargo::rerun-if-env-changed=SETTLE_LIB");
    println!("cargo::rerun-if-changed={}", archive.display());
}
