//! Links libprobe.a and libttml.a from the folders that the variables TTML_PROBE and TTML_LIBRARY name; without them
//! from target/staticlib, where `tools/staticlib` writes them.

use std::path::PathBuf;
use std::{env, fs};

fn main() {
    link("probe", "TTML_PROBE");
    link("ttml", "TTML_LIBRARY");
}

/// A copy is linked: a folder may have both libraries, and only the one that was asked for counts.
fn link(library: &str, variable: &str) {
    println!("cargo::rerun-if-env-changed={variable}");
    if env::var_os("CARGO_FEATURE_LINKED").is_none() {
        return;
    }
    let folder = |variable: &str| PathBuf::from(env::var_os(variable).unwrap());
    let written = || folder("CARGO_MANIFEST_DIR").join("../../target/staticlib");
    let file = format!("lib{library}.a");
    let path = env::var_os(variable).map_or_else(written, PathBuf::from).join(&file);
    println!("cargo::rerun-if-changed={}", path.display());
    fs::copy(&path, folder("OUT_DIR").join(&file)).unwrap_or_else(|e| panic!("{}: {e}", path.display()));
    println!("cargo::rustc-link-search=native={}", folder("OUT_DIR").display());
    println!("cargo::rustc-link-lib=static={library}");
}
