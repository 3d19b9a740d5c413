//! Links libttml.a from the folder that the variable POSTGARLIC_LIB names; without it from target/staticlib of the
//! repository, where `tools/staticlib ttml` writes it.

use std::env;
use std::path::PathBuf;

fn main() {
    println!("cargo::rerun-if-env-changed=POSTGARLIC_LIB");
    let here = PathBuf::from(env::var_os("CARGO_MANIFEST_DIR").unwrap());
    let folder = env::var_os("POSTGARLIC_LIB").map_or_else(|| here.join("../../target/staticlib"), PathBuf::from);
    let library = folder.join("libttml.a");
    println!("cargo::rerun-if-changed={}", library.display());
    if !library.is_file() {
        println!("cargo::error=there is no {}", library.display());
        println!("cargo::error=`tools/staticlib ttml` writes it; or POSTGARLIC_LIB names the folder that has it");
    }
    println!("cargo::rustc-link-search=native={}", folder.display());
    println!("cargo::rustc-link-lib=static=ttml");
}
