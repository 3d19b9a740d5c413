//! Links the C library expat, which bench compares the tree reader with, if the C compiler finds it: the variable TTML_EXPAT
//! is what `cc -print-file-name=libexpat.so` says.

use std::env;
use std::path::Path;

fn main() {
    println!("cargo::rerun-if-env-changed=TTML_EXPAT");
    println!("cargo::rustc-check-cfg=cfg(expat)");
    let said = env::var_os("TTML_EXPAT").unwrap_or_default();
    // A name without a folder: it was not found.
    if let Some(folder) = Path::new(&said).parent().filter(|folder| folder.is_absolute()) {
        println!("cargo::rustc-link-search=native={}", folder.display());
        println!("cargo::rustc-link-lib=dylib=expat");
        println!("cargo::rustc-cfg=expat");
    }
}
