//! Brings the Rust's three files, byte for byte, to where the compiler reads them. Their text is not part
//! of this repository: the variable TTML_SOURCES names the folder that has them.

use std::path::{Path, PathBuf};
use std::process::Command;
use std::{env, fs};

const MODULES: [&str; 3] = ["ttml", "ir", "encoding"];

fn main() {
    let here = PathBuf::from(env::var_os("CARGO_MANIFEST_DIR").unwrap());
    let out = PathBuf::from(env::var_os("OUT_DIR").unwrap());
    let sources = env::var_os("TTML_SOURCES").map_or_else(|| here.join("../../../shared/docs/src"), PathBuf::from);
    println!("cargo::rerun-if-env-changed=TTML_SOURCES");

    let mut modules = String::new();
    let mut list = String::new();
    for module in MODULES {
        let name = format!("src--src--{module}.rs.txt");
        let path = sources.join(&name);
        println!("cargo::rerun-if-changed={}", path.display());
        let mut text = fs::read(&path).unwrap_or_else(|e| panic!("{}: {e}", path.display()));
        let lines = text.iter().filter(|&&b| b == b'\n').count();
        if module == "ttml" {
            // The one addition, after the unchanged text: a child module, which may call what is private.
            text.extend(declare("access", &here.join("src/access.rs")).as_bytes());
        }
        let copy = out.join(format!("{module}.rs"));
        fs::write(&copy, text).unwrap();
        modules += &declare(module, &copy);
        list += &format!("({name:?}, {lines}), ");
    }
    modules +=
        &format!("/// The files, and how many lines each has.\npub const SOURCES: &[(&str, usize)] = &[{list}];\n");
    modules += &format!(
        "/// The compiler, whose library decides what is UTF-8 and what is white space.\npub const RUSTC: &str = {:?};\n",
        rustc()
    );
    fs::write(out.join("modules.rs"), modules).unwrap();
}

fn declare(module: &str, path: &Path) -> String {
    format!("#[path = {path:?}]\npub mod {module};\n")
}

fn rustc() -> String {
    let output = Command::new(env::var_os("RUSTC").unwrap()).arg("--version").output().unwrap();
    String::from_utf8(output.stdout).unwrap().trim().to_string()
}
