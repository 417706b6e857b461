//! Build script of both `original-…` crates: finds the original files and
//! writes `original.rs`, which includes them by their absolute path, unchanged.

use std::env::var;
use std::path::{Path, PathBuf};

/// From the folder of a crate to the repository's root.
const ROOT: &str = "../..";
/// Where the files are by default, from the repository's root.
const DEFAULT: &str = "../shared/docs/src";

fn main() {
    let package = PathBuf::from(var("CARGO_MANIFEST_DIR").unwrap());
    println!("cargo::rerun-if-env-changed=ORIGINAL_SRC");
    println!("cargo::rerun-if-changed=../find-original.rs");

    let named = var("ORIGINAL_SRC").unwrap_or(DEFAULT.to_string());
    let folder = package.join(ROOT).join(named).join("src/i2c");
    for name in ["mod.rs", "config.rs", "blocking.rs", "nonblocking.rs"] {
        let file = folder.join(name);
        println!("cargo::rerun-if-changed={}", file.display());
        if !file.is_file() {
            println!(
                "cargo::error=no original file {}: set ORIGINAL_SRC to the folder that holds src/i2c",
                file.display()
            );
            return;
        }
    }

    let mut module = format!("include!({:?});\n", folder.join("mod.rs"));
    // A child module of `i2c` sees the link's private fields.
    let peek = package.join("src/peek.rs");
    if peek.is_file() {
        module += &format!("#[path = {peek:?}]\npub mod peek;\n");
    }
    let out = Path::new(&var("OUT_DIR").unwrap()).join("original.rs");
    std::fs::write(out, format!("pub mod i2c {{\n{module}}}\n")).unwrap();
}
