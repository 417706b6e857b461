//! Links the static library that `rt lib` writes in crates/ffi.

use std::env::var;
use std::path::Path;

fn main() {
    let package = var("CARGO_MANIFEST_DIR").unwrap();
    let folder = Path::new(&package).join("../../crates/ffi/out");
    println!(
        "cargo::rerun-if-changed={}",
        folder.join("libffi.a").display()
    );
    println!("cargo::rustc-link-search=native={}", folder.display());
    println!("cargo::rustc-link-lib=static=ffi");
}
