//! Links the Rattle module: crates/ffi/out/libffi.a, which `rt lib` writes there.

use std::env::var;
use std::path::PathBuf;

fn main() {
    let folder = PathBuf::from(var("CARGO_MANIFEST_DIR").unwrap()).join("../crates/ffi/out");
    println!(
        "cargo::rerun-if-changed={}",
        folder.join("libffi.a").display()
    );
    println!("cargo::rustc-link-search=native={}", folder.display());
    println!("cargo::rustc-link-lib=static=ffi");
}
