//! Links the library's static archive, which `rt lib` makes in its crate.

use std::path::Path;

fn main() {
    let directory = Path::new(env!("CARGO_MANIFEST_DIR")).join("../crates/zaghdurem/out");
    let archive = directory.join("libzaghdurem.a");
    println!("cargo::rerun-if-changed=build.rs");
    println!("cargo::rerun-if-changed={}", archive.display());
    if !archive.is_file() {
        println!(
            "cargo::error=the library is not built: {} is missing; make it with `rt lib` in crates/zaghdurem",
            archive.display()
        );
        return;
    }
    println!("cargo::rustc-link-search=native={}", directory.display());
    println!("cargo::rustc-link-lib=static=zaghdurem");
}
