//! Links with libFuzzer, whose archive the script ./fuzz names. Without it the tests alone can be built.

use std::env;

fn main() {
    println!("cargo::rerun-if-changed=build.rs");
    println!("cargo::rerun-if-env-changed=FUZZER_ARCHIVE");
    if let Ok(archive) = env::var("FUZZER_ARCHIVE") {
        println!("cargo::rerun-if-changed={archive}");
        println!("cargo::rustc-link-arg={archive}");
        println!("cargo::rustc-link-arg=-lstdc++");
    }
}
