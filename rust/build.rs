//! Finds libahb.a: in the folder AHB_LIB, else where `tools/make ahb` writes it.

use std::env;
use std::path::PathBuf;

fn main() {
    println!("cargo::rerun-if-env-changed=AHB_LIB");
    println!("cargo::rerun-if-changed=build.rs");
    let default =
        PathBuf::from(env::var_os("CARGO_MANIFEST_DIR").unwrap_or_default()).join("../target/staticlib");
    let folder = env::var_os("AHB_LIB").filter(|s| !s.is_empty()).map_or(default, PathBuf::from);
    let library = folder.join("libahb.a");
    println!("cargo::rerun-if-changed={}", library.display());
    if !library.is_file() {
        println!(
            "cargo::error={} is not there: run `tools/make ahb` at the root of the repository, or set AHB_LIB to the folder that has libahb.a",
            library.display()
        );
        return;
    }
    println!("cargo::rustc-link-search=native={}", folder.display());
}
