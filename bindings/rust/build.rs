//! Links libpunelovash.a and libpunelovash8.a, from the folder that PUNELOVASH_LIB_DIR names (from here, if it isn't absolute)
//! or the repository's target/staticlib.

use std::path::PathBuf;

fn main() {
    println!("cargo:rerun-if-env-changed=PUNELOVASH_LIB_DIR");
    println!("cargo:rerun-if-changed=build.rs");
    let here = PathBuf::from(std::env::var_os("CARGO_MANIFEST_DIR").unwrap_or_default());
    let named = std::env::var_os("PUNELOVASH_LIB_DIR");
    let folder = here.join(named.unwrap_or("../../target/staticlib".into()));
    println!("cargo:rustc-link-search=native={}", folder.display());
    for name in ["punelovash", "punelovash8"] {
        let archive = folder.join(format!("lib{name}.a"));
        if !archive.is_file() {
            println!(
                "cargo:warning={} is missing: build it, or name its folder in PUNELOVASH_LIB_DIR",
                archive.display()
            );
        }
        println!("cargo:rerun-if-changed={}", archive.display());
        println!("cargo:rustc-link-lib=static={name}");
    }
}
