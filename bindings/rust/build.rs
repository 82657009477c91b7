//! Links libcapi.a from the folder that BPL_LIB_DIR names, or else from the repository's own target/staticlib.

use std::env;
use std::path::PathBuf;

fn main() {
    println!("cargo:rerun-if-env-changed=BPL_LIB_DIR");
    let folder = match env::var_os("BPL_LIB_DIR") {
        Some(folder) => PathBuf::from(folder),
        None => PathBuf::from(
            env::var_os("CARGO_MANIFEST_DIR").expect("cargo names the crate's folder"),
        )
        .join("../../target/staticlib"),
    };
    let archive = folder.join("libcapi.a");
    println!("cargo:rerun-if-changed={}", archive.display());
    if !archive.is_file() {
        panic!(
            "{} is missing: make it by `scripts/build capi`, or name its folder in BPL_LIB_DIR",
            archive.display()
        );
    }
    println!("cargo:rustc-link-search=native={}", folder.display());
    println!("cargo:rustc-link-lib=static=capi");
}
