//! Links the static library. `LIKHMOUT_LIB_DIR` names its folder where that is not `target/staticlib` of the repository.

use std::env;
use std::path::PathBuf;

fn main() {
    let here = env::var("CARGO_MANIFEST_DIR").expect("cargo sets it");
    let beside = PathBuf::from(here).join("../target/staticlib");
    let named = env::var_os("LIKHMOUT_LIB_DIR").filter(|folder| !folder.is_empty());
    let folder = named.map_or(beside, PathBuf::from);
    let library = folder.join("libexports.a");
    println!("cargo:rustc-link-search=native={}", folder.display());
    println!("cargo:rustc-link-lib=static=exports");
    println!("cargo:rustc-check-cfg=cfg(no_library)");
    println!("cargo:rustc-env=LIKHMOUT_LIBRARY={}", library.display());
    if !library.is_file() {
        println!("cargo:rustc-cfg=no_library");
    }
    println!("cargo:rerun-if-changed={}", library.display());
    println!("cargo:rerun-if-env-changed=LIKHMOUT_LIB_DIR");
    println!("cargo:rerun-if-changed=build.rs");
}
