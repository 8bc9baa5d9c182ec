//! Links the static library, which `run` has built.

use std::env;
use std::path::Path;

fn main() {
    let here = env::var("CARGO_MANIFEST_DIR").expect("cargo sets it");
    let folder = Path::new(&here).join("../target/staticlib");
    println!("cargo:rustc-link-search=native={}", folder.display());
    println!("cargo:rustc-link-lib=static=exports");
    println!("cargo:rerun-if-changed={}", folder.join("libexports.a").display());
    println!("cargo:rerun-if-changed=build.rs");
}
