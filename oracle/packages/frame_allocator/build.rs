//! Turns `cfg(test)` on for this one package, so that its `#[cfg(test)] mod test;` takes in
//! `window.rs`, which the build copies beside its sources as `test.rs`.

fn main() {
    println!("cargo:rustc-cfg=test");
    println!("cargo:rerun-if-changed=build.rs");
}
