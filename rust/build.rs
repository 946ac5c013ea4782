//! Links the static library of the proved functions, which `tools/library` builds.

use std::path::PathBuf;

fn main() {
    let package = PathBuf::from(std::env::var_os("CARGO_MANIFEST_DIR").expect("cargo sets it"));
    let folder = package.join("../target/lib");
    println!(
        "cargo:rerun-if-changed={}",
        folder.join("libmbrb.a").display()
    );
    println!("cargo:rustc-link-search=native={}", folder.display());
    println!("cargo:rustc-link-lib=static=mbrb");
}
