//! Links the static library that `host/build.sh` writes.

use std::path::PathBuf;

fn main() {
    let here = PathBuf::from(std::env::var("CARGO_MANIFEST_DIR").expect("cargo sets it"));
    let folder = here.join("../../target/staticlib");
    println!("cargo:rerun-if-changed={}", folder.join("libdesk.a").display());
    println!("cargo:rustc-link-search=native={}", folder.display());
    println!("cargo:rustc-link-lib=static=desk");
}
