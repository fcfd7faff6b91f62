//! Says where the proved queue's static library is; `scripts/build capi` builds it.

use std::path::Path;

fn main() {
    let directory = Path::new(env!("CARGO_MANIFEST_DIR")).join("../crates/capi/out");
    let library = directory.join("libcapi.a");
    println!("cargo:rerun-if-changed={}", library.display());
    println!("cargo:rerun-if-changed=build.rs");
    if !library.exists() {
        println!(
            "cargo:warning={} is missing: run `scripts/build capi`",
            library.display()
        );
    }
    println!("cargo:rustc-link-search=native={}", directory.display());
    println!("cargo:rustc-link-lib=static=capi");
}
