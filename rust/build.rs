//! Links libexports.a from the folder that WALBRYTS_LIB names, else from ../crates/exports/out.
//! A relative path counts from this package's folder.

use std::env;
use std::path::Path;

fn main() {
    println!("cargo:rerun-if-env-changed=WALBRYTS_LIB");
    println!("cargo:rerun-if-changed=build.rs");
    let package = env::var("CARGO_MANIFEST_DIR").expect("set by cargo");
    let named = env::var("WALBRYTS_LIB").unwrap_or("../crates/exports/out".into());
    let folder = Path::new(&package).join(named);
    let library = folder.join("libexports.a");
    println!("cargo:rerun-if-changed={}", library.display());
    if !library.exists() {
        println!(
            "cargo:warning={} isn't there: `rt lib` in crates/exports makes it, WALBRYTS_LIB names its folder",
            library.display()
        );
    }
    println!("cargo:rustc-link-search=native={}", folder.display());
    println!("cargo:rustc-link-lib=static=exports");
}
