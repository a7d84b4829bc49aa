//! With the feature `proved`, links libexports.a from the folder that
//! WALBRYTS_LIB names. A relative path counts from this package's folder.

use std::env;
use std::path::Path;

fn main() {
    println!("cargo:rerun-if-env-changed=WALBRYTS_LIB");
    println!("cargo:rerun-if-changed=build.rs");
    if env::var_os("CARGO_FEATURE_PROVED").is_none() {
        return;
    }
    let package = env::var("CARGO_MANIFEST_DIR").expect("set by cargo");
    let named = env::var("WALBRYTS_LIB").unwrap_or("../../crates/exports/out".into());
    let folder = Path::new(&package).join(named);
    println!("cargo:rerun-if-changed={}", folder.join("libexports.a").display());
    println!("cargo:rustc-link-search=native={}", folder.display());
    println!("cargo:rustc-link-lib=static=exports");
}
