//! Links libdergamoyne.a: from the folder that DERGAMOYNE_LIB names, or else from the repository's target/staticlib, where
//! `tools/archive` writes it.
use std::env;
use std::path::PathBuf;

fn main() {
    let folder = env::var_os("DERGAMOYNE_LIB").map(PathBuf::from).unwrap_or_else(|| {
        PathBuf::from(env::var_os("CARGO_MANIFEST_DIR").expect("cargo sets it")).join("../../target/staticlib")
    });
    let archive = folder.join("libdergamoyne.a");
    if !archive.exists() {
        println!("cargo:warning=there is no {}: make it by `tools/archive`", archive.display());
    }
    println!("cargo:rustc-link-search=native={}", folder.display());
    println!("cargo:rustc-link-lib=static=dergamoyne");
    println!("cargo:rerun-if-env-changed=DERGAMOYNE_LIB");
    println!("cargo:rerun-if-changed={}", archive.display());
}
