//! Links libhdf4.a from ../../../target/staticlib, or from the folder in HDF4_LIB_DIR, which counts from here where it is relative.

use std::env;
use std::path::PathBuf;

fn main() {
    let manifest = PathBuf::from(env::var_os("CARGO_MANIFEST_DIR").expect("set by cargo"));
    let folder = match env::var_os("HDF4_LIB_DIR") {
        Some(folder) => manifest.join(folder),
        None => manifest.join("../../../target/staticlib"),
    };
    println!("cargo:rerun-if-env-changed=HDF4_LIB_DIR");
    println!("cargo:rerun-if-changed=build.rs");
    println!("cargo:rerun-if-changed={}", folder.join("libhdf4.a").display());
    println!("cargo:rustc-link-search=native={}", folder.display());
    println!("cargo:rustc-link-lib=static=hdf4");
}
