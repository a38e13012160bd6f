//! Links libphysica.a from PHYSICA_LIB_DIR, or from target/staticlib of the repository that holds this folder.
use std::env;
use std::path::PathBuf;

fn main() {
    println!("cargo:rerun-if-env-changed=PHYSICA_LIB_DIR");
    let dir = env::var_os("PHYSICA_LIB_DIR").map(PathBuf::from).unwrap_or_else(|| {
        PathBuf::from(env::var_os("CARGO_MANIFEST_DIR").expect("set by cargo")).join("../target/staticlib")
    });
    let archive = dir.join("libphysica.a");
    if !archive.exists() {
        panic!("{} is not there: run `sh tools/library.sh` at the repository's root, or set PHYSICA_LIB_DIR", archive.display());
    }
    println!("cargo:rerun-if-changed={}", archive.display());
    println!("cargo:rustc-link-search=native={}", dir.display());
}
