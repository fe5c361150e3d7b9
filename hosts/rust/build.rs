//! Finds libterrain.a: in the folder that TERRAIN_LIB_DIR names, or where `.ci/archive` writes it.
use std::{env, path::PathBuf};

fn main() {
    let built = PathBuf::from(env!("CARGO_MANIFEST_DIR")).join("../../target/staticlib");
    let folder = env::var_os("TERRAIN_LIB_DIR").map_or(built, PathBuf::from);
    let archive = folder.join("libterrain.a");
    assert!(archive.is_file(), "no {} (TERRAIN_LIB_DIR names its folder)", archive.display());
    println!("cargo:rerun-if-env-changed=TERRAIN_LIB_DIR");
    println!("cargo:rerun-if-changed={}", archive.display());
    println!("cargo:rustc-link-search=native={}", folder.display());
    println!("cargo:rustc-link-lib=static=terrain");
}
