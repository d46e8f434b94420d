//! Links the library under test, libkobdrieft.a, which exports `kobdrieft_check_v9`,
//! `kobdrieft_build_v9`, `kobdrieft_stop_v9` and `kobdrieft_split_v9`.
//!
//! KOBDRIEFT_LIB_DIR is the directory it is in.

use std::env;
use std::path::PathBuf;
use std::process::exit;

fn main() {
    println!("cargo:rerun-if-env-changed=KOBDRIEFT_LIB_DIR");
    let dir = env::var_os("KOBDRIEFT_LIB_DIR").map_or_else(default_dir, PathBuf::from);
    let archive = dir.join("libkobdrieft.a");
    println!("cargo:rerun-if-changed={}", archive.display());
    if !archive.is_file() {
        eprintln!("{} is missing: run ./kobdrieft lib first", archive.display());
        exit(1);
    }
    println!("cargo:rustc-link-search=native={}", dir.display());
    println!("cargo:rustc-link-lib=static=kobdrieft");
}

fn default_dir() -> PathBuf {
    let package = env::var_os("CARGO_MANIFEST_DIR").expect("cargo sets this");
    PathBuf::from(package).join("../../target/lib")
}
