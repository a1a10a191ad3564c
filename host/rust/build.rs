//! Links libsplitter.a from SPLITTER_LIB_DIR, or from the repository's target/staticlib.

use std::path::PathBuf;
use std::{env, process};

fn main() {
    println!("cargo:rerun-if-env-changed=SPLITTER_LIB_DIR");
    let package = env::var_os("CARGO_MANIFEST_DIR").map_or_else(PathBuf::new, PathBuf::from);
    let folder = match env::var_os("SPLITTER_LIB_DIR") {
        Some(folder) => PathBuf::from(folder),
        None => package.join("../../target/staticlib"),
    };
    let archive = folder.join("libsplitter.a");
    println!("cargo:rerun-if-changed={}", archive.display());
    if !archive.is_file() {
        eprintln!(
            "{} is not there: make lib builds it, or SPLITTER_LIB_DIR names its folder",
            archive.display()
        );
        process::exit(1);
    }
    println!("cargo:rustc-link-search=native={}", folder.display());
    println!("cargo:rustc-link-lib=static=splitter");
    println!("cargo:archive={}", archive.display()); // DEP_SPLITTER_ARCHIVE for the build of a crate that depends on this one
}
