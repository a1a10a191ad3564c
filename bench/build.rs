//! Tells the program which archive the binding links.

use std::env;

fn main() {
    let archive = env::var("DEP_SPLITTER_ARCHIVE").expect("host/rust/build.rs names it");
    println!("cargo:rustc-env=SPLITTER_ARCHIVE={archive}");
}
