//! Links libopening_tree_c.a, the proved library.

use std::path::PathBuf;
use std::{env, process};

const FOLDER_VARIABLE: &str = "OPENING_TREE_LIB";

fn main() {
    println!("cargo:rerun-if-env-changed={FOLDER_VARIABLE}");
    let folder = match env::var_os(FOLDER_VARIABLE) {
        Some(folder) => PathBuf::from(folder),
        None => PathBuf::from(env::var_os("CARGO_MANIFEST_DIR").expect("cargo sets it")).join("../../crates/opening_tree_c/out"),
    };
    let archive = folder.join("libopening_tree_c.a");
    println!("cargo:rerun-if-changed={}", archive.display());
    if !archive.is_file() {
        eprintln!(
            "{} is not there: `make library` makes it, or {FOLDER_VARIABLE} names the folder that has it.",
            archive.display()
        );
        process::exit(1);
    }
    println!("cargo:rustc-link-search=native={}", folder.display());
    println!("cargo:rustc-link-lib=static=opening_tree_c");
}
