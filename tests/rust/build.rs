//! Finds the archive of the library when the feature `linked` is on.
//!
//! The folder is `../../target/staticlib`, or the one that RIBALONGA_LIB names.

use std::env;
use std::path::PathBuf;

fn main() {
    println!("cargo:rerun-if-changed=build.rs");
    println!("cargo:rerun-if-env-changed=RIBALONGA_LIB");
    if env::var_os("CARGO_FEATURE_LINKED").is_none() {
        return;
    }
    let here = PathBuf::from(env::var_os("CARGO_MANIFEST_DIR").expect("set by cargo"));
    let folder = match env::var_os("RIBALONGA_LIB") {
        Some(named) => here.join(named),
        None => here.join("../../target/staticlib"),
    };
    let archive = folder.join("libribalonga.a");
    if !archive.is_file() {
        eprintln!();
        eprintln!("The archive of the library is missing: {}", archive.display());
        eprintln!("Build it in the root of the repository:   tools/archive");
        eprintln!("or name the folder that has it:           RIBALONGA_LIB=/some/folder");
        eprintln!("or leave out the feature `linked`, and only the model is built and tested.");
        eprintln!();
        std::process::exit(1);
    }
    let folder = folder.canonicalize().unwrap_or(folder);
    println!("cargo:rerun-if-changed={}", archive.display());
    println!("cargo:rustc-link-search=native={}", folder.display());
    println!("cargo:rustc-link-lib=static=ribalonga");
}
