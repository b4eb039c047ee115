//! Finds the archive: `target/staticlib/libwitbox.a` of this repository, or `libwitbox.a` in the folder that WITBOX_LIB_DIR names.

use std::env;
use std::path::{Path, PathBuf};
use std::process::exit;

fn main() {
    println!("cargo:rerun-if-changed=build.rs");
    println!("cargo:rerun-if-env-changed=WITBOX_LIB_DIR");
    let folder = folder();
    let archive = folder.join("libwitbox.a");
    println!("cargo:rerun-if-changed={}", archive.display());
    if !archive.is_file() {
        eprintln!("witbox: {} is not there", archive.display());
        eprintln!("witbox: run: tools/staticlib");
        eprintln!("witbox: at the top of the repository, or let WITBOX_LIB_DIR name the folder of libwitbox.a");
        exit(1);
    }
    println!("cargo:rustc-link-search=native={}", folder.display());
    println!("cargo:rustc-link-lib=static=witbox");
}

fn folder() -> PathBuf {
    if let Some(named) = env::var_os("WITBOX_LIB_DIR") {
        return PathBuf::from(named);
    }
    let here = env::var_os("CARGO_MANIFEST_DIR").expect("cargo names the folder of the manifest");
    let top = Path::new(&here).ancestors().nth(2);
    top.expect("the crate lies in bindings/rust")
        .join("target/staticlib")
}
