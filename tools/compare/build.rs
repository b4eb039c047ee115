//! Links the static library if it is there, and makes the stand-in: the second reading once more, to be run in the library's place.

use std::path::PathBuf;
use std::process::Command;
use std::{env, fs};

fn main() {
    let here = PathBuf::from(env::var_os("CARGO_MANIFEST_DIR").unwrap());
    let out = PathBuf::from(env::var_os("OUT_DIR").unwrap());
    library(&here);
    stand_in(&here, &out);
    versions(&here);
    println!("cargo::rerun-if-changed=build.rs");
}

/// The library lies in `target/staticlib`, or in the folder that `WITBOX_LIBRARY` names.
fn library(here: &std::path::Path) {
    println!("cargo::rerun-if-env-changed=WITBOX_LIBRARY");
    let named = env::var("WITBOX_LIBRARY").unwrap_or("target/staticlib".into());
    let folder = here.join("../..").join(&named);
    let archive = folder.join("libwitbox.a");
    println!("cargo::rerun-if-changed={}", archive.display());
    println!("cargo::rustc-env=WITBOX_LIBRARY={named}/libwitbox.a");
    if !archive.is_file() {
        return;
    }
    println!("cargo::rustc-cfg=have_library");
    println!("cargo::rustc-link-search=native={}", folder.display());
    println!("cargo::rustc-link-lib=static=witbox");
}

/// The stand-in is built from `src/model`, or from the folder that `COMPARE_STAND_IN` names: a copy with a rule broken.
fn stand_in(here: &std::path::Path, out: &std::path::Path) {
    println!("cargo::rerun-if-env-changed=COMPARE_STAND_IN");
    let folder = env::var_os("COMPARE_STAND_IN").map_or(here.join("src/model"), PathBuf::from);
    println!("cargo::rerun-if-changed={}", folder.display());
    let module = folder.join("mod.rs");
    let text =
        format!("#[allow(dead_code, unused_imports)]\n#[path = {module:?}]\npub mod stand_in;\n");
    fs::write(out.join("stand_in.rs"), text).unwrap();
}

/// The versions that docs/BENCH.md names: the compiler's, and those of the crates behind the Rust.
fn versions(here: &std::path::Path) {
    let rustc = env::var_os("RUSTC").unwrap();
    let output = Command::new(rustc).arg("--version").output().unwrap();
    let version = String::from_utf8_lossy(&output.stdout).trim().to_string();
    println!("cargo::rustc-env=COMPARE_RUSTC={version}");
    let lock = fs::read_to_string(here.join("Cargo.lock")).unwrap_or_default();
    let mut crates = Vec::new();
    for package in lock.split("[[package]]") {
        let field = |name: &str| {
            let line = package.lines().find(|l| l.starts_with(name));
            line.and_then(|l| l.split('"').nth(1)).unwrap_or("")
        };
        if matches!(field("name = "), "unicode-ident" | "indexmap") {
            crates.push(format!("{} {}", field("name = "), field("version = ")));
        }
    }
    println!("cargo::rustc-env=COMPARE_CRATES={}", crates.join(", "));
    println!("cargo::rerun-if-changed=Cargo.lock");
}
