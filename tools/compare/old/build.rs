//! Finds wit-parser's lex.rs and toposort.rs and has them compiled from where they lie, unchanged.

use std::path::{Path, PathBuf};
use std::{env, fs};

/// Where the two files are looked for, below the folder that `WIT_PARSER_SRC` names.
const BELOW: [&str; 2] = ["src/ast", "ast"];

fn main() {
    println!("cargo::rerun-if-env-changed=WIT_PARSER_SRC");
    let here = PathBuf::from(env::var_os("CARGO_MANIFEST_DIR").unwrap());
    let root = here.join("../../..");
    let folder = env::var("WIT_PARSER_SRC").unwrap_or("../shared/docs/src".into());
    let base = root.join(&folder);
    let found = BELOW.iter().map(|b| base.join(b)).find(|f| {
        println!("cargo::rerun-if-changed={}", f.join("lex.rs").display());
        println!(
            "cargo::rerun-if-changed={}",
            f.join("toposort.rs").display()
        );
        f.join("lex.rs").is_file() && f.join("toposort.rs").is_file()
    });
    let Some(ast) = found else {
        println!("cargo::error=the Rust is not here: no src/ast/lex.rs and src/ast/toposort.rs in {folder} (seen from the repository); name wit-parser's folder in WIT_PARSER_SRC. Nothing is compared.");
        return;
    };
    let out = PathBuf::from(env::var_os("OUT_DIR").unwrap()).join("followed.rs");
    fs::write(out, followed(&here, &ast.canonicalize().unwrap())).unwrap();
}

/// The modules that hold the two files.
fn followed(here: &Path, ast: &Path) -> String {
    let lex = ast.join("lex.rs");
    let sort = ast.join("toposort.rs");
    let inside = here.join("src/inside.rs");
    let held = "#[allow(dead_code, unused_imports, clippy::all)]";
    format!(
        "{held}\npub mod lex {{\n    include!({lex:?});\n    include!({inside:?});\n}}\n\
         {held}\n#[path = {sort:?}]\npub mod toposort;\n\
         /// The text of lex.rs, for the inputs of its own tests.\npub static LEX: &str = include_str!({lex:?});\n"
    )
}
