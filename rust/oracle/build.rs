//! Finds the original's sources and hands their folder on.

use std::path::{Path, PathBuf};

/// Where the sources stand if `TOYDB_SRC` is not set, seen from the repository.
const DEFAULT: &str = "../shared/docs/src";

/// The two files of the original that are compiled.
const FILES: [&str; 2] = ["src/sql/parser/parser.rs", "src/sql/types/expression.rs"];

/// The repository root: two folders above this crate.
fn root() -> PathBuf {
    let here = std::env::var("CARGO_MANIFEST_DIR").expect("cargo names the crate's folder");
    Path::new(&here).join("../..")
}

fn main() {
    println!("cargo:rerun-if-env-changed=TOYDB_SRC");
    println!("cargo:rerun-if-changed=build.rs");
    let named = std::env::var("TOYDB_SRC").unwrap_or_else(|_| DEFAULT.to_string());
    let folder = root().join(&named);
    for file in FILES {
        let path = folder.join(file);
        if !path.is_file() {
            eprintln!(
                "TOYDB_SRC must name the folder of toyDB's sources, but `{named}` has no {file}."
            );
            std::process::exit(1);
        }
        println!("cargo:rerun-if-changed={}", path.display());
    }
    let folder = folder.canonicalize().expect("the folder was just seen");
    println!("cargo:rustc-env=ORACLE_SOURCES={}", folder.display());
}
