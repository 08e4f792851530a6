//! Finds the static library and links it.

use std::path::{Path, PathBuf};

/// The library's file.
const FILE: &str = "libfontrisc.a";

/// The folder that `FONTRISC_LIB` names, or the one where the library is built.
/// A relative path counts from the repository root, two folders above this crate.
fn folder() -> PathBuf {
    let here = std::env::var("CARGO_MANIFEST_DIR").expect("cargo names the crate's folder");
    let named = std::env::var_os("FONTRISC_LIB").unwrap_or_else(|| "crates/fontrisc/out".into());
    Path::new(&here).join("../..").join(named)
}

fn main() {
    println!("cargo::rerun-if-env-changed=FONTRISC_LIB");
    println!("cargo::rerun-if-changed=build.rs");
    let folder = folder();
    let Ok(file) = folder.join(FILE).canonicalize() else {
        eprintln!(
            "{FILE} is not in `{}`: run `rt lib` in crates/fontrisc, \
             or let FONTRISC_LIB name the folder that holds it.",
            folder.display()
        );
        std::process::exit(1);
    };
    let folder = file.parent().expect("a file stands in a folder");
    println!("cargo::rerun-if-changed={}", file.display());
    println!("cargo::rustc-link-search=native={}", folder.display());
    println!("cargo::rustc-link-lib=static=fontrisc");
    println!("cargo::rustc-env=FONTRISC_LIB_FOLDER={}", folder.display());
}
