//! A program over the header and the library, as C and as C++: it is compiled
//! with every warning on, and run.

use std::path::{Path, PathBuf};
use std::process::Command;

/// Reads `a = 1` and `a = 1 +`, and spells a token. It is C and C++ alike.
const PROGRAM: &str = r#"
#include "fontrisc.h"
#include <stdio.h>

int main(void) {
    const uint8_t text[] = "a = 1 +";
    const uint32_t tokens[] = {
        FONTRISC_TOKEN_IDENT, 0, 1,  FONTRISC_TOKEN_EQUAL, 2, 1,
        FONTRISC_TOKEN_NUMBER, 4, 1, FONTRISC_TOKEN_PLUS, 6, 1,
    };
    uint64_t rows[12] = {7, 7, 7, 7, 7, 7, 7, 7, 7, 7, 7, 7};
    uint64_t at = 0, start = 0, length = 0;
    uint32_t refusal = fontrisc_parse(text, 7, tokens, 9, rows, 12, &at);
    printf("%u %u;", (unsigned)refusal, (unsigned)at);
    for (int i = 0; i < 10; i++) printf(" %u", (unsigned)rows[i]);
    refusal = fontrisc_parse(text, 7, tokens, 12, rows, 12, &at);
    printf("; %d %u", refusal == FONTRISC_END, (unsigned)at);
    fontrisc_spelled(text, 7, tokens, 12, 3, &start, &length);
    printf("; %u %u\n", (unsigned)start, (unsigned)length);
    return 0;
}
"#;

const SAID: &str = "0 3; 9 0 0 2 1 0 19 0 1 7; 1 4; 6 1\n";

/// Compiles a program with every warning on, and answers what it prints.
fn run(compiler: &str, language: &str, source: &Path, name: &str) -> String {
    let program = Path::new(env!("CARGO_TARGET_TMPDIR")).join(name);
    let include = Path::new(env!("CARGO_MANIFEST_DIR")).join("../../include");
    let library = Path::new(env!("FONTRISC_LIB_FOLDER")).join("libfontrisc.a");
    let compiled = Command::new(compiler)
        .args([language, "-pedantic", "-Wall", "-Wextra", "-Werror", "-I"])
        .args([include.as_path(), source, library.as_path()])
        .arg("-o")
        .arg(&program)
        .output()
        .unwrap_or_else(|why| panic!("`{compiler}`: {why}"));
    assert!(compiled.status.success(), "{}", String::from_utf8_lossy(&compiled.stderr));
    let said = Command::new(&program).output().unwrap();
    assert!(said.status.success());
    String::from_utf8(said.stdout).unwrap()
}

/// Writes the program to a file of this name.
fn program(name: &str) -> PathBuf {
    let source = Path::new(env!("CARGO_TARGET_TMPDIR")).join(name);
    std::fs::write(&source, PROGRAM).unwrap();
    source
}

#[test]
fn a_c_program_gets_the_same_answers() {
    assert_eq!(run("cc", "-std=c99", &program("from_c.c"), "from_c"), SAID);
}

/// The library's names are C's: without `extern "C"` this would not link.
#[test]
fn a_cpp_program_gets_the_same_answers() {
    assert_eq!(run("c++", "-std=c++11", &program("from_cpp.cpp"), "from_cpp"), SAID);
}

/// The example of the repository.
#[test]
fn the_example_runs() {
    let source = Path::new(env!("CARGO_MANIFEST_DIR")).join("../../examples/filter.c");
    let said = run("cc", "-std=c99", &source, "filter");
    let lines: Vec<&str> = said.lines().collect();
    assert_eq!(lines[0], "10 rows, columns: op op fenced");
    assert_eq!(lines[1..3], ["clause 0: row 2 row 5", "  a lookup on column 0: 'free' 'handover'"]);
    assert_eq!(lines[3..], ["clause 1: NOT row 7", "  no lookup: every cell has to be asked"]);
}
