//! The kinds of tokens and rows have the same names and numbers in the header
//! for C, in this crate, and in the library's own source.

use std::path::Path;

/// The header.
const HEADER: &str = include_str!("../../../include/fontrisc.h");

/// Names and their numbers.
type Names = Vec<(String, u64)>;

/// A name and its number, from two parts of a line.
fn named(name: &str, number: &str) -> (String, u64) {
    let number = number.trim().parse().unwrap_or_else(|_| panic!("{name} has no number"));
    (name.to_string(), number)
}

/// What the header's enums give the names that start with a prefix.
fn in_header(prefix: &str) -> Names {
    let words = HEADER.split([',', '\n', '{', '}']);
    let members = words.filter_map(|part| part.trim().strip_prefix(prefix)?.split_once(" = "));
    members.map(|(name, number)| named(name, number)).collect()
}

/// The constants of a source, in Rust or in Rattle: both write them alike.
fn in_source(source: &str) -> Names {
    let constants = source.lines().filter_map(|line| line.strip_prefix("pub const "));
    let parts = constants.map(|line| {
        let (name, rest) = line.split_once(": u").expect("a name and a type");
        let (_, number) = rest.split_once(" = ").expect("a number");
        named(name, number.split_once(';').expect("its end").0)
    });
    parts.collect()
}

/// The kinds of each crate of the library that has some in its `src/kind.rt`,
/// without the last one's second name.
fn in_library() -> Vec<Names> {
    let crates = Path::new(env!("CARGO_MANIFEST_DIR")).join("../../crates");
    let crates = std::fs::read_dir(crates).expect("the crates").flatten();
    let sources = crates.filter_map(|entry| {
        let source = entry.path().join("src/kind.rt");
        source.is_file().then(|| std::fs::read_to_string(source).expect("a source"))
    });
    let kinds = sources.map(|source| {
        let mut names = in_source(&source);
        names.retain(|(name, _)| name != "LAST");
        names
    });
    kinds.collect()
}

/// Three lists are the same, and count up from 1.
fn same(prefix: &str, here: &str, count: usize) {
    let ours = in_source(here);
    assert!(ours.iter().map(|(_, number)| *number).eq(1..=count as u64), "{prefix} {ours:?}");
    assert_eq!(in_header(prefix), ours);
    assert!(in_library().contains(&ours), "no crate has these kinds: {ours:?}");
}

#[test]
fn the_kinds_of_tokens() {
    same("FONTRISC_TOKEN_", include_str!("../src/token.rs"), 88);
}

#[test]
fn the_kinds_of_syntax_rows() {
    same("FONTRISC_SYNTAX_", include_str!("../src/syntax.rs"), 31);
}

#[test]
fn the_kinds_of_predicate_rows() {
    same("FONTRISC_ROW_", include_str!("../src/predicate.rs"), 24);
}
