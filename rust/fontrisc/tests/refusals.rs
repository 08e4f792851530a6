//! The table of refusals of the program `show`, the header for C and this crate
//! name the same refusals, by the same numbers, with places that count the same.
//! The sentences are each one's own.

use fontrisc::Refusal;

/// The source with the names that `show` prints.
const NAMES: &str = include_str!("../../../crates/drawing/src/names.rt");

/// The source with the numbers.
const NUMBERS: &str = include_str!("../../../crates/refusals/src/lib.rt");

/// The header.
const HEADER: &str = include_str!("../../../include/fontrisc.h");

/// A refusal's number and name, and what its place is the number of.
type Entry = (u32, String, Option<&'static str>);

/// The entries of this crate.
fn ours() -> Vec<Entry> {
    let entry = |why: &Refusal| (why.number(), why.name().to_string(), why.place_of());
    Refusal::ALL.iter().map(entry).collect()
}

/// What is counted, by the word for it.
fn counted(word: &str) -> Option<&'static str> {
    match word {
        "token" | "Some(\"token\")" => Some("token"),
        "row" | "Some(\"row\")" => Some("row"),
        "-" | "None" => None,
        _ => panic!("a place counts no `{word}`"),
    }
}

/// The arms of the `match` that follows `head` in a source: the variants of
/// `Refusal` that an arm takes, `_` for all others, and what it answers.
fn arms<'a>(source: &'a str, head: &str) -> Vec<(&'a str, &'a str)> {
    let from = source.find(head).unwrap_or_else(|| panic!("there is no `{head}`"));
    let body = &source[from..];
    let body = &body[..body.find("\n}\n").expect("its end")];
    let arms = body.lines().filter_map(|line| line.trim().trim_end_matches(',').split_once(" => "));
    let of_each = arms.flat_map(|(variants, answer)| {
        variants.split(" | ").map(move |name| (name.trim_start_matches("Refusal::"), answer))
    });
    of_each.collect()
}

/// What the arm for a variant answers.
fn answer<'a>(arms: &[(&'a str, &'a str)], variant: &str) -> &'a str {
    let is = |name: &str| arms.iter().find(|arm| arm.0 == name);
    is(variant).or_else(|| is("_")).unwrap_or_else(|| panic!("no arm takes `{variant}`")).1
}

/// The entries of `show`, by the three functions that have them: a number, a name,
/// and what its place counts. The four needs are one refusal to callers.
fn of_show() -> Vec<Entry> {
    let numbers = arms(NUMBERS, "fn from(why: Refusal) -> u32");
    let names = arms(NAMES, "fn name_of(");
    let places = arms(NAMES, "fn counted_by(");
    let entry = |&(variant, number): &(&str, &str)| {
        let name = answer(&names, variant).trim_matches('"').to_string();
        (number.parse().expect("a number"), name, counted(answer(&places, variant)))
    };
    let mut entries: Vec<Entry> = numbers.iter().map(entry).collect();
    entries.dedup();
    entries
}

/// The entries of the header: the comment after a number ends with the place.
fn of_header() -> Vec<Entry> {
    let lines = HEADER.lines().filter_map(|line| line.strip_prefix("#define FONTRISC_"));
    let entries = lines.filter_map(|line| {
        let (_, place) = line.strip_suffix(" */")?.rsplit_once("; ")?;
        let mut words = line.split_whitespace();
        let (name, number) = (words.next()?, words.next()?);
        let counts = match place {
            "0" => "-",
            "the row" => "row",
            "the count of tokens" | "the first of them" => "token",
            place => place.rsplit(' ').next()?,
        };
        Some((number.parse().expect("a number"), name.to_string(), counted(counts)))
    });
    entries.collect()
}

#[test]
fn show_names_the_same_refusals() {
    assert_eq!(of_show(), ours());
}

#[test]
fn the_header_gives_the_same_places() {
    assert_eq!(of_header(), ours());
}
