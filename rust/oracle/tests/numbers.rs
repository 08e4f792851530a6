//! The number rule against what the original parser reads as a number.

use oracle::layout::Row;
use oracle::parser::{Reading, read};
use oracle::plain::reading::syntax;
use oracle::plain::refusal::BAD_NUMBER;
use oracle::plain::{Number, number};

/// The original parser's reading of one number token.
fn original(bytes: &[u8]) -> Number {
    match read(bytes, &[1, 0, bytes.len() as u32]) {
        Reading::Rows(rows) if rows[0].kind == syntax::INTEGER => Number::Integer(rows[0].x),
        Reading::Rows(rows) => {
            assert_eq!(rows, [Row::new(syntax::FLOAT, 0, 0)]);
            Number::Float
        }
        Reading::Refused(BAD_NUMBER, 0) => Number::Neither,
        other => panic!("{bytes:?} gave {other:?}"),
    }
}

/// The classes of spellings that only the original parser takes.
#[derive(Clone, Copy, Debug, PartialEq, Eq)]
enum Class {
    /// A sign stands first.
    Sign,
    /// A point stands first, with a digit after it.
    Point,
    /// The spelling is a word for infinity or for no number.
    Word,
}

/// The class of a spelling; a sign counts before what follows it.
fn class(bytes: &[u8]) -> Option<Class> {
    match bytes {
        [b'+' | b'-', ..] => Some(Class::Sign),
        [b'.', b'0'..=b'9', ..] => Some(Class::Point),
        _ => {
            let lower = bytes.to_ascii_lowercase();
            let word = [&b"inf"[..], b"infinity", b"nan"].contains(&&lower[..]);
            word.then_some(Class::Word)
        }
    }
}

/// Compares one spelling; answers the class if the two differ.
fn compare(bytes: &[u8]) -> Option<Class> {
    let (plain, original) = (number(bytes), original(bytes));
    if plain == original {
        return None;
    }
    let shown = String::from_utf8_lossy(bytes);
    assert_eq!((plain, original), (Number::Neither, Number::Float), "{shown}");
    Some(class(bytes).unwrap_or_else(|| panic!("{shown} is of no listed class")))
}

#[test]
fn every_short_spelling() {
    let alphabet = b"019.eE+-x_";
    let mut counts = [0, 0];
    let mut compared = 0;
    for length in 0..=5 {
        for n in 0..alphabet.len().pow(length) {
            let digit = |place: u32| alphabet[n / alphabet.len().pow(place) % alphabet.len()];
            let bytes: Vec<u8> = (0..length).map(digit).collect();
            compared += 1;
            match compare(&bytes) {
                None => {}
                Some(Class::Sign) => counts[0] += 1,
                Some(Class::Point) => counts[1] += 1,
                Some(Class::Word) => unreachable!("no word is spelled with these"),
            }
        }
    }
    println!("{compared} spellings: {} with a sign first, {} with a point", counts[0], counts[1]);
    assert!(counts.iter().all(|count| *count > 0));
}

/// Spellings that both take for a Float.
const FLOATS: [&str; 9] = [
    "1E-05",
    "9223372036854775808.",
    "1e400",
    "1e99999999999999999999",
    "1e-99999999999999999999",
    "1.",
    "1.e5",
    "1.E-5",
    "0.0",
];

/// Spellings that both take for no number.
const NO_NUMBERS: [&str; 22] = [
    "9223372036854775808",
    "18446744073709551616",
    "99999999999999999999999999999999999999999999",
    "1e5.",
    "1.5.2",
    "1e",
    "1e+",
    "1.5e",
    "e5",
    ".",
    ".e5",
    "",
    " 1",
    "1 ",
    "1f",
    "0x10",
    "1_000",
    "1,5",
    "\u{661}",
    "in",
    "infinit",
    "nan0",
];

/// Both take a spelling for the same.
fn shared(spelling: &str, expected: Number) {
    assert_eq!(compare(spelling.as_bytes()), None, "{spelling}");
    assert_eq!(number(spelling.as_bytes()), expected, "{spelling}");
}

#[test]
fn long_and_limiting_spellings_are_shared() {
    let zeros = "0".repeat(300);
    let after_zeros = |digits: &str| format!("{zeros}{digits}");
    let most = i64::MAX.to_string();
    for spelling in [most.clone(), after_zeros(&most)] {
        shared(&spelling, Number::Integer(i64::MAX as u64));
    }
    shared("007", Number::Integer(7));
    shared(&zeros, Number::Integer(0));
    FLOATS.iter().for_each(|spelling| shared(spelling, Number::Float));
    shared(&format!("{zeros}.{zeros}"), Number::Float);
    shared(&format!("1e{zeros}1"), Number::Float);
    shared(&format!("{}.5", "9".repeat(400)), Number::Float);
    NO_NUMBERS.iter().for_each(|spelling| shared(spelling, Number::Neither));
    shared(&after_zeros("9223372036854775808"), Number::Neither);
}

#[test]
fn every_short_word() {
    // All spellings of up to eight letters would be too many: every word with
    // up to two changed letters stands for them.
    let mut words = 0;
    for word in ["inf", "nan", "infinity"] {
        for a in 0..word.len() {
            for b in 0..word.len() {
                for with in ["", "I", "n", "X", "0", ".", "nn"] {
                    let mut changed: Vec<String> = word.chars().map(String::from).collect();
                    changed[a] = changed[a].to_uppercase();
                    changed[b] = if with == "X" { changed[b].to_uppercase() } else { with.into() };
                    words += usize::from(compare(changed.concat().as_bytes()).is_some());
                }
            }
        }
    }
    assert!(words > 0);
    for word in ["inf", "INF", "iNf", "nan", "NaN", "infinity", "Infinity"] {
        assert_eq!(compare(word.as_bytes()), Some(Class::Word), "{word}");
    }
    for word in ["+inf", "-nan", "+.5", "-0", "+1", "-1e5"] {
        assert_eq!(compare(word.as_bytes()), Some(Class::Sign), "{word}");
    }
}
