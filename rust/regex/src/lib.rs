//! As much of the package `regex` as the original's source names. It matches
//! patterns where it evaluates LIKE, and nothing here asks it to: the format has
//! no rule for the value of a LIKE.

/// Why every function here is never called.
const WHY: &str = "the original is never asked to evaluate LIKE";

/// The error of a pattern. There is none.
#[derive(Debug)]
pub struct Error;

/// A pattern. There is none.
#[derive(Debug)]
pub struct Regex;

impl Regex {
    /// Is never called.
    pub fn new(_pattern: &str) -> Result<Self, Error> {
        unreachable!("{WHY}")
    }

    /// Is never called.
    pub fn is_match(&self, _text: &str) -> bool {
        unreachable!("{WHY}")
    }
}

/// Is never called.
pub fn escape(_text: &str) -> String {
    unreachable!("{WHY}")
}
