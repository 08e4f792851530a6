//! What the original answers, and where that counts: everywhere outside the
//! classes of docs/DIFFERENCES.md.

use oracle::expression::Clause;
use oracle::layout::{ROW_WIDTH, row_count, table_of};
use oracle::parser::Reading;
use oracle::plain::limit;
use oracle::plain::refusal::*;

/// How the library's answer stands to the original's.
#[derive(Clone, Debug, PartialEq, Eq)]
pub enum Verdict {
    /// The same.
    Same,
    /// It was not asked: it has no such notion, or would take too long.
    NotAsked,
    /// Another answer, of the class with this number in docs/DIFFERENCES.md.
    Class(usize),
    /// Another answer, outside every class.
    Other(String),
}

/// Holds an answer of `parse` to the parser's. `rows` is the lent table.
/// Runs on the caller's stack, which must be a large one.
pub fn verdict_on_parse(
    text: &[u8],
    tokens: &[u32],
    number: u32,
    at: u64,
    rows: &[u64],
) -> Verdict {
    if number == TOO_LONG || number == BAD_TABLE {
        return Verdict::NotAsked;
    }
    let reading = oracle::parser::read_here(text, tokens);
    let same = match &reading {
        Reading::Outside => return Verdict::NotAsked,
        Reading::Rows(made) => number == 0 && table_of(made) == rows[..ROW_WIDTH * at as usize],
        Reading::Refused(n, place) => (*n, *place) == (number, at),
    };
    if same {
        return Verdict::Same;
    }
    let class = match number {
        TOO_DEEP if not_before(&reading, at) => Some(1),
        NO_ROOM if not_before(&reading, at) && more_rows(&reading, rows) => Some(2),
        BAD_NUMBER if not_before(&reading, at) => spelling_class(number_token(text, tokens, at)),
        _ => None,
    };
    class.map_or_else(|| Verdict::Other(format!("{reading:?}")), Verdict::Class)
}

/// Whether the parser accepts, or refuses at this place or later: the limits
/// that it does not have stop a reading, and never change it before that.
fn not_before(reading: &Reading, at: u64) -> bool {
    !matches!(reading, Reading::Refused(_, place) if *place < at)
}

/// Whether the parser, if it accepts, needs more rows than the table has room for.
fn more_rows(reading: &Reading, table: &[u64]) -> bool {
    let room = row_count(table).min(limit::ROWS);
    !matches!(reading, Reading::Rows(made) if made.len() <= room)
}

/// The bytes of a Number token.
fn number_token<'t>(text: &'t [u8], tokens: &[u32], n: u64) -> &'t [u8] {
    let (start, length) = oracle::plain::spelled(text, tokens, n as usize);
    &text[start as usize..][..length as usize]
}

/// The class of a spelling that the parser takes for a number and the format
/// does not.
fn spelling_class(bytes: &[u8]) -> Option<usize> {
    let lower = bytes.to_ascii_lowercase();
    match bytes.first() {
        Some(b'.') => Some(3),
        Some(b'+' | b'-') => Some(4),
        _ if matches!(&lower[..], b"inf" | b"infinity" | b"nan") => Some(5),
        _ => None,
    }
}

/// The clauses of the expression source, if it can be asked for them in good
/// time: an accepted predicate with few clauses.
pub fn clauses(text: &[u8], rows: &[u64], count: u64) -> Option<Vec<Clause>> {
    let small = row_count(rows) <= 400 && count <= 300;
    small.then(|| oracle::expression::split_here(text, rows))
}

/// Holds the clauses of a predicate to those of the expression source: first
/// their literals, which go by the atoms' rows, then what its atoms are by then.
pub fn verdict_on_split(made: &[Clause], literals: &[u32], ends: &[u32]) -> Verdict {
    let lists: Option<Vec<&Vec<u64>>> = made.iter().map(|c| c.literals.as_ref()).collect();
    let Some(lists) = lists else {
        // A NOT is left (class 6), or an AND under an OR (class 7).
        return Verdict::Class(if made.iter().any(|c| c.not_left) { 6 } else { 7 });
    };
    let total: usize = lists.iter().map(|list| list.len()).sum();
    let mut start = 0;
    let same = lists.len() == ends.len()
        && total == literals.len()
        && lists.iter().zip(ends).all(|(list, end)| {
            let ours = literals[start..*end as usize].iter().map(|l| u64::from(*l));
            start = *end as usize;
            ours.eq(list.iter().copied())
        });
    match (same, made.iter().any(|c| c.altered)) {
        (true, false) => Verdict::Same,
        // The same literals, but something below an atom was rewritten.
        (true, true) => Verdict::Class(16),
        (false, _) => Verdict::Other(format!("{lists:?}")),
    }
}

/// Holds a lookup to the expression source's: column and count, none if it is
/// refused as no lookup.
pub fn verdict_on_lookup(made: &[Clause], clause: usize, ours: Option<(u64, u64)>) -> Verdict {
    if made.iter().any(|c| c.literals.is_none()) {
        return Verdict::Class(10);
    }
    let theirs = made[clause].lookup.as_ref().map(|l| (l.column, l.values.len() as u64));
    match (theirs == ours, made[clause].altered) {
        (true, _) => Verdict::Same,
        (false, true) if ours.is_none() => Verdict::Class(9),
        _ => Verdict::Other(format!("{:?}", made[clause].lookup)),
    }
}
