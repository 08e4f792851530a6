//! The entries as traits, in the numbers of the C functions (FORMAT §11.8), and
//! the two sides that have them.

use oracle::layout::{Constant, ROW_WIDTH, Row, row_count, table_of};
use oracle::plain::{self, limit};

/// A side that reads tokens.
pub trait Reads {
    /// The refusal's number, and the rows written or the place.
    fn parse(&self, text: &[u8], tokens: &[u32], rows: &mut [u64]) -> (u32, u64);

    /// The start and the length of a token's part of the text.
    fn spelled(&self, text: &[u8], tokens: &[u32], n: usize) -> (u64, u64);
}

/// A side that splits predicates.
pub trait Splits {
    /// The refusal's number, and clauses and literals, or the place and 0.
    fn split(
        &self,
        text: &[u8],
        rows: &[u64],
        literals: &mut [u32],
        ends: &mut [u32],
    ) -> (u32, u64, u64);
}

/// A side that finds lookups.
pub trait LooksUp {
    /// The refusal's number, and column and count of values, or the place and 0.
    fn lookup(&self, text: &[u8], rows: &[u64], clause: usize) -> (u32, u64, u64);

    /// The refusal's number, and the value as a constant, or the place, 0 and 0.
    fn value(&self, text: &[u8], rows: &[u64], clause: usize, n: usize) -> (u32, Constant);
}

/// The proved library.
pub struct Library;

impl Reads for Library {
    fn parse(&self, text: &[u8], tokens: &[u32], rows: &mut [u64]) -> (u32, u64) {
        fontrisc::numbers::parse(text, tokens, rows)
    }

    fn spelled(&self, text: &[u8], tokens: &[u32], n: usize) -> (u64, u64) {
        fontrisc::numbers::spelled(text, tokens, n)
    }
}

impl Splits for Library {
    fn split(
        &self,
        text: &[u8],
        rows: &[u64],
        literals: &mut [u32],
        ends: &mut [u32],
    ) -> (u32, u64, u64) {
        fontrisc::numbers::split(text, rows, literals, ends)
    }
}

impl LooksUp for Library {
    fn lookup(&self, text: &[u8], rows: &[u64], clause: usize) -> (u32, u64, u64) {
        fontrisc::numbers::lookup(text, rows, clause)
    }

    fn value(&self, text: &[u8], rows: &[u64], clause: usize, n: usize) -> (u32, Constant) {
        fontrisc::numbers::value(text, rows, clause, n)
    }
}

/// The rules of docs/FORMAT.md, read plainly.
pub struct Rules;

impl Reads for Rules {
    fn parse(&self, text: &[u8], tokens: &[u32], rows: &mut [u64]) -> (u32, u64) {
        match plain::parse(text, tokens, row_count(rows), limit::LEVELS) {
            Ok(made) => (0, write_rows(rows, &made)),
            Err((number, place)) => {
                rows.fill(0);
                (number, place)
            }
        }
    }

    fn spelled(&self, text: &[u8], tokens: &[u32], n: usize) -> (u64, u64) {
        plain::spelled(text, tokens, n)
    }
}

/// Writes rows at the start of a table, and answers how many.
pub fn write_rows(table: &mut [u64], rows: &[Row]) -> u64 {
    table[..ROW_WIDTH * rows.len()].copy_from_slice(&table_of(rows));
    rows.len() as u64
}

impl Splits for Rules {
    fn split(
        &self,
        text: &[u8],
        rows: &[u64],
        literals: &mut [u32],
        ends: &mut [u32],
    ) -> (u32, u64, u64) {
        match plain::split_into(text, rows, literals.len(), ends.len()) {
            Ok((made_literals, made_ends)) => {
                write_numbers(literals, &made_literals);
                write_numbers(ends, &made_ends);
                (0, made_ends.len() as u64, made_literals.len() as u64)
            }
            Err((number, place)) => (number, place, 0),
        }
    }
}

/// Writes numbers at the start of a list.
fn write_numbers(list: &mut [u32], numbers: &[u64]) {
    list.iter_mut().zip(numbers).for_each(|(place, number)| *place = *number as u32);
}

impl LooksUp for Rules {
    fn lookup(&self, text: &[u8], rows: &[u64], clause: usize) -> (u32, u64, u64) {
        match plain::lookup(text, rows, clause) {
            Ok(found) => (0, found.column, found.values.len() as u64),
            Err((number, place)) => (number, place, 0),
        }
    }

    fn value(&self, text: &[u8], rows: &[u64], clause: usize, n: usize) -> (u32, Constant) {
        match plain::lookup(text, rows, clause) {
            Ok(found) => match found.constants.get(n) {
                Some(constant) => (0, *constant),
                None => (plain::refusal::NO_SUCH, Constant::default()),
            },
            Err((number, place)) => (number, [place, 0, 0]),
        }
    }
}
