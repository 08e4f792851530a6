//! Lookups and their values.

use super::Refusal;
use super::cells::{NAN_BITS, Value};
use super::clauses::split;
use super::predicate::{check, is_constant, kind};
use super::refusal::{NO_SUCH, NOT_LOOKUP};
use crate::layout::{Constant, Row};

/// A lookup: its column and its values.
#[derive(Clone, Debug, PartialEq, Eq)]
pub struct Lookup {
    /// The column.
    pub column: u64,
    /// The values, in order.
    pub values: Vec<Value>,
    /// The same values as constants.
    pub constants: Vec<Constant>,
}

/// The lookup that a clause of a predicate is, or the refusal: 1, 10, 11, 14
/// or 13.
pub fn lookup(text: &[u8], rows: &[u64], clause: usize) -> Result<Lookup, Refusal> {
    let clauses = split(text, rows)?;
    let rows = check(text, rows)?;
    let literals = clauses.get(clause).ok_or((NO_SUCH, 0))?;
    of_clause(text, &rows, literals).ok_or((NOT_LOOKUP, 0))
}

/// One value of a lookup, or the refusal: those of [`lookup`], then 14.
pub fn value_at(text: &[u8], rows: &[u64], clause: usize, n: usize) -> Result<Value, Refusal> {
    let lookup = lookup(text, rows, clause)?;
    lookup.values.get(n).cloned().ok_or((NO_SUCH, 0))
}

/// The lookup that a list of literals is, if it is one.
fn of_clause(text: &[u8], rows: &[Row], literals: &[u64]) -> Option<Lookup> {
    let mut column = None;
    let mut constants = Vec::new();
    for literal in literals {
        let (tested, constant) = of_literal(rows, *literal)?;
        if *column.get_or_insert(tested) != tested {
            return None;
        }
        constants.extend(constant);
    }
    let values = constants.iter().map(|constant| Value::of(text, *constant)).collect();
    Some(Lookup { column: column?, values, constants })
}

/// The column that a literal looks up, and the value if it gives one.
fn of_literal(rows: &[Row], literal: u64) -> Option<(u64, Option<Constant>)> {
    let Row { kind, x, y, .. } = rows[literal as usize / 2];
    if literal % 2 == 1 {
        return None;
    }
    let operand = |r: u64| rows[r as usize];
    match kind {
        kind::EQUAL => {
            let (left, right) = (operand(x), operand(y));
            match (left.kind, right.kind) {
                (kind::COLUMN, constant) if is_constant(constant) => Some((left.x, defined(right))),
                (constant, kind::COLUMN) if is_constant(constant) => Some((right.x, defined(left))),
                _ => None,
            }
        }
        kind::IS if operand(x).kind == kind::COLUMN => {
            let value = if y == 0 { [kind::NULL, 0, 0] } else { [kind::FLOAT, NAN_BITS, 0] };
            Some((operand(x).x, Some(value)))
        }
        _ => None,
    }
}

/// A constant, unless it is NULL or NaN.
fn defined(row: Row) -> Option<Constant> {
    let nan = row.kind == kind::FLOAT && f64::from_bits(row.x).is_nan();
    (row.kind != kind::NULL && !nan).then_some(row.constant())
}
