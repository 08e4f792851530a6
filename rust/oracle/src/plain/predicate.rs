//! The check of predicate rows.

use super::refusal::{BAD_TREE, TOO_LONG};
use super::{Refusal, limit};
use crate::layout::{ROW_WIDTH, Row, row_count, rows_of};

/// The kinds of predicate rows by name.
#[allow(missing_docs)]
pub mod kind {
    pub const NULL: u64 = 1;
    pub const BOOLEAN: u64 = 2;
    pub const INTEGER: u64 = 3;
    pub const FLOAT: u64 = 4;
    pub const STRING: u64 = 5;
    pub const COLUMN: u64 = 6;
    pub const AND: u64 = 7;
    pub const OR: u64 = 8;
    pub const NOT: u64 = 9;
    pub const EQUAL: u64 = 10;
    pub const GREATER_THAN: u64 = 11;
    pub const LESS_THAN: u64 = 12;
    pub const IS: u64 = 13;
    pub const ADD: u64 = 14;
    pub const DIVIDE: u64 = 15;
    pub const EXPONENTIATE: u64 = 16;
    pub const FACTORIAL: u64 = 17;
    pub const IDENTITY: u64 = 18;
    pub const MULTIPLY: u64 = 19;
    pub const NEGATE: u64 = 20;
    pub const REMAINDER: u64 = 21;
    pub const SQUARE_ROOT: u64 = 22;
    pub const SUBTRACT: u64 = 23;
    pub const LIKE: u64 = 24;
}

/// Checks the table of a predicate: TOO_LONG, then BAD_TREE, else its rows.
pub fn check(text: &[u8], table: &[u64]) -> Result<Vec<Row>, Refusal> {
    let whole = row_count(table);
    if text.len() > limit::TEXT || whole > limit::ROWS {
        return Err((TOO_LONG, 0));
    }
    if !table.len().is_multiple_of(ROW_WIDTH) {
        return Err((BAD_TREE, whole as u64));
    }
    if whole == 0 {
        return Err((BAD_TREE, 0));
    }
    let rows = rows_of(table);
    // The roots of the whole subtrees so far that have no parent yet.
    let mut open: Vec<u64> = Vec::new();
    for (r, row) in rows.iter().enumerate() {
        if !numbers_allowed(text, row) {
            return Err((BAD_TREE, r as u64));
        }
        for operand in operands(row).iter().rev() {
            if open.pop() != Some(*operand) {
                return Err((BAD_TREE, r as u64));
            }
        }
        open.push(r as u64);
    }
    if open.len() > 1 { Err((BAD_TREE, whole as u64 - 1)) } else { Ok(rows) }
}

/// Whether a kind is a constant's.
pub fn is_constant(kind: u64) -> bool {
    (kind::NULL..=kind::STRING).contains(&kind)
}

/// How many operands a kind has; none if there is no such kind.
fn operand_count(kind: u64) -> Option<usize> {
    use kind::*;
    match kind {
        NULL | BOOLEAN | INTEGER | FLOAT | STRING | COLUMN => Some(0),
        NOT | IS | FACTORIAL | IDENTITY | NEGATE | SQUARE_ROOT => Some(1),
        AND | OR | EQUAL | GREATER_THAN | LESS_THAN | LIKE => Some(2),
        ADD | DIVIDE | EXPONENTIATE | MULTIPLY | REMAINDER | SUBTRACT => Some(2),
        _ => None,
    }
}

/// Whether the kind is known and x and y, where they are no operands, are
/// among the numbers that it allows; an unused one must be 0.
fn numbers_allowed(text: &[u8], &Row { kind, x, y, .. }: &Row) -> bool {
    match kind {
        kind::NULL => x == 0 && y == 0,
        kind::BOOLEAN => x <= 1 && y == 0,
        kind::INTEGER | kind::FLOAT => y == 0,
        kind::STRING => u128::from(x) + u128::from(y) <= text.len() as u128,
        kind::COLUMN => x <= limit::COLUMN && y == 0,
        kind::IS => y <= 1,
        _ => match operand_count(kind) {
            Some(1) => y == 0,
            count => count.is_some(),
        },
    }
}

/// The operand rows that a row of a known kind names, in order.
pub fn operands(&Row { kind, x, y, .. }: &Row) -> Vec<u64> {
    match operand_count(kind) {
        Some(0) => vec![],
        Some(1) => vec![x],
        _ => vec![x, y],
    }
}
