//! Values, Kleene truth and the cell rules.

use super::predicate::{is_constant, kind};
use crate::layout::{Constant, Row, row_at};

/// The one bit pattern that a NaN is handed out as.
pub const NAN_BITS: u64 = 9_221_120_237_041_090_560;

/// A constant, or what a cell holds.
#[derive(Clone, Debug, PartialEq, Eq)]
pub enum Value {
    /// No value.
    Null,
    /// TRUE or FALSE.
    Boolean(bool),
    /// A signed 64-bit number.
    Integer(i64),
    /// A 64-bit float, by its bits.
    Float(u64),
    /// A string, by its bytes.
    String(Vec<u8>),
}

impl Value {
    /// The value of a constant.
    pub fn of(text: &[u8], [kind, x, y]: Constant) -> Value {
        match kind {
            kind::NULL => Value::Null,
            kind::BOOLEAN => Value::Boolean(x == 1),
            kind::INTEGER => Value::Integer(x as i64),
            kind::FLOAT => Value::Float(x),
            kind::STRING => Value::String(text[x as usize..(x + y) as usize].to_vec()),
            _ => panic!("kind {kind} is no constant's"),
        }
    }

    /// Whether the value is a NaN.
    pub fn is_nan(&self) -> bool {
        matches!(self, Value::Float(bits) if f64::from_bits(*bits).is_nan())
    }
}

/// A truth value in the order FALSE, NULL, TRUE.
#[derive(Clone, Copy, Debug, PartialEq, Eq, PartialOrd, Ord)]
pub enum Kleene {
    /// FALSE.
    False,
    /// NULL.
    Null,
    /// TRUE.
    True,
}

impl Kleene {
    /// The three of them.
    pub const ALL: [Kleene; 3] = [Kleene::False, Kleene::Null, Kleene::True];

    /// The lower of two.
    pub fn and(self, other: Kleene) -> Kleene {
        self.min(other)
    }

    /// The higher of two.
    pub fn or(self, other: Kleene) -> Kleene {
        self.max(other)
    }

    /// TRUE and FALSE swapped, NULL kept. (Named as its operator is.)
    #[allow(clippy::should_implement_trait)]
    pub fn not(self) -> Kleene {
        match self {
            Kleene::False => Kleene::True,
            Kleene::Null => Kleene::Null,
            Kleene::True => Kleene::False,
        }
    }

    /// TRUE or FALSE.
    pub fn of(truth: bool) -> Kleene {
        if truth { Kleene::True } else { Kleene::False }
    }
}

/// The cell rule of Equal.
pub fn equal(left: &Value, right: &Value) -> Kleene {
    match (left, right) {
        (Value::Null, _) | (_, Value::Null) => Kleene::Null,
        (Value::Boolean(l), Value::Boolean(r)) => Kleene::of(l == r),
        (Value::Integer(l), Value::Integer(r)) => Kleene::of(l == r),
        (Value::Float(l), Value::Float(r)) => Kleene::of(f64::from_bits(*l) == f64::from_bits(*r)),
        (Value::String(l), Value::String(r)) => Kleene::of(l == r),
        _ => Kleene::False,
    }
}

/// The cell rule of Is: 0 asks for NULL, 1 for NaN.
pub fn is(cell: &Value, y: u64) -> Kleene {
    Kleene::of(if y == 0 { *cell == Value::Null } else { cell.is_nan() })
}

/// Whether a cell matches a lookup's value.
pub fn matches(cell: &Value, value: &Value) -> bool {
    let both_null = *cell == Value::Null && *value == Value::Null;
    both_null || (cell.is_nan() && value.is_nan()) || equal(cell, value) == Kleene::True
}

/// The value of a literal that is Equal of a column with a constant, or Is of
/// a column, possibly negated, with a cell in that column; none for another.
pub fn literal(text: &[u8], rows: &[u64], literal: u64, cell: &Value) -> Option<Kleene> {
    let row = |r: u64| row_at(rows, r as usize);
    let atom = row(literal / 2);
    let truth = match atom.kind {
        kind::EQUAL => {
            let (left, right) = (row(atom.x), row(atom.y));
            let value = |r: Row| Value::of(text, r.constant());
            match (left.kind, right.kind) {
                (kind::COLUMN, constant) if is_constant(constant) => equal(cell, &value(right)),
                (constant, kind::COLUMN) if is_constant(constant) => equal(&value(left), cell),
                _ => return None,
            }
        }
        kind::IS if row(atom.x).kind == kind::COLUMN => is(cell, atom.y),
        _ => return None,
    };
    Some(if literal % 2 == 1 { truth.not() } else { truth })
}
