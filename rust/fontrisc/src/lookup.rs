//! Lookups and their values: `lookup` and `value_at`.

use crate::{Refused, ffi, predicate, refused};
use std::fmt::{Display, Formatter, Write};

/// The lookup that a clause is.
#[derive(Clone, Copy, Debug, PartialEq, Eq, Hash)]
pub struct LookedUp {
    /// The column that is looked up.
    pub column: u16,
    /// How many values it is looked up for.
    pub values: usize,
}

/// A value of a lookup (FORMAT §9.5).
#[derive(Clone, Copy, Debug, PartialEq)]
pub enum Value<'t> {
    /// NULL, asked for by IS NULL.
    Null,
    /// TRUE or FALSE.
    Boolean(bool),
    /// A whole number.
    Integer(i64),
    /// A float, its bits as in the predicate; NaN only if asked for by IS NAN.
    Float(f64),
    /// A string: its part of the lent text.
    String(&'t [u8]),
}

impl<'t> Value<'t> {
    /// The value of a constant.
    fn of(text: &'t [u8], [kind, x, y]: ffi::Constant) -> Value<'t> {
        match kind {
            predicate::NULL => Value::Null,
            predicate::BOOLEAN => Value::Boolean(x == 1),
            predicate::INTEGER => Value::Integer(x as i64),
            predicate::FLOAT => Value::Float(f64::from_bits(x)),
            predicate::STRING => Value::String(&text[x as usize..][..y as usize]),
            _ => unreachable!("the library gives no other kind"),
        }
    }
}

/// As one would write it in a filter. Bytes of a string that are no UTF-8 are
/// replaced.
///
/// ```
/// use fontrisc::Value;
///
/// assert_eq!(Value::Null.to_string(), "NULL");
/// assert_eq!(Value::Boolean(true).to_string(), "TRUE");
/// assert_eq!(Value::Integer(-7).to_string(), "-7");
/// assert_eq!(Value::Float(1.0).to_string(), "1.0");
/// assert_eq!(Value::String(b"it's").to_string(), "'it''s'");
/// ```
impl Display for Value<'_> {
    fn fmt(&self, f: &mut Formatter<'_>) -> std::fmt::Result {
        match self {
            Value::Null => f.write_str("NULL"),
            Value::Boolean(true) => f.write_str("TRUE"),
            Value::Boolean(false) => f.write_str("FALSE"),
            Value::Integer(number) => write!(f, "{number}"),
            Value::Float(number) if number.is_nan() => f.write_str("NAN"),
            Value::Float(f64::INFINITY) => f.write_str("INFINITY"),
            Value::Float(f64::NEG_INFINITY) => f.write_str("-INFINITY"),
            // Debug gives every float a point or an exponent, so that it reads as one.
            Value::Float(number) => write!(f, "{number:?}"),
            Value::String(bytes) => write_quoted(f, bytes),
        }
    }
}

/// Writes a string in quotes, those within it doubled.
fn write_quoted(f: &mut Formatter<'_>, bytes: &[u8]) -> std::fmt::Result {
    f.write_char('\'')?;
    for chunk in bytes.utf8_chunks() {
        for (n, part) in chunk.valid().split('\'').enumerate() {
            f.write_str(if n > 0 { "''" } else { "" })?;
            f.write_str(part)?;
        }
        if !chunk.invalid().is_empty() {
            f.write_char(char::REPLACEMENT_CHARACTER)?;
        }
    }
    f.write_char('\'')
}

/// Finds out whether a clause of a predicate is a lookup, and on which column,
/// with how many values (FORMAT §9).
///
/// Stack: [`stack::LOOKUP`](crate::stack::LOOKUP).
///
/// ```
/// use fontrisc::predicate::{COLUMN, EQUAL, INTEGER, IS, OR};
/// use fontrisc::{LookedUp, lookup};
///
/// // column 4 = 7 OR column 4 IS NULL
/// let equal = [COLUMN, 4, 0, INTEGER, 7, 0, EQUAL, 0, 1];
/// let rows = [&equal[..], &[COLUMN, 4, 0, IS, 3, 0, OR, 2, 4]].concat();
/// assert_eq!(lookup(b"", &rows, 0), Ok(LookedUp { column: 4, values: 2 }));
/// ```
pub fn lookup(text: &[u8], rows: &[u64], clause: usize) -> Result<LookedUp, Refused> {
    match ffi::lookup(text, rows, clause) {
        (0, column, count) => Ok(LookedUp { column: column as u16, values: count as usize }),
        (number, place, _) => Err(refused(number, place)),
    }
}

/// One value of a clause that is a lookup (FORMAT §9.3). Each call is a pass over
/// the rows.
///
/// Stack: [`stack::LOOKUP`](crate::stack::LOOKUP).
///
/// ```
/// use fontrisc::predicate::{COLUMN, EQUAL, INTEGER, IS, OR};
/// use fontrisc::{Value, value_at};
///
/// // column 4 = 7 OR column 4 IS NULL
/// let equal = [COLUMN, 4, 0, INTEGER, 7, 0, EQUAL, 0, 1];
/// let rows = [&equal[..], &[COLUMN, 4, 0, IS, 3, 0, OR, 2, 4]].concat();
/// assert_eq!(value_at(b"", &rows, 0, 0), Ok(Value::Integer(7)));
/// assert_eq!(value_at(b"", &rows, 0, 1), Ok(Value::Null));
/// ```
pub fn value_at<'t>(
    text: &'t [u8],
    rows: &[u64],
    clause: usize,
    n: usize,
) -> Result<Value<'t>, Refused> {
    match ffi::value(text, rows, clause, n) {
        (0, constant) => Ok(Value::of(text, constant)),
        (number, [place, ..]) => Err(refused(number, place)),
    }
}
