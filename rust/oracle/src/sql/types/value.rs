//! Values, as far as the original expression source asks for them. That source
//! does not contain their definition, so what stands here is this crate's own.

use crate::error::Result;
use std::fmt::{Display, Formatter};

/// The kinds of value other than NULL.
#[derive(Clone, Copy, Debug, PartialEq, Eq)]
pub enum DataType {
    /// TRUE or FALSE.
    Boolean,
    /// A signed 64-bit number.
    Integer,
    /// A 64-bit float.
    Float,
    /// A string.
    String,
}

impl Display for DataType {
    fn fmt(&self, f: &mut Formatter<'_>) -> std::fmt::Result {
        write!(f, "{self:?}")
    }
}

/// A value in a cell or in an expression.
#[derive(Clone, Debug)]
pub enum Value {
    /// No value.
    Null,
    /// TRUE or FALSE.
    Boolean(bool),
    /// A signed 64-bit number.
    Integer(i64),
    /// A 64-bit float.
    Float(f64),
    /// A string.
    String(String),
}

/// A row of cells.
pub type Row = Vec<Value>;

/// A column's label.
#[derive(Clone, Debug, PartialEq, Eq)]
pub enum Label {
    /// The column has none.
    None,
    /// The column has this name.
    Named(String),
}

impl Display for Label {
    fn fmt(&self, f: &mut Formatter<'_>) -> std::fmt::Result {
        match self {
            Label::None => Ok(()),
            Label::Named(name) => write!(f, "{name}"),
        }
    }
}

impl Display for Value {
    fn fmt(&self, f: &mut Formatter<'_>) -> std::fmt::Result {
        match self {
            Value::Null => write!(f, "NULL"),
            Value::Boolean(b) => write!(f, "{b}"),
            Value::Integer(i) => write!(f, "{i}"),
            Value::Float(x) => write!(f, "{x:?}"),
            Value::String(s) => write!(f, "{s:?}"),
        }
    }
}

/// Sameness of values: floats by their bits, so that a NaN is itself.
impl PartialEq for Value {
    fn eq(&self, other: &Self) -> bool {
        match (self, other) {
            (Value::Null, Value::Null) => true,
            (Value::Boolean(l), Value::Boolean(r)) => l == r,
            (Value::Integer(l), Value::Integer(r)) => l == r,
            (Value::Float(l), Value::Float(r)) => l.to_bits() == r.to_bits(),
            (Value::String(l), Value::String(r)) => l == r,
            _ => false,
        }
    }
}

impl Value {
    /// Whether the value is NULL or NaN.
    pub fn is_undefined(&self) -> bool {
        match self {
            Value::Null => true,
            Value::Float(x) => x.is_nan(),
            _ => false,
        }
    }

    /// The kind of the value, none for NULL.
    pub fn datatype(&self) -> Option<DataType> {
        match self {
            Value::Null => None,
            Value::Boolean(_) => Some(DataType::Boolean),
            Value::Integer(_) => Some(DataType::Integer),
            Value::Float(_) => Some(DataType::Float),
            Value::String(_) => Some(DataType::String),
        }
    }

    /// Is never called.
    pub fn checked_add(&self, _other: &Self) -> Result<Self> {
        unreachable!("{NO_ARITHMETIC}")
    }

    /// Is never called.
    pub fn checked_div(&self, _other: &Self) -> Result<Self> {
        unreachable!("{NO_ARITHMETIC}")
    }

    /// Is never called.
    pub fn checked_mul(&self, _other: &Self) -> Result<Self> {
        unreachable!("{NO_ARITHMETIC}")
    }

    /// Is never called.
    pub fn checked_pow(&self, _other: &Self) -> Result<Self> {
        unreachable!("{NO_ARITHMETIC}")
    }

    /// Is never called.
    pub fn checked_rem(&self, _other: &Self) -> Result<Self> {
        unreachable!("{NO_ARITHMETIC}")
    }

    /// Is never called.
    pub fn checked_sub(&self, _other: &Self) -> Result<Self> {
        unreachable!("{NO_ARITHMETIC}")
    }
}

/// Why values are never reckoned with.
const NO_ARITHMETIC: &str = "the original is never asked to evaluate arithmetic";
