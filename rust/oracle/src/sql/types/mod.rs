//! Expressions (the original's) and the values they are made of (written here).

pub mod value;

/// The original expression source, compiled as it stands.
#[allow(missing_docs, clippy::all)]
pub mod expression {
    include!(concat!(env!("ORACLE_SOURCES"), "/src/sql/types/expression.rs"));
}

pub use expression::Expression;
pub use value::{DataType, Label, Row, Value};
