//! The kinds of syntax rows (FORMAT §5.3), which [`parse`](crate::parse()) writes.
//!
//! A token or an operand is given by its number. An x or y that is not named is 0.

/// All.
pub const ALL: u64 = 1;
/// Integer: x is its value.
pub const INTEGER: u64 = 2;
/// Float: x is its token.
pub const FLOAT: u64 = 3;
/// Infinity.
pub const INFINITY: u64 = 4;
/// NaN.
pub const NAN: u64 = 5;
/// String: x is its token.
pub const STRING: u64 = 6;
/// Boolean: x is 1 for TRUE, 0 for FALSE.
pub const BOOLEAN: u64 = 7;
/// Null.
pub const NULL: u64 = 8;
/// Column: x is the name's token.
pub const COLUMN: u64 = 9;
/// A column of a table: x is the table's token, y is the column's.
pub const QUALIFIED: u64 = 10;
/// Function: x is the name's token, y is the number of arguments.
pub const FUNCTION: u64 = 11;

// Over one operand.

/// Identity: x is the operand.
pub const IDENTITY: u64 = 12;
/// Negate: x is the operand.
pub const NEGATE: u64 = 13;
/// Not: x is the operand.
pub const NOT: u64 = 14;
/// Factorial: x is the operand.
pub const FACTORIAL: u64 = 15;
/// Is: x is the operand, y is 0 for NULL, 1 for NAN.
pub const IS: u64 = 16;

// Over two.

/// And: x is the left operand, y the right one.
pub const AND: u64 = 17;
/// Or: x is the left operand, y the right one.
pub const OR: u64 = 18;
/// Equal: x is the left operand, y the right one.
pub const EQUAL: u64 = 19;
/// NotEqual: x is the left operand, y the right one.
pub const NOT_EQUAL: u64 = 20;
/// GreaterThan: x is the left operand, y the right one.
pub const GREATER_THAN: u64 = 21;
/// GreaterThanOrEqual: x is the left operand, y the right one.
pub const GREATER_THAN_OR_EQUAL: u64 = 22;
/// LessThan: x is the left operand, y the right one.
pub const LESS_THAN: u64 = 23;
/// LessThanOrEqual: x is the left operand, y the right one.
pub const LESS_THAN_OR_EQUAL: u64 = 24;
/// Like: x is the left operand, y the right one.
pub const LIKE: u64 = 25;
/// Add: x is the left operand, y the right one.
pub const ADD: u64 = 26;
/// Subtract: x is the left operand, y the right one.
pub const SUBTRACT: u64 = 27;
/// Multiply: x is the left operand, y the right one.
pub const MULTIPLY: u64 = 28;
/// Divide: x is the left operand, y the right one.
pub const DIVIDE: u64 = 29;
/// Remainder: x is the left operand, y the right one.
pub const REMAINDER: u64 = 30;
/// Exponentiate: x is the left operand, y the right one.
pub const EXPONENTIATE: u64 = 31;
