//! The kinds of predicate rows (FORMAT §6.2), which `split`, `lookup` and
//! `value_at` are lent.
//!
//! An operand is given by its row. An x or y that is not named must be 0.

// Constants.

/// Null.
pub const NULL: u64 = 1;
/// Boolean: x is 0 or 1.
pub const BOOLEAN: u64 = 2;
/// Integer: x is its two's complement pattern.
pub const INTEGER: u64 = 3;
/// Float: x is its bits.
pub const FLOAT: u64 = 4;
/// String: x is its start in the text, y is its length.
pub const STRING: u64 = 5;

// A column.

/// Column: x is its number, up to 65,535.
pub const COLUMN: u64 = 6;

// What predicates are split at.

/// And: x is the left operand, y the right one.
pub const AND: u64 = 7;
/// Or: x is the left operand, y the right one.
pub const OR: u64 = 8;
/// Not: x is the operand.
pub const NOT: u64 = 9;

// Every other operator.

/// Equal: x is the left operand, y the right one.
pub const EQUAL: u64 = 10;
/// GreaterThan: x is the left operand, y the right one.
pub const GREATER_THAN: u64 = 11;
/// LessThan: x is the left operand, y the right one.
pub const LESS_THAN: u64 = 12;
/// Is: x is the operand, y is 0 for NULL, 1 for NAN.
pub const IS: u64 = 13;
/// Add: x is the left operand, y the right one.
pub const ADD: u64 = 14;
/// Divide: x is the left operand, y the right one.
pub const DIVIDE: u64 = 15;
/// Exponentiate: x is the left operand, y the right one.
pub const EXPONENTIATE: u64 = 16;
/// Factorial: x is the operand.
pub const FACTORIAL: u64 = 17;
/// Identity: x is the operand.
pub const IDENTITY: u64 = 18;
/// Multiply: x is the left operand, y the right one.
pub const MULTIPLY: u64 = 19;
/// Negate: x is the operand.
pub const NEGATE: u64 = 20;
/// Remainder: x is the left operand, y the right one.
pub const REMAINDER: u64 = 21;
/// SquareRoot: x is the operand.
pub const SQUARE_ROOT: u64 = 22;
/// Subtract: x is the left operand, y the right one.
pub const SUBTRACT: u64 = 23;
/// Like: x is the left operand, y the right one.
pub const LIKE: u64 = 24;
