//! A plain reading of docs/FORMAT.md, written for being read: recursive code
//! over vectors, nothing shared with the original's sources. It knows the limits
//! that the original's sources do not have.

pub mod cells;
pub mod clauses;
pub mod lookup;
pub mod predicate;
pub mod reading;
pub mod tokens;

pub use clauses::{split, split_into};
pub use lookup::{Lookup, lookup, value_at};
pub use predicate::check;
pub use reading::{levels_needed, parse};
pub use tokens::{Number, number, spelled, table_fault};

/// A refusal: its number and its place.
pub type Refusal = (u32, u64);

/// The refusal numbers by name.
#[allow(missing_docs)]
pub mod refusal {
    pub const TOO_LONG: u32 = 1;
    pub const BAD_TABLE: u32 = 2;
    pub const END: u32 = 3;
    pub const NO_ATOM: u32 = 4;
    pub const WRONG_TOKEN: u32 = 5;
    pub const LEFT_OVER: u32 = 6;
    pub const BAD_NUMBER: u32 = 7;
    pub const TOO_DEEP: u32 = 8;
    pub const NO_ROOM: u32 = 9;
    pub const BAD_TREE: u32 = 10;
    pub const TOO_MANY: u32 = 11;
    pub const NO_LIST: u32 = 12;
    pub const NOT_LOOKUP: u32 = 13;
    pub const NO_SUCH: u32 = 14;
}

/// The limits by name.
#[allow(missing_docs)]
pub mod limit {
    pub const TEXT: usize = 16_384;
    pub const TOKENS: usize = 4_096;
    pub const ROWS: usize = 2_048;
    pub const LEVELS: usize = 64;
    pub const CLAUSES: u64 = 1_024;
    pub const LITERALS: u64 = 8_192;
    pub const COLUMN: u64 = 65_535;
}
