//! The safe face of the proved library Fontrisc: slices in, a `Result` out.
//!
//! What each function answers, for every input, is said in docs/FORMAT.md,
//! whose sections are cited here as FORMAT §n. The library is proved to keep to
//! that file; this crate only passes slices to it and turns its numbers into
//! types. Only `read` and `clauses_of` allocate.
//!
//! ```
//! use fontrisc::{syntax, token};
//!
//! let text = b"a = 1";
//! let tokens = [token::IDENT, 0, 1, token::EQUAL, 2, 1, token::NUMBER, 4, 1];
//! let mut rows = [0; 9];
//! assert_eq!(fontrisc::parse(text, &tokens, &mut rows), Ok(3));
//! // Column a, Integer 1, Equal of both.
//! assert_eq!(rows, [syntax::COLUMN, 0, 0, syntax::INTEGER, 1, 0, syntax::EQUAL, 0, 1]);
//! ```
//!
//! # Panics
//!
//! Nothing panics, with the library that is proved. With another one it might:
//! where its number is no refusal's, where it counts or places more than it was
//! lent, where a value has a kind that no value has, and where there are fewer
//! values than it said.
//!
//! # Stack
//!
//! A call needs some of its thread's stack: [`stack`] says how much suffices. This
//! was measured, at the deepest inputs there are, and nothing proves it. On a
//! thread that has less left the operating system may stop the program, which is
//! no panic and cannot be caught. A thread that Rust's library starts has 2 MB, if
//! nothing else is said.

mod ffi;
mod iterators;
mod lookup;
mod parse;
pub mod predicate;
mod refusal;
mod row;
mod split;
pub mod syntax;
pub mod token;

pub use iterators::{Literal, clauses, clauses_of, read, values};
pub use lookup::{LookedUp, Value, lookup, value_at};
pub use parse::{parse, spelled};
pub use refusal::{Refusal, Refused};
pub use row::{ROW_WIDTH, Row, rows};
pub use split::{Listed, split};

/// How many numbers a token is in a token table: kind, start and length (FORMAT
/// §2.2).
pub const TOKEN_WIDTH: usize = 3;

/// The C functions number for number, as FORMAT §11.8 gives them: for those who
/// compare the library with something else.
#[doc(hidden)]
pub mod numbers {
    pub use crate::ffi::*;
}

/// The largest amounts and numbers that the library takes (FORMAT §1.1).
pub mod limit {
    /// Bytes of text.
    pub const TEXT: usize = 16_384;
    /// Tokens in a token table.
    pub const TOKENS: usize = 4_096;
    /// Syntax rows, and predicate rows.
    pub const ROWS: usize = 2_048;
    /// Levels of reading.
    pub const LEVELS: usize = 64;
    /// Clauses of a predicate.
    pub const CLAUSES: usize = 1_024;
    /// Literals in all those clauses together.
    pub const LITERALS: usize = 8_192;
    /// The number of a column in a predicate row.
    pub const COLUMN: u64 = 65_535;
}

/// The stack that suffices for a call, in bytes (docs/PERFORMANCE.md, section
/// Stack). `spelled` needs next to nothing.
///
/// ```
/// let work = || fontrisc::parse(b"a", &[fontrisc::token::IDENT, 0, 1], &mut [0; 3]);
/// // 16 KB are for the thread itself.
/// let thread = std::thread::Builder::new().stack_size(fontrisc::stack::PARSE + (16 << 10));
/// assert_eq!(thread.spawn(work).unwrap().join().unwrap(), Ok(1));
/// ```
pub mod stack {
    /// For `parse` and `read`.
    pub const PARSE: usize = 64 << 10;
    /// For `split` and `clauses_of`.
    pub const SPLIT: usize = 256 << 10;
    /// For `lookup`, `value_at` and `values`.
    pub const LOOKUP: usize = 256 << 10;
}

/// The refusal that a C function's number and place are.
fn refused(number: u32, place: u64) -> Refused {
    let why = Refusal::of(number).expect("the library gives no number but 0 and the refusals'");
    Refused { why, place: place as usize }
}
