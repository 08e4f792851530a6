//! Compares the proved library with docs/FORMAT.md and with the original.
//!
//! Every answer is compared in full: the number returned, the numbers handed
//! out, and every number left in the memory that was lent, the numbers past the
//! answer and some beyond the lent part included.
//!
//! * [`entries`]: the entries as traits, with two implementations, the library
//!   and the rules (`oracle::plain`).
//! * [`lent`]: memory to lend, filled with a pattern.
//! * [`parse`], [`spelled`], [`split`], [`lookup`]: the comparison of each entry.
//! * [`tokens`], [`predicates`]: cases made by chance; [`edges`]: those at the
//!   limits, from both sides.
//! * [`original`]: what the original says, outside the classes of
//!   docs/DIFFERENCES.md.
//! * [`run`]: many cases one after another; [`all`]: of all entries in turn;
//!   [`shrink`]: small ones from large.
//! * [`arguments`]: what the command is asked for.

pub mod all;
pub mod arguments;
pub mod edges;
pub mod entries;

pub mod lent;
pub mod lookup;
mod maker;
pub mod original;
pub mod parse;
pub mod predicates;
pub mod run;
pub mod shrink;
pub mod spelled;
pub mod split;
pub mod tokens;
