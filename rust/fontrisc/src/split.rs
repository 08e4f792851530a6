//! Splitting predicates: `split`.

use crate::{Refused, ffi, refused};

/// How much `split` wrote.
#[derive(Clone, Copy, Debug, PartialEq, Eq, Hash)]
pub struct Listed {
    /// Clauses, each with its number in the list of ends.
    pub clauses: usize,
    /// Literals in all clauses together.
    pub literals: usize,
}

/// Splits a predicate into clauses (FORMAT §8): its value is that of the AND of
/// the clauses, each the OR of its literals.
///
/// A literal is twice its atom's row, plus one if it is negated. Clause k is
/// the literals from `ends[k - 1]` (0 for the first) up to `ends[k]`. Numbers
/// after those written stay as they were, and so does everything after a
/// refusal. Lists of 8,192 and 1,024 places are long enough for every predicate.
///
/// Stack: [`stack::SPLIT`](crate::stack::SPLIT).
///
/// ```
/// use fontrisc::predicate::{AND, COLUMN, OR};
/// use fontrisc::{Listed, split};
///
/// // (a AND b) OR c, where a, b and c are columns 0, 1 and 2
/// let rows = [COLUMN, 0, 0, COLUMN, 1, 0, AND, 0, 1, COLUMN, 2, 0, OR, 2, 3];
/// let (mut literals, mut ends) = ([0; 8], [0; 4]);
/// let listed = split(b"", &rows, &mut literals, &mut ends);
/// assert_eq!(listed, Ok(Listed { clauses: 2, literals: 4 }));
/// assert_eq!(literals[..4], [0, 6, 2, 6]);
/// assert_eq!(ends[..2], [2, 4]);
/// ```
pub fn split(
    text: &[u8],
    rows: &[u64],
    literals: &mut [u32],
    ends: &mut [u32],
) -> Result<Listed, Refused> {
    match ffi::split(text, rows, literals, ends) {
        (0, clauses, total) => Ok(Listed { clauses: clauses as usize, literals: total as usize }),
        (number, place, _) => Err(refused(number, place)),
    }
}
