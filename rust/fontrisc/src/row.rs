//! Rows, and how they lie in a table.

/// How many numbers a row is in a table: the fields of [`Row`].
pub const ROW_WIDTH: usize = 3;

/// A row of a syntax tree or of a predicate (FORMAT §5.1, §6.1).
#[derive(Clone, Copy, Debug, PartialEq, Eq, Hash)]
pub struct Row {
    /// What kind of node it is.
    pub kind: u64,
    /// By kind a value, a token or an operand's row.
    pub x: u64,
    /// Likewise.
    pub y: u64,
}

impl Row {
    /// Its numbers, in the order that they have in a table.
    pub fn numbers(self) -> [u64; ROW_WIDTH] {
        [self.kind, self.x, self.y]
    }
}

impl From<[u64; ROW_WIDTH]> for Row {
    fn from([kind, x, y]: [u64; ROW_WIDTH]) -> Row {
        Row { kind, x, y }
    }
}

/// The rows of a table. A rest that is no whole row is left out.
///
/// ```
/// use fontrisc::syntax::{COLUMN, EQUAL, INTEGER};
/// use fontrisc::{Row, rows};
///
/// let table = [COLUMN, 0, 0, INTEGER, 1, 0, EQUAL, 0, 1];
/// assert_eq!(rows(&table).last(), Some(Row { kind: EQUAL, x: 0, y: 1 }));
/// ```
pub fn rows(table: &[u64]) -> impl ExactSizeIterator<Item = Row> + DoubleEndedIterator + '_ {
    table.as_chunks().0.iter().map(|numbers| Row::from(*numbers))
}
