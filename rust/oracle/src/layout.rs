//! How tokens, rows and constants lie in memory, as docs/FORMAT.md has it (§2.2,
//! §5.1, §6.1, §9.5). Nothing here is taken from the library.

/// How many numbers a token is in a token table: kind, start and length.
pub const TOKEN_WIDTH: usize = 3;

/// How many numbers a row is in a table: the fields of [`Row`].
pub const ROW_WIDTH: usize = 3;

/// How many numbers a constant is: kind, x and y.
pub const CONSTANT_WIDTH: usize = 3;

/// A constant in numbers.
pub type Constant = [u64; CONSTANT_WIDTH];

/// A row of a syntax tree or of a predicate.
#[derive(Clone, Copy, Debug, PartialEq, Eq)]
pub struct Row {
    /// What kind of node it is.
    pub kind: u64,
    /// By kind a value, a token or an operand's row.
    pub x: u64,
    /// Likewise.
    pub y: u64,
}

impl Row {
    /// A row of these numbers.
    pub const fn new(kind: u64, x: u64, y: u64) -> Row {
        Row { kind, x, y }
    }

    /// Its numbers, in the order that they have in a table.
    pub const fn numbers(self) -> [u64; ROW_WIDTH] {
        [self.kind, self.x, self.y]
    }

    /// The constant that it is, if its kind is a constant's.
    pub const fn constant(self) -> Constant {
        [self.kind, self.x, self.y]
    }
}

impl From<[u64; ROW_WIDTH]> for Row {
    fn from([kind, x, y]: [u64; ROW_WIDTH]) -> Row {
        Row { kind, x, y }
    }
}

/// How many whole tokens a token table has.
pub fn token_count(tokens: &[u32]) -> usize {
    tokens.len() / TOKEN_WIDTH
}

/// How many whole rows a table has.
pub fn row_count(table: &[u64]) -> usize {
    table.len() / ROW_WIDTH
}

/// The whole rows of a table.
pub fn rows_of(table: &[u64]) -> Vec<Row> {
    table.as_chunks().0.iter().map(|numbers| Row::from(*numbers)).collect()
}

/// A row of a table that has it.
pub fn row_at(table: &[u64], r: usize) -> Row {
    Row::from(table.as_chunks().0[r])
}

/// Rows one after another, in numbers.
pub fn table_of(rows: &[Row]) -> Vec<u64> {
    rows.iter().flat_map(|row| row.numbers()).collect()
}
