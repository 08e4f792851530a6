//! Predicate rows in the shapes that are measured.

pub use fontrisc::predicate::{AND, NOT, OR};
use fontrisc::predicate::{COLUMN, EQUAL, INTEGER};
use oracle::layout::{Row, table_of};

/// A predicate under construction: complete subtrees one after another.
#[derive(Default)]
pub struct Rows(Vec<Row>);

impl Rows {
    /// The last row's number.
    fn last(&self) -> u64 {
        self.0.len() as u64 - 1
    }

    /// Adds a row and answers its number.
    fn push(&mut self, kind: u64, x: u64, y: u64) -> u64 {
        self.0.push(Row::new(kind, x, y));
        self.last()
    }

    /// Adds a column.
    pub fn column(&mut self, number: u64) -> u64 {
        self.push(COLUMN, number, 0)
    }

    /// Adds `column = value`.
    pub fn equal(&mut self, column: u64, value: u64) -> u64 {
        let (left, right) = (self.column(column), self.push(INTEGER, value, 0));
        self.push(EQUAL, left, right)
    }

    /// Adds a row with two operands.
    pub fn join(&mut self, kind: u64, left: u64, right: u64) -> u64 {
        self.push(kind, left, right)
    }

    /// Adds a row with one operand, the last row.
    pub fn over(&mut self, kind: u64) -> u64 {
        self.push(kind, self.last(), 0)
    }

    /// Adds a chain over columns that leans to the left.
    pub fn left_chain(&mut self, kind: u64, atoms: u64) -> u64 {
        let first = self.column(0);
        (1..atoms).fold(first, |tree, n| {
            let right = self.column(n);
            self.join(kind, tree, right)
        })
    }

    /// Adds a chain over columns that leans to the right.
    pub fn right_chain(&mut self, kind: u64, atoms: u64) -> u64 {
        let columns: Vec<u64> = (0..atoms).map(|n| self.column(n)).collect();
        let mut columns = columns.into_iter().rev();
        let last = columns.next().expect("a chain has an atom");
        columns.fold(last, |tree, left| self.join(kind, left, tree))
    }
}

/// The table of the rows that a closure adds.
pub fn rows(make: impl FnOnce(&mut Rows)) -> Vec<u64> {
    let mut made = Rows::default();
    make(&mut made);
    table_of(&made.0)
}
