//! The one plan node that showing an expression needs.

use super::types::Label;

/// A plan node; only its column labels matter here.
#[derive(Clone, Debug)]
pub enum Node {
    /// A node that yields no rows.
    Nothing {
        /// The labels of its columns.
        columns: Vec<Label>,
    },
}

impl Node {
    /// The label of a column, none where it has none.
    pub fn column_label(&self, index: usize) -> Label {
        let Node::Nothing { columns } = self;
        columns.get(index).cloned().unwrap_or(Label::None)
    }
}
