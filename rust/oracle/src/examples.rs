//! The worked examples of docs/FORMAT.md, §12, and one of its §8.7.

use crate::cases::{Tree, and, equal, is, not, or};
use crate::layout::ROW_WIDTH;
use crate::plain::cells::Value;
use crate::plain::refusal::*;

/// Words that are read, each with its rows (§12.1).
pub const READ: [(&str, &[[u64; ROW_WIDTH]]); 5] = [
    (
        "2 ^ 3 ^ 2 - 4 * 3",
        &[
            [2, 2, 0],
            [2, 3, 0],
            [2, 2, 0],
            [31, 1, 2],
            [31, 0, 3],
            [2, 4, 0],
            [2, 3, 0],
            [28, 5, 6],
            [27, 4, 7],
        ],
    ),
    ("- 1 !", &[[2, 1, 0], [13, 0, 0], [15, 1, 0]]),
    ("1 + NULL IS NULL", &[[2, 1, 0], [8, 0, 0], [26, 0, 1], [16, 2, 0]]),
    ("a = b < c", &[[9, 0, 0], [9, 2, 0], [9, 4, 0], [23, 1, 2], [19, 0, 3]]),
    ("* * *", &[[1, 0, 0], [1, 0, 0], [28, 0, 1]]),
];

/// Words that are refused, each with the refusal's number and place (§12.1).
pub const REFUSED: [(&str, u32, u64); 7] = [
    ("1 + NOT 3", NO_ATOM, 2),
    ("1 + 2 IS NULL AND TRUE", LEFT_OVER, 5),
    ("f ( 1 , )", NO_ATOM, 4),
    ("", END, 0),
    ("a .", END, 2),
    ("a IS 3", WRONG_TOKEN, 2),
    ("9223372036854775808", BAD_NUMBER, 0),
];

/// `1` inside so many pairs of parentheses (§12.1): 63 are read, 64 are too deep.
pub fn in_parentheses(pairs: usize) -> String {
    format!("{}1{}", "( ".repeat(pairs), " )".repeat(pairs))
}

/// A predicate and its clauses.
pub struct Split {
    /// The predicate.
    pub tree: Tree,
    /// The literals of each clause.
    pub clauses: Vec<Vec<u64>>,
    /// Whether the original splits it to the end too.
    pub shared: bool,
}

/// Predicates that are split (§12.2, §8.7), all atoms being columns but for one.
pub fn splits() -> [Split; 4] {
    let [a, b, c, d] = [0, 1, 2, 3].map(Tree::Column);
    let [p, q, r] = [equal(Tree::Column(4), Tree::Integer(7)), Tree::Column(5), Tree::Column(6)];
    let both = and(a, b);
    [
        // Rows: a 0, b 1, AND 2, c 3, d 4, AND 5, OR 6.
        Split {
            tree: or(both.clone(), and(c.clone(), d.clone())),
            clauses: vec![vec![0, 6], vec![0, 8], vec![2, 6], vec![2, 8]],
            shared: true,
        },
        // Rows: column 4, 7, p 2, q 3, r 4, AND 5, NOT 6, OR 7.
        Split { tree: or(p, not(and(q, r))), clauses: vec![vec![4, 7, 9]], shared: true },
        Split { tree: not(not(not(both.clone()))), clauses: vec![vec![1, 3]], shared: false },
        // Rows: a 0, b 1, AND 2, c 3, OR 4, d 5, OR 6.
        Split {
            tree: or(or(both, c), d),
            clauses: vec![vec![0, 6, 10], vec![2, 6, 10]],
            shared: false,
        },
    ]
}

/// The sizes of the ANDs whose OR has 1,024 clauses with 8,192 literals (§12.2).
pub const MOST_LITERALS: [u64; 8] = [2, 2, 2, 2, 2, 2, 4, 4];

/// The sizes of the ANDs whose OR has 1,024 clauses with 9,216 literals (§12.2).
pub const TOO_MANY_LITERALS: [u64; 9] = [2, 2, 2, 2, 2, 2, 2, 2, 4];

/// The column that the examples look up.
pub const LOOKED_UP: u64 = 7;

/// Predicates of one clause, each with its values on [`LOOKED_UP`]; none if it is
/// no lookup (§12.3).
pub fn lookups() -> [(Tree, Option<Vec<Value>>); 3] {
    let c = || Tree::Column(LOOKED_UP);
    let one = || Tree::Integer(1);
    let three = or(or(equal(c(), one()), is(c(), 0)), equal(Tree::Integer(2), c()));
    let two_columns = or(equal(c(), one()), equal(Tree::Column(LOOKED_UP + 1), one()));
    [
        (three, Some(vec![Value::Integer(1), Value::Null, Value::Integer(2)])),
        (equal(c(), Tree::Null), Some(vec![])),
        (two_columns, None),
    ]
}
