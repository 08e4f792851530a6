//! Cases at the edges of what is allowed, from both sides: levels, rows,
//! tokens, bytes, tables and lists.

use crate::{parse, split};
use fontrisc::predicate::{AND, COLUMN, LIKE, OR, STRING};
use fontrisc::token::{IDENT, NUMBER, OPEN_PAREN, WRITE};
use oracle::cases::{
    Predicate, Tokens, Tree, chain, joined_chains, not, or_of_ands, predicate_of, words,
};
use oracle::layout::{ROW_WIDTH, Row, TOKEN_WIDTH, table_of, token_count};
use oracle::plain::{self, limit};

/// The ways to go down one level, each with what closes it.
const WAYS: [(&str, &str); 9] = [
    ("- ", ""),
    ("+ ", ""),
    ("NOT ", ""),
    ("1 ^ ", ""),
    ("( ", ") "),
    ("f ( ", ") "),
    ("f ( a , t . c , ", ") "),
    ("f ( ", ", b ) "),
    ("( 1 + ( ", ") ) "),
];

/// Token tables at the edges, each with tables of many lengths.
pub fn of_parse() -> Vec<parse::Case> {
    let mut tables = Vec::new();
    for (open, close) in WAYS {
        for levels in 20..=limit::LEVELS + 2 {
            for inner in ["a ", "f ( ) ", "1x ", "; ", ""] {
                let line = [&open.repeat(levels), inner, &close.repeat(levels)].concat();
                tables.push(words(&line));
            }
        }
    }
    tables.extend(many_rows());
    tables.extend(many_tokens());
    tables.extend(long_texts());
    tables.into_iter().flat_map(with_tables).collect()
}

/// Half of the rows that are allowed: an operator with its right side is two rows, and
/// so is IS NOT NULL.
const HALF: usize = limit::ROWS / 2;

/// Expressions of about as many rows as allowed.
fn many_rows() -> Vec<Tokens> {
    let joined = |part: &str, between: &str, count: usize| vec![part; count].join(between);
    let mut tables = Vec::new();
    for count in HALF - 1..=HALF + 2 {
        tables.push(words(&joined("1", " + ", count)));
        tables.push(words(&format!("- {}", joined("a", " OR ", count))));
        tables.push(words(&joined("t . c", " * ", count)));
    }
    for count in limit::ROWS - 3..=limit::ROWS + 2 {
        tables.push(words(&format!("f ( {} )", joined("x", " , ", count))));
        tables.push(words(&format!("1 {}", "! ".repeat(count))));
    }
    for count in HALF - 2..=HALF + 1 {
        tables.push(words(&format!("a {}", "IS NOT NULL ".repeat(count))));
    }
    tables
}

/// Tables of about as many tokens as allowed, whole and ragged.
fn many_tokens() -> Vec<Tokens> {
    let mut tables = Vec::new();
    let most = TOKEN_WIDTH * limit::TOKENS;
    for numbers in most - TOKEN_WIDTH..=most + TOKEN_WIDTH + 1 {
        for kind in [NUMBER, IDENT, OPEN_PAREN, WRITE] {
            let tokens = [kind, 0, 1].iter().copied().cycle().take(numbers).collect();
            tables.push(Tokens { text: b"1".to_vec(), tokens });
        }
    }
    tables
}

/// Texts about as long as allowed, with spans up to their ends and past them.
fn long_texts() -> Vec<Tokens> {
    let mut tables = Vec::new();
    for length in limit::TEXT - 1..=limit::TEXT + 1 {
        for byte in [b'0', b'9', b'.', b'x'] {
            for (start, more) in [(0, 0), (1, 0), (length, 0), (0, 1), (length + 1, 0)] {
                let rest = (length + more).saturating_sub(start);
                let tokens = vec![NUMBER, start as u32, rest as u32];
                tables.push(Tokens { text: vec![byte; length], tokens });
            }
        }
    }
    tables
}

/// A token table with row tables of many lengths.
fn with_tables(made: Tokens) -> impl Iterator<Item = parse::Case> {
    let rows = plain::parse(&made.text, &made.tokens, limit::ROWS, limit::LEVELS);
    let exact = ROW_WIDTH * rows.map_or(3, |rows| rows.len());
    let mut lengths: Vec<usize> = (0..=ROW_WIDTH).chain(exact..=exact + ROW_WIDTH).collect();
    lengths.extend((1..=ROW_WIDTH + 1).map(|less| exact.saturating_sub(less)));
    if token_count(&made.tokens) > 333 {
        let most = ROW_WIDTH * limit::ROWS;
        let near = [most - ROW_WIDTH, most - 1, most, most + 1, most + ROW_WIDTH];
        lengths.extend(near.into_iter().chain([most + 1_000 * ROW_WIDTH]));
    }
    let case =
        move |slots| parse::Case { text: made.text.clone(), tokens: made.tokens.clone(), slots };
    lengths.into_iter().map(case)
}

/// Predicates at the edges, each with lists of many lengths.
pub fn of_split() -> Vec<split::Case> {
    let mut all = Vec::new();
    for sizes in PRODUCTS {
        let tree = or_of_ands(sizes);
        all.push(predicate_of(&tree));
        all.push(predicate_of(&not(joined_chains(AND, OR, sizes))));
        all.push(predicate_of(&not(not(tree))));
    }
    for atoms in HALF as u64 - 2..=HALF as u64 {
        all.push(predicate_of(&chain(AND, atoms)));
        all.push(predicate_of(&chain(OR, atoms)));
        all.push(predicate_of(&not(chain(AND, atoms))));
        all.push(predicate_of(&not(chain(OR, atoms))));
    }
    for count in limit::ROWS - 1..=limit::ROWS + 1 {
        all.push(predicate_of(&(1..count).fold(Tree::Column(0), |tree, _| not(tree))));
        all.push(Predicate {
            text: Vec::new(),
            rows: Row::new(COLUMN, 0, 0).numbers().repeat(count),
        });
    }
    for length in limit::TEXT - 1..=limit::TEXT + 1 {
        let text = vec![b's'; length];
        for (start, more) in [(0, 0), (length, 0), (0, 1), (length, 1), (length + 1, 0)] {
            let rest = (length + more).saturating_sub(start);
            let row = Row::new(STRING, start as u64, rest as u64);
            all.push(Predicate { text: text.clone(), rows: row.numbers().to_vec() });
        }
    }
    all.extend(numbers().map(|rows| Predicate { text: b"text".to_vec(), rows }));
    all.into_iter().flat_map(with_lists).collect()
}

/// How many atoms the ANDs have whose OR is split: close to as many clauses and
/// literals as allowed, or past it.
const PRODUCTS: [&[u64]; 9] = [
    &[32, 32],
    &[33, 31],
    &[25, 41],
    &[2, 2, 2, 2, 2, 2, 4, 4],
    &[2, 2, 2, 2, 2, 2, 2, 2, 4],
    &[2, 2, 2, 2, 2, 2, 2, 2, 2],
    &[1, limit::CLAUSES],
    &[limit::CLAUSES - 1, 1],
    &[1_000, 1, 1, 1, 1, 1, 1],
];

/// Numbers at the edges of what a row may hold.
const NUMBERS: [u64; 12] =
    [0, 1, 2, 3, 4, 5, limit::COLUMN, limit::COLUMN + 1, 1 << 32, 1 << 63, u64::MAX - 1, u64::MAX];

/// Single rows, alone and over a column, with such numbers in them.
fn numbers() -> impl Iterator<Item = Vec<u64>> {
    let kinds = (0..=LIKE + 2).chain([1 << 32, u64::MAX]);
    let pairs = kinds.flat_map(|kind| NUMBERS.iter().map(move |x| (kind, *x)));
    let rows = pairs.flat_map(|(kind, x)| NUMBERS.iter().map(move |y| Row::new(kind, x, *y)));
    let column = Row::new(COLUMN, 0, 0);
    rows.flat_map(move |row| [table_of(&[column, row]), table_of(&[row])])
}

/// A predicate with lists of many lengths.
fn with_lists(made: Predicate) -> impl Iterator<Item = split::Case> {
    let (clauses, literals) = crate::predicates::counts(&made);
    let lengths = [
        (literals, clauses),
        (literals + 1, clauses + 2),
        (literals.saturating_sub(1), clauses),
        (literals, clauses.saturating_sub(1)),
        (0, 0),
        (limit::LITERALS as usize, limit::CLAUSES as usize),
    ];
    lengths.into_iter().map(move |(literals, ends)| split::Case {
        text: made.text.clone(),
        rows: made.rows.clone(),
        literals,
        ends,
    })
}
