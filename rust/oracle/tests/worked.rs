//! The worked examples of docs/FORMAT.md, against the plain reading and, where
//! they have an answer of the same form, against the original's sources.

use oracle::cases::*;
use oracle::examples::{self, Split};
use oracle::expression;
use oracle::layout::{ROW_WIDTH, Row};
use oracle::parser::{Reading, read};
use oracle::plain::cells::Value;
use oracle::plain::refusal::*;
use oracle::plain::{self, Refusal, limit};

/// The plain reading of words under the format's limits.
fn plain_parse(line: &str) -> Result<Vec<Row>, Refusal> {
    let made = words(line);
    plain::parse(&made.text, &made.tokens, limit::ROWS, limit::LEVELS)
}

/// Both readings must give these rows.
fn accepted(line: &str, rows: &[[u64; ROW_WIDTH]]) {
    let made = words(line);
    let rows: Vec<Row> = rows.iter().copied().map(Row::from).collect();
    assert_eq!(plain_parse(line), Ok(rows.clone()), "{line}");
    assert_eq!(read(&made.text, &made.tokens), Reading::Rows(rows), "{line}");
}

/// Both readings must refuse so.
fn refused(line: &str, number: u32, place: u64) {
    let made = words(line);
    assert_eq!(plain_parse(line), Err((number, place)), "{line}");
    assert_eq!(read(&made.text, &made.tokens), Reading::Refused(number, place), "{line}");
}

#[test]
fn accepted_expressions() {
    examples::READ.iter().for_each(|(line, rows)| accepted(line, rows));
    accepted(&examples::in_parentheses(63), &[[2, 1, 0]]);
}

#[test]
fn the_long_example() {
    let line = "NOT a = - 1 ! + 2 IS NULL";
    accepted(
        line,
        &[
            [9, 1, 0],
            [2, 1, 0],
            [13, 1, 0],
            [15, 2, 0],
            [2, 2, 0],
            [26, 3, 4],
            [19, 0, 5],
            [16, 6, 0],
            [14, 7, 0],
        ],
    );
    let made = words(line);
    assert_eq!(plain::levels_needed(&made.text, &made.tokens), 4);
    refused("a = 1 IS NULL AND b", LEFT_OVER, 5);
    assert_eq!(plain_parse("NOT a = 1 IS NULL AND b").map(|rows| rows.len()), Ok(7));
    assert_eq!(plain_parse("a IS NULL AND b").map(|rows| rows.len()), Ok(4));
}

#[test]
fn refused_expressions() {
    examples::REFUSED.iter().for_each(|(line, number, place)| refused(line, *number, *place));
    assert_eq!(plain_parse(&examples::in_parentheses(64)), Err((TOO_DEEP, 64)));
}

/// The format's clauses of a tree.
fn clauses(tree: &Tree) -> Result<Vec<Vec<u64>>, Refusal> {
    let made = predicate_of(tree);
    plain::split(&made.text, &made.rows)
}

/// The original's clauses, where all are lists of literals.
fn original(tree: &Tree) -> Option<Vec<Vec<u64>>> {
    let made = predicate_of(tree);
    expression::split(&made.text, &made.rows).into_iter().map(|c| c.literals).collect()
}

#[test]
fn clause_lists() {
    for Split { tree, clauses: list, shared } in examples::splits() {
        assert_eq!(clauses(&tree), Ok(list.clone()), "{tree:?}");
        // What the original leaves unsplit is in differences.rs.
        assert_eq!(original(&tree), shared.then_some(list), "{tree:?}");
    }
}

#[test]
fn clause_limits() {
    let list = clauses(&or_of_ands(&examples::MOST_LITERALS)).unwrap();
    assert_eq!(list.len() as u64, limit::CLAUSES);
    assert_eq!(list.concat().len() as u64, limit::LITERALS);
    assert_eq!(clauses(&or_of_ands(&examples::TOO_MANY_LITERALS)), Err((TOO_MANY, 0)));
}

/// The format's lookup of the only clause, which the original shares.
fn lookup(tree: &Tree) -> Result<(u64, Vec<Value>), Refusal> {
    let made = predicate_of(tree);
    let answer = plain::lookup(&made.text, &made.rows, 0).map(|l| (l.column, l.values));
    let clauses = expression::split(&made.text, &made.rows);
    let original = clauses[0].lookup.clone().map(|l| (l.column, l.values));
    assert_eq!(original, answer.clone().ok());
    answer
}

#[test]
fn lookups() {
    for (tree, values) in examples::lookups() {
        let expected = values.map(|values| (examples::LOOKED_UP, values));
        assert_eq!(lookup(&tree), expected.ok_or((NOT_LOOKUP, 0)), "{tree:?}");
    }
}
