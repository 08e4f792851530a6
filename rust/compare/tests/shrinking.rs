//! What large cases come down to.

use compare::shrink::{shrink, smaller_numbers, without_unused_bytes};
use compare::{lookup, parse, split};
use fontrisc::predicate;
use oracle::cases::{Tree, and, equal, or, predicate_of, string, words};
use oracle::layout::{TOKEN_WIDTH, row_at, row_count, rows_of, table_of};
use oracle::plain::{self, limit};

/// The kinds of the rows that a case reads as; none if it is refused.
fn kinds(case: &parse::Case) -> Vec<u64> {
    let rows = plain::parse(&case.text, &case.tokens, limit::ROWS, limit::LEVELS);
    rows.unwrap_or_default().iter().map(|row| row.kind).collect()
}

/// The kinds of the tokens that are left of a line if a row of a kind must stay.
fn left_of(line: &str, kind: u64) -> Vec<u32> {
    let made = words(line);
    let case = parse::Case { text: made.text, tokens: made.tokens, slots: 99 };
    let smallest = shrink(&case, |smaller| kinds(smaller).contains(&kind));
    assert!(smallest.text.len() <= 2, "{smallest}");
    smallest.tokens.chunks(TOKEN_WIDTH).map(|token| token[0]).collect()
}

#[test]
fn parentheses_go_in_pairs() {
    use fontrisc::token::{IDENT, LESS_THAN_OR_EQUAL};
    let kind = fontrisc::syntax::LESS_THAN_OR_EQUAL;
    let operator = [IDENT, LESS_THAN_OR_EQUAL, IDENT];
    assert_eq!(left_of("( ( a ) <= ( ( b ) ) )", kind), operator);
    assert_eq!(left_of("f ( x , g ( a ) <= ( b ) )", kind), operator);
    assert_eq!(left_of("- ( ( a + c ) <= h ( b ) ) IS NULL", kind), operator);
}

#[test]
fn bytes_that_nobody_uses_go() {
    // Two spans that share a byte, one that is empty, one past the end by two bytes.
    let spans = [(2, 3), (4, 2), (7, 0), (8, 4)];
    let (text, moved) =
        without_unused_bytes(b"0123456789", &spans).expect("some bytes are not used");
    assert_eq!(text, b"2345");
    assert_eq!(moved, [(0, 3), (2, 2), (4, 0), (4, 2)]);
    assert_eq!(without_unused_bytes(b"abc", &[(0, 2), (1, 2)]), None);
    // What lies wholly past the end, and what has no end.
    let far = [(11, 1), (u64::MAX, 2)];
    assert_eq!(
        without_unused_bytes(b"0123456789", &far),
        Some((vec![], vec![(1, 1), (u64::MAX - 10, 2)]))
    );
}

#[test]
fn a_clause_goes_with_its_rows() {
    let c = || Tree::Column(3);
    let other = |n| or(Tree::Column(n), Tree::Column(n + 1));
    let tree = and(and(other(0), other(5)), or(equal(c(), string("free")), Tree::Column(9)));
    let made = predicate_of(&tree);
    let case = lookup::Case { text: made.text, rows: made.rows, clause: 2, n: 4 };
    let smallest = shrink(&case, |smaller| {
        let list = plain::split(&smaller.text, &smaller.rows).unwrap_or_default();
        let clause = list.get(smaller.clause);
        clause.is_some_and(|list| {
            row_at(&smaller.rows, list[0] as usize / 2).kind == predicate::EQUAL
        })
    });
    assert_eq!((smallest.clause, smallest.n), (0, 0), "{smallest}");
    assert_eq!((row_count(&smallest.rows), smallest.text.len()), (3, 0), "{smallest}");
}

#[test]
fn strings_come_to_the_front() {
    let made = predicate_of(&equal(Tree::Column(0), string("handover")));
    let text = [b"not this ", &made.text[..]].concat();
    let mut rows = rows_of(&made.rows);
    rows[1].x += 9;
    let case = split::Case { text, rows: table_of(&rows), literals: 1, ends: 1 };
    let ends_in_r = |case: &split::Case| {
        let string = rows_of(&case.rows).into_iter().find(|row| row.kind == predicate::STRING);
        let end = string.map_or(0, |row| row.x + row.y);
        end > 0 && case.text.get(end as usize - 1) == Some(&b'r')
    };
    let smallest = shrink(&case, ends_in_r);
    assert_eq!(row_count(&smallest.rows), 1, "{smallest}");
    assert_eq!(smallest.text, b"handover", "{smallest}");
}

#[test]
fn large_numbers_fall_in_few_steps() {
    for least in [0, 1, 1_000_003, usize::MAX - 1] {
        let (mut number, mut steps) = (usize::MAX, 0);
        while let Some(smaller) = smaller_numbers(number).find(|n| *n >= least) {
            (number, steps) = (smaller, steps + 1);
        }
        assert_eq!(number, least);
        assert!(steps <= 64, "{steps} steps to {least}");
    }
}
