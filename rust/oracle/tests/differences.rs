//! One test for each class in docs/DIFFERENCES.md, on its smallest input: what
//! the format says, and what the original's sources do.

use oracle::cases::*;
use oracle::expression::{self, Evaluated, evaluate, values_panic};
use oracle::layout::{Row, row_count};
use oracle::parser::{Reading, read};
use oracle::plain::cells::{self, Kleene, Value};
use oracle::plain::predicate::kind;
use oracle::plain::reading::syntax;
use oracle::plain::refusal::*;
use oracle::plain::{self, Refusal, limit};

/// The format's answer to words under its own limits, with a table of rows.
fn by_the_format(line: &str, room: usize) -> Result<usize, Refusal> {
    let made = words(line);
    plain::parse(&made.text, &made.tokens, room, limit::LEVELS).map(|rows| rows.len())
}

/// The original parser's answer: how many rows its tree has, or its refusal.
fn original(line: &str) -> Result<usize, Refusal> {
    let made = words(line);
    match read(&made.text, &made.tokens) {
        Reading::Rows(rows) => Ok(rows.len()),
        Reading::Refused(number, place) => Err((number, place)),
        Reading::Outside => panic!("these numbers are UTF-8"),
    }
}

#[test]
fn class_1_levels() {
    let line = format!("{}a", "- ".repeat(64));
    assert_eq!(by_the_format(&line, limit::ROWS), Err((TOO_DEEP, 64)));
    assert_eq!(original(&line), Ok(65));
    // A refusal that would come later gives way, too.
    let line = "( ".repeat(64);
    assert_eq!(by_the_format(&line, limit::ROWS), Err((TOO_DEEP, 64)));
    assert_eq!(original(&line), Err((END, 64)));
    // Nothing but the stack ends the original parser's recursion.
    let line = format!("{}a", "- ".repeat(4_000));
    assert_eq!(original(&line), Ok(4_001));
}

#[test]
fn class_2_rows() {
    assert_eq!(by_the_format("a", 0), Err((NO_ROOM, 1)));
    assert_eq!(original("a"), Ok(1));
    let line = format!("{}1", "1 + ".repeat(1_024));
    assert_eq!(by_the_format(&line, 9_999), Err((NO_ROOM, 2_049)));
    assert_eq!(original(&line), Ok(2_049));
}

/// A number token that only the original parser takes.
fn odd_number(spelling: &str) {
    let line = format!("#{spelling}");
    assert_eq!(by_the_format(&line, limit::ROWS), Err((BAD_NUMBER, 0)), "{spelling}");
    let made = words(&line);
    assert_eq!(
        read(&made.text, &made.tokens),
        Reading::Rows(vec![Row::new(syntax::FLOAT, 0, 0)]),
        "{spelling}"
    );
}

#[test]
fn class_3_point_first() {
    [".0", ".5", ".5e1"].into_iter().for_each(odd_number);
}

#[test]
fn class_4_sign_first() {
    ["+0", "-0", "+1", "-1", "+.5", "-1e5", "-inf"].into_iter().for_each(odd_number);
}

#[test]
fn class_5_number_words() {
    ["inf", "nan", "NaN", "INF", "infinity", "Infinity"].into_iter().for_each(odd_number);
}

/// The format's clauses of a tree.
fn clauses(tree: &Tree) -> Result<Vec<Vec<u64>>, Refusal> {
    let made = predicate_of(tree);
    plain::split(&made.text, &made.rows)
}

/// The original's elements of a tree.
fn elements(tree: &Tree) -> Vec<expression::Clause> {
    let made = predicate_of(tree);
    expression::split(&made.text, &made.rows)
}

/// The only element, which must be no list of literals.
fn unsplit(tree: &Tree) -> expression::Clause {
    let mut elements = elements(tree);
    assert_eq!(elements.len(), 1);
    assert_eq!(elements[0].literals, None);
    elements.remove(0)
}

#[test]
fn class_6_not_left() {
    let [a, b] = [0, 1].map(Tree::Column);
    let four = not(not(not(not(a.clone()))));
    assert_eq!(clauses(&four), Ok(vec![vec![0]]));
    assert!(unsplit(&four).not_left);
    // Five are taken away properly, six are not.
    let five = not(four.clone());
    assert_eq!(elements(&five)[0].literals, Some(vec![1]));
    assert!(unsplit(&not(five)).not_left);
    // Three are too many over AND and OR.
    let three = |tree| not(not(not(tree)));
    assert_eq!(clauses(&three(and(a.clone(), b.clone()))), Ok(vec![vec![1, 3]]));
    assert!(unsplit(&three(and(a.clone(), b.clone()))).not_left);
    assert_eq!(clauses(&three(or(a.clone(), b.clone()))), Ok(vec![vec![1], vec![3]]));
    assert!(unsplit(&three(or(a.clone(), b.clone()))).not_left);
    // A NOT that a negated AND hands down counts.
    let handed = not(and(not(not(not(a))), b));
    assert_eq!(clauses(&handed), Ok(vec![vec![0, 9]]));
    assert!(unsplit(&handed).not_left);
}

#[test]
fn class_7_and_left() {
    let [a, b, c, d] = [0, 1, 2, 3].map(Tree::Column);
    let left = or(or(and(a.clone(), b.clone()), c.clone()), d.clone());
    assert_eq!(clauses(&left), Ok(vec![vec![0, 6, 10], vec![2, 6, 10]]));
    assert!(unsplit(&left).and_left);
    let right = or(a, or(b, and(c, d)));
    assert_eq!(clauses(&right), Ok(vec![vec![0, 2, 4], vec![0, 2, 6]]));
    assert!(unsplit(&right).and_left);
}

#[test]
fn class_8_no_clause_limit() {
    let chain = |n: u64| (1..n).fold(Tree::Column(0), |t, c| and(t, Tree::Column(c)));
    let tree = or(chain(33), chain(32));
    assert_eq!(clauses(&tree), Err((TOO_MANY, 0)));
    assert_eq!(elements(&tree).len(), 1_056);
}

/// The lookup of the first clause: the format's and the original's.
fn lookups(tree: &Tree) -> [Option<(u64, Vec<Value>)>; 2] {
    let made = predicate_of(tree);
    let plain = plain::lookup(&made.text, &made.rows, 0).ok().map(|l| (l.column, l.values));
    let original = elements(tree).remove(0).lookup.map(|l| (l.column, l.values));
    [plain, original]
}

#[test]
fn class_9_below_atoms() {
    let c = || not(not(Tree::Column(0)));
    let [plain, original] = lookups(&is(c(), 0));
    assert_eq!(plain, None);
    assert_eq!(original, Some((0, vec![Value::Null])));
    assert!(elements(&is(c(), 0))[0].altered);
    let [plain, original] = lookups(&equal(c(), Tree::Integer(1)));
    assert_eq!(plain, None);
    assert_eq!(original, Some((0, vec![Value::Integer(1)])));
    // Distributing happens below atoms, too; no lookup comes of it.
    let deep = equal(or(and(Tree::Column(0), Tree::Column(1)), Tree::Null), Tree::Null);
    assert!(elements(&deep)[0].altered);
    assert_eq!(lookups(&deep), [None, None]);
}

#[test]
fn class_10_lookups_not_seen() {
    let four = not(not(not(not(is(Tree::Column(0), 0)))));
    assert_eq!(lookups(&four), [Some((0, vec![Value::Null])), None]);
    // The format's first clause is c IS NULL OR c IS NAN OR c IS NULL.
    let c = || is(Tree::Column(0), 0);
    let left = or(or(and(c(), Tree::Column(1)), is(Tree::Column(0), 1)), c());
    let [plain, original] = lookups(&left);
    assert_eq!(plain.unwrap().1.len(), 3);
    assert_eq!(original, None);
}

#[test]
fn class_11_values_of_no_lookup() {
    let c = || Tree::Column(0);
    for tree in [c(), not(equal(c(), Tree::Integer(1)))] {
        let made = predicate_of(&tree);
        assert_eq!(plain::lookup(&made.text, &made.rows, 0), Err((NOT_LOOKUP, 0)));
        assert!(values_panic(&made.text, &made.rows, 0, 0));
    }
}

/// A literal on one cell: the format's value and the original's.
fn truths(atom: &Tree, cell: &Value) -> (Kleene, Evaluated) {
    let made = predicate_of(atom);
    let literal = 2 * (row_count(&made.rows) as u64 - 1);
    let plain = cells::literal(&made.text, &made.rows, literal, cell).unwrap();
    (plain, evaluate(&made.text, &made.rows, literal, std::slice::from_ref(cell)))
}

#[test]
fn class_12_integer_and_float() {
    let one = equal(Tree::Column(0), float(1.0));
    let expected = (Kleene::False, Evaluated::Truth(Kleene::True));
    assert_eq!(truths(&one, &Value::Integer(1)), expected);
    // The original rounds the whole number first.
    let large = equal(Tree::Column(0), float(9_007_199_254_740_992.0));
    assert_eq!(truths(&large, &Value::Integer(9_007_199_254_740_993)), expected);
}

#[test]
fn class_13_other_kinds() {
    let text = equal(Tree::Column(0), string("1"));
    assert_eq!(truths(&text, &Value::Integer(1)), (Kleene::False, Evaluated::Refused));
    let truth = equal(Tree::Column(0), Tree::Boolean(true));
    assert_eq!(truths(&truth, &Value::Float(0)), (Kleene::False, Evaluated::Refused));
}

#[test]
fn class_14_null_is_nan() {
    let atom = is(Tree::Column(0), 1);
    assert_eq!(truths(&atom, &Value::Null), (Kleene::False, Evaluated::Truth(Kleene::Null)));
}

#[test]
fn class_15_is_nan_of_no_float() {
    let atom = is(Tree::Column(0), 1);
    for cell in [Value::Boolean(true), Value::Integer(1), Value::String(b"x".to_vec())] {
        assert_eq!(truths(&atom, &cell), (Kleene::False, Evaluated::Refused));
    }
}

/// The original's only element of a tree, which must have the format's
/// literals and yet another atom behind them: as it stands, and as it should be.
fn rewritten(tree: &Tree) -> [String; 2] {
    let made = predicate_of(tree);
    let expected = clauses(tree).expect("a small predicate");
    let clause = elements(tree).remove(0);
    assert_eq!(vec![clause.literals.unwrap()], expected);
    assert!(clause.altered);
    let tree = expression::tree_of(&made.text, &made.rows);
    let mut elements = tree.clone().into_cnf_vec();
    assert_eq!(elements.len(), 1);
    [format!("{:?}", elements.remove(0)), format!("{tree:?}")]
}

#[test]
fn class_16_rewriting_below_atoms() {
    let plus = |tree: Tree| unary(kind::IDENTITY, tree);
    let [a, b, c] = [0, 1, 2].map(Tree::Column);
    let smallest = plus(not(not(a.clone())));
    assert_eq!(predicate_of(&smallest).rows, [6, 0, 0, 9, 0, 0, 9, 1, 0, 18, 2, 0]);
    assert_eq!(clauses(&smallest), Ok(vec![vec![6]]));
    assert_eq!(
        rewritten(&smallest),
        ["Identity(Column(0))", "Identity(Not(Not(Column(0))))"].map(str::to_string)
    );
    // A NOT moves down, and an OR is distributed.
    let negated = rewritten(&plus(not(and(a.clone(), b.clone()))));
    assert_eq!(negated[0], "Identity(Or(Not(Column(0)), Not(Column(1))))");
    let distributed = rewritten(&plus(or(and(a, b), c)));
    let each = "Or(Column(0), Column(2)), Or(Column(1), Column(2))";
    assert_eq!(distributed[0], format!("Identity(And({each}))"));
    // So an atom that would be an error can have a value.
    let of_one = |atom: &Tree| {
        let made = predicate_of(atom);
        let literal = 2 * (row_count(&made.rows) as u64 - 1);
        evaluate(&made.text, &made.rows, literal, &[Value::Integer(1)])
    };
    assert_eq!(of_one(&is(not(not(Tree::Column(0))), 0)), Evaluated::Refused);
    assert_eq!(of_one(&is(Tree::Column(0), 0)), Evaluated::Truth(Kleene::False));
}
