//! The stored answers: lines of numbers that say what the original's sources
//! answer to chosen inputs. crates/replay/README.md describes the lines.

use crate::cases::*;
use crate::layout::{row_count, token_count};
use crate::parser::{Reading, read};
use crate::plain::limit;
use crate::plain::predicate::kind;
use crate::plain::tokens::kind as token;
use crate::{expression, plain};
use std::fmt::Write;

/// The lines of crates/replay/data/parse.txt.
pub fn parse_lines() -> Vec<String> {
    let mut lines = Lines::default();
    for input in parse_inputs() {
        lines.push(parse_line(&input));
    }
    lines.all
}

/// The lines of crates/replay/data/split.txt.
pub fn split_lines() -> Vec<String> {
    let mut lines = Lines::default();
    for tree in split_inputs() {
        lines.push(split_line(&predicate_of(&tree)));
    }
    for tree in lookup_inputs() {
        for line in lookup_lines(&predicate_of(&tree)) {
            lines.push(Some(line));
        }
    }
    lines.all
}

/// Lines in order, each once.
#[derive(Default)]
struct Lines {
    all: Vec<String>,
    seen: std::collections::HashSet<String>,
}

impl Lines {
    /// Adds a line unless there is none or it stands there already.
    fn push(&mut self, line: Option<String>) {
        if let Some(line) = line
            && self.seen.insert(line.clone())
        {
            self.all.push(line);
        }
    }
}

/// Appends numbers, each after a space.
fn numbers(line: &mut String, values: impl IntoIterator<Item = u64>) {
    for value in values {
        write!(line, " {value}").expect("a string takes everything");
    }
}

/// Appends a list with its length before it.
fn counted(line: &mut String, count: usize, values: impl IntoIterator<Item = u64>) {
    numbers(line, [count as u64]);
    numbers(line, values);
}

/// The line of a token table, with the original parser's answer; none if the
/// answer is one that the format does not share.
pub fn parse_line(input: &Tokens) -> Option<String> {
    let answer = read(&input.text, &input.tokens);
    let plain = plain::parse(&input.text, &input.tokens, limit::ROWS, limit::LEVELS);
    let same = match (&answer, &plain) {
        (Reading::Rows(rows), Ok(expected)) => rows == expected,
        (Reading::Refused(number, place), Err(expected)) => (*number, *place) == *expected,
        _ => false,
    };
    if !same {
        return None;
    }
    let mut line = String::from("P");
    counted(&mut line, input.text.len(), input.text.iter().map(|b| u64::from(*b)));
    counted(&mut line, token_count(&input.tokens), input.tokens.iter().map(|n| u64::from(*n)));
    match answer {
        Reading::Rows(rows) => {
            line.push_str(" A");
            counted(&mut line, rows.len(), rows.iter().flat_map(|row| row.numbers()));
        }
        Reading::Refused(number, place) => {
            line.push_str(" R");
            numbers(&mut line, [u64::from(number), place]);
        }
        Reading::Outside => return None,
    }
    Some(line)
}

/// A predicate as it stands at the start of its lines.
fn predicate(letter: &str, input: &Predicate) -> String {
    let mut line = String::from(letter);
    counted(&mut line, input.text.len(), input.text.iter().map(|b| u64::from(*b)));
    counted(&mut line, row_count(&input.rows), input.rows.iter().copied());
    line
}

/// The original's clauses, if all of them are lists of literals and the
/// format's list is the same.
fn shared_clauses(input: &Predicate) -> Option<Vec<expression::Clause>> {
    let expected = plain::split(&input.text, &input.rows).ok()?;
    let clauses = expression::split(&input.text, &input.rows);
    let literals: Option<Vec<Vec<u64>>> = clauses.iter().map(|c| c.literals.clone()).collect();
    (literals? == expected).then_some(clauses)
}

/// The line of a predicate with the original's clauses; none if it has
/// rewritten an atom inside.
pub fn split_line(input: &Predicate) -> Option<String> {
    let clauses = shared_clauses(input)?;
    if clauses.iter().any(|clause| clause.altered) {
        return None;
    }
    let mut line = predicate("S", input);
    line.push_str(" C");
    numbers(&mut line, [clauses.len() as u64]);
    for clause in clauses {
        let literals = clause.literals?;
        counted(&mut line, literals.len(), literals);
    }
    Some(line)
}

/// The lines of a predicate's clauses with the original's lookups.
pub fn lookup_lines(input: &Predicate) -> Vec<String> {
    let clauses = shared_clauses(input).unwrap_or_default();
    let lines = clauses.iter().enumerate().filter(|(_, clause)| !clause.altered);
    lines.filter_map(|(n, clause)| lookup_line(input, n, clause)).collect()
}

/// The line of one clause; none if the format calls it another lookup.
fn lookup_line(input: &Predicate, n: usize, clause: &expression::Clause) -> Option<String> {
    let expected = plain::lookup(&input.text, &input.rows, n).ok();
    let expected = expected.map(|l| (l.column, l.constants));
    if expected != clause.lookup.as_ref().map(|l| (l.column, l.constants.clone())) {
        return None;
    }
    let mut line = predicate("L", input);
    numbers(&mut line, [n as u64]);
    match &clause.lookup {
        None => line.push_str(" N"),
        Some(lookup) => {
            line.push_str(" V");
            numbers(&mut line, [lookup.column]);
            let constants = lookup.constants.iter().flatten().copied();
            counted(&mut line, lookup.constants.len(), constants);
        }
    }
    Some(line)
}

/// One operator of each infix precedence.
const LEVELS: [&str; 7] = ["OR", "AND", "=", "<", "+", "*", "^"];

/// Inputs that are written out: the format's examples, then one or more for
/// each construct and each refusal.
const WRITTEN: [&str; 101] = [
    "2 ^ 3 ^ 2 - 4 * 3",
    "- 1 !",
    "1 + NULL IS NULL",
    "a = b < c",
    "1 + NOT 3",
    "1 + 2 IS NULL AND TRUE",
    "f ( 1 , )",
    "",
    "a .",
    "a IS 3",
    "* * *",
    "9223372036854775808",
    "9223372036854775807",
    "000000000000000000000000000009223372036854775807",
    "000000000000000000000000000009223372036854775808",
    "0",
    "00",
    "1.",
    "1.5",
    "1.e5",
    "1e5",
    "1E+5",
    "1.25e-17",
    "1e400",
    "0e0",
    "1e",
    "1e+",
    "1e5.",
    "1.5.5",
    "1_0",
    "0x1",
    "#",
    "#.",
    "#e5",
    "#abc",
    "#--1",
    "a + #",
    "#abc b",
    "f ( )",
    "f ( a )",
    "f ( a , 'b , 3 )",
    "f ( g ( h ( ) ) , t . c )",
    "f (",
    "f ( a",
    "f ( a ,",
    "f ( , a )",
    "f ( a b )",
    "f ( a ; b )",
    "f ( a ) ( b )",
    "t . c",
    "t . c . d",
    "t . 3",
    "t . (",
    "t . 'c",
    "( a )",
    "( ( a ) )",
    "( )",
    "(",
    "( a",
    "( a b",
    "( a , b )",
    "( a ) )",
    "a IS",
    "a IS NOT",
    "a IS NOT TRUE",
    "a IS NOT NOT NULL",
    "a IS NULL IS NOT NAN IS NULL",
    "NOT NOT a",
    "NOT a IS NULL",
    "- - + a ! !",
    "- a ^ b !",
    "a ! IS NULL ! + b",
    "a = b IS NULL = c",
    "a < b IS NULL < c",
    "a + b * c ^ d ^ e * f - g < h = i AND j OR k",
    "a ^ - b ^ c",
    "a IS a",
    "a IS (",
    "a IS NOT ;",
    "a = b IS FALSE",
    "1 ! IS NOT INFINITY",
    "t . *",
    "t . NULL",
    "t . .",
    "a + t . - b",
    "f ( a ; )",
    "f ( a = b c )",
    "f ( a . b . c )",
    "f ( ( a ) b )",
    "f ( a , b ( )",
    "( a = b ;",
    "( f ( a ) ,",
    "( NOT a NOT b )",
    "( a IS NULL + 1 )",
    "NOT ( a OR b",
    "- ( a . b ) ^ f ( ) !",
    "NOT a = - 1 ! + 2 IS NULL",
    "a = 1 IS NULL AND b",
    "NOT a = 1 IS NULL AND b",
    "a IS NULL AND b",
    "9223372036854775808.",
];

/// The inputs of the parse list.
fn parse_inputs() -> Vec<Tokens> {
    let mut lines: Vec<String> = WRITTEN.iter().map(|line| line.to_string()).collect();
    lines.push(format!("{} 1 {}", "( ".repeat(63), ") ".repeat(63)));
    lines.push(format!("{} 1", "( ".repeat(20)));
    lines.push("1 + ".repeat(30));
    lines.push(format!("{}1", "1 + ".repeat(30)));
    lines.push(format!("{}1", "1 ^ ".repeat(30)));
    lines.push(format!("{}a", "NOT ".repeat(30)));
    lines.push(format!("{}a", "- ".repeat(30)));
    lines.push(format!("a{}", " !".repeat(30)));
    lines.push(format!("a{}", " IS NOT NULL".repeat(12)));
    lines.push(format!("f ( {} a )", "a , ".repeat(25)));
    for kind in 1..=token::LAST {
        let word = word_of(kind);
        lines.push(word.to_string());
        lines.push(format!("a {word}"));
    }
    for first in LEVELS {
        for second in LEVELS {
            lines.push(format!("a {first} b {second} c"));
        }
        lines.push(format!("a {first} b IS NULL"));
        lines.push(format!("a {first} b !"));
        lines.push(format!("a {first} NOT b"));
        lines.push(format!("a {first} - b"));
        lines.push(format!("NOT a {first} b"));
        lines.push(format!("- a {first} b"));
    }
    lines.extend(INFIX.iter().map(|operator| format!("1 {operator} 'x")));
    lines.extend(random_lines());
    let mut inputs: Vec<Tokens> = lines.iter().map(|line| words(line)).collect();
    inputs.extend(odd_spans());
    inputs
}

/// Random inputs of up to sixty tokens, the second half spoiled.
fn random_lines() -> Vec<String> {
    let mut dice = Dice::new(1);
    let mut lines = Vec::new();
    while lines.len() < 60 {
        let line = random_expression(&mut dice, 4 + lines.len() / 10);
        let line = if lines.len() < 30 { line } else { spoil(&mut dice, &line) };
        let count = line.split(' ').count();
        if (6..=60).contains(&count) {
            lines.push(line);
        }
    }
    lines
}

/// Token tables whose spans overlap, are empty or stand in no order.
fn odd_spans() -> Vec<Tokens> {
    let text = b"12345".to_vec();
    let table = |tokens: &[u32]| Tokens { text: text.clone(), tokens: tokens.to_vec() };
    vec![
        table(&[1, 0, 5, 14, 2, 0, 1, 1, 3]),
        table(&[1, 4, 1, 15, 0, 5, 1, 0, 1]),
        table(&[3, 5, 0, 6, 5, 0, 2, 5, 0]),
        table(&[1, 5, 0]),
        table(&[3, 0, 5, 31, 0, 5, 3, 0, 5]),
        Tokens { text: vec![0xff, 0x00, 0x80], tokens: vec![2, 0, 3, 9, 0, 0, 3, 1, 2] },
    ]
}

/// An atom that looks nothing up.
fn plain_atom(n: u64) -> Tree {
    binary(kind::LESS_THAN, Tree::Column(n), Tree::Integer(n as i64))
}

/// The predicates of the split list.
fn split_inputs() -> Vec<Tree> {
    let column = Tree::Column;
    let mut trees = vec![
        or(and(column(0), column(1)), and(column(2), column(3))),
        not(not(not(column(0)))),
        and(plain_atom(1), or(plain_atom(2), not(plain_atom(3)))),
        or(plain_atom(1), and(and(plain_atom(2), plain_atom(3)), plain_atom(4))),
        or(chain(kind::AND, 16), chain(kind::AND, 16)),
        chain(kind::AND, 40),
        chain(kind::OR, 40),
        not(chain(kind::AND, 40)),
        not(chain(kind::OR, 40)),
        or(column(0), chain(kind::AND, 40)),
        or(column(9), column(9)),
        and(Tree::Null, Tree::Boolean(false)),
        // NOT below an atom is the atom's own affair.
        equal(not(column(0)), Tree::Boolean(true)),
    ];
    trees.extend(every_tree(0, 1, 3));
    trees.extend(every_tree(0, 2, 1));
    trees.extend(every_tree(0, 3, 1).into_iter().step_by(3));
    let mut dice = Dice::new(2);
    trees.extend((0..60).map(|n| random_tree(&mut dice, 3 + n / 30, &random_atom)));
    trees
}

/// The predicates of the lookup lines.
fn lookup_inputs() -> Vec<Tree> {
    let c = || Tree::Column(0);
    let is_one = |column| equal(column, Tree::Integer(1));
    let mut trees = vec![
        or(or(is_one(c()), is(c(), 0)), equal(Tree::Integer(2), c())),
        equal(c(), Tree::Null),
        or(is_one(c()), is_one(Tree::Column(1))),
        equal(c(), float(f64::NAN)),
        equal(float(f64::NAN), c()),
        is(c(), 1),
        not(is_one(c())),
        not(is(c(), 0)),
        not(not(is_one(c()))),
        equal(c(), c()),
        equal(Tree::Integer(1), Tree::Integer(1)),
        equal(Tree::Column(limit::COLUMN), string("edge")),
        or(equal(c(), string("ab")), equal(c(), string("ab"))),
        equal(c(), Tree::String(vec![0xff])),
        equal(c(), Tree::Integer(i64::MIN)),
        equal(c(), Tree::Float(0x7ff0_0000_0000_0001)),
        equal(c(), float(-0.0)),
        equal(c(), float(f64::NEG_INFINITY)),
        equal(c(), Tree::Boolean(true)),
        c(),
    ];
    let mut dice = Dice::new(3);
    trees.extend((0..70).map(|n| {
        let ors = (0..n % 4).fold(random_lookup(&mut dice), |t, _| or(t, random_lookup(&mut dice)));
        if n % 3 == 0 { and(ors, random_atom(&mut dice)) } else { ors }
    }));
    trees.extend((0..20).map(|_| random_tree(&mut dice, 3, &random_lookup)));
    trees
}
