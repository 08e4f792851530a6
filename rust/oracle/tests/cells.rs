//! The cell rules against what the original evaluates a literal to.

use oracle::cases::*;
use oracle::expression::{Evaluated, evaluate};
use oracle::layout::{row_at, row_count};
use oracle::plain::cells::{self, Kleene, Value};
use std::mem::discriminant;

/// Constants of every kind, with the numbers that lie near one another.
fn constants() -> Vec<Tree> {
    let whole = [0, 1, -1, 2, 9_007_199_254_740_992, 9_007_199_254_740_993, i64::MIN, i64::MAX];
    let floats = [0.0, -0.0, 1.0, 1.5, -1.0, 9_007_199_254_740_992.0, f64::INFINITY, f64::NAN];
    let mut all = vec![Tree::Null, Tree::Boolean(false), Tree::Boolean(true)];
    all.extend(whole.map(Tree::Integer));
    all.extend(floats.map(float));
    all.push(Tree::Float(0xfff8_0000_0000_0123));
    all.extend(["", "a", "A", "ab"].map(string));
    all.push(Tree::String(vec![0xff]));
    all
}

/// The value of a constant.
fn value(constant: &Tree) -> Value {
    let made = predicate_of(constant);
    Value::of(&made.text, row_at(&made.rows, 0).constant())
}

/// What the original does with an Equal where the rules differ.
fn other_equal(left: &Value, right: &Value) -> Option<Evaluated> {
    match (left, right) {
        (Value::Null, _) | (_, Value::Null) => None,
        // A whole number is turned into a float, rounded where it must be.
        (Value::Integer(i), Value::Float(bits)) | (Value::Float(bits), Value::Integer(i)) => {
            let same = *i as f64 == f64::from_bits(*bits);
            same.then_some(Evaluated::Truth(Kleene::True))
        }
        _ => (discriminant(left) != discriminant(right)).then_some(Evaluated::Refused),
    }
}

/// The same for an Is.
fn other_is(cell: &Value, y: u64) -> Option<Evaluated> {
    match (y, cell) {
        (0, _) | (_, Value::Float(_)) => None,
        (_, Value::Null) => Some(Evaluated::Truth(Kleene::Null)),
        _ => Some(Evaluated::Refused),
    }
}

/// Compares an atom and its negation on one cell.
fn compare(atom: &Tree, cell: &Value, other: Option<Evaluated>) {
    let made = predicate_of(atom);
    let root = row_count(&made.rows) as u64 - 1;
    for literal in [2 * root, 2 * root + 1] {
        let plain = cells::literal(&made.text, &made.rows, literal, cell).unwrap();
        let expected = match other {
            None => Evaluated::Truth(plain),
            Some(Evaluated::Truth(truth)) if literal % 2 == 1 => Evaluated::Truth(truth.not()),
            Some(other) => other,
        };
        let original = evaluate(&made.text, &made.rows, literal, std::slice::from_ref(cell));
        assert_eq!(original, expected, "{atom:?} on {cell:?}");
        assert!(other.is_none() || original != Evaluated::Truth(plain), "{atom:?} on {cell:?}");
    }
}

#[test]
fn equal_on_every_pair() {
    let mut differing = 0;
    for constant in constants() {
        for cell in constants() {
            let (constant_value, cell) = (value(&constant), value(&cell));
            let other = other_equal(&cell, &constant_value);
            differing += usize::from(other.is_some());
            let column = || Tree::Column(0);
            compare(&equal(column(), constant.clone()), &cell, other);
            compare(&equal(constant.clone(), column()), &cell, other);
        }
    }
    println!("{differing} of {} pairs differ", constants().len().pow(2));
}

#[test]
fn is_on_every_cell() {
    for cell in constants() {
        let cell = value(&cell);
        for y in [0, 1] {
            compare(&is(Tree::Column(0), y), &cell, other_is(&cell, y));
        }
    }
}

#[test]
fn connectives_on_every_choice_are_shared() {
    let cell = |k: Kleene| match k {
        Kleene::False => Value::Boolean(false),
        Kleene::Null => Value::Null,
        Kleene::True => Value::Boolean(true),
    };
    for a in Kleene::ALL {
        for b in Kleene::ALL {
            let truth = |tree: &Tree| {
                let made = predicate_of(tree);
                let root = row_count(&made.rows) as u64 - 1;
                evaluate(&made.text, &made.rows, 2 * root, &[cell(a), cell(b)])
            };
            let (x, y) = (|| Tree::Column(0), || Tree::Column(1));
            assert_eq!(truth(&and(x(), y())), Evaluated::Truth(a.and(b)));
            assert_eq!(truth(&or(x(), y())), Evaluated::Truth(a.or(b)));
            assert_eq!(truth(&not(x())), Evaluated::Truth(a.not()));
        }
    }
}
