//! The plain lookups and values against the original's.

use oracle::cases::*;
use oracle::expression;
use oracle::layout::{Constant, row_at};
use oracle::plain::cells::{Kleene, NAN_BITS, Value};
use oracle::plain::predicate::kind;
use oracle::plain::refusal::*;
use oracle::plain::{self, cells};

/// The column and the values.
type Found = Option<(u64, Vec<Constant>)>;

/// Compares the lookups of every clause of a tree whose lists agree. They are
/// the same unless something below an atom was rewritten; answers how many
/// clauses were compared, how many are lookups and how many differ.
fn compare(tree: &Tree) -> [usize; 3] {
    let made = predicate_of(tree);
    let clauses = expression::split(&made.text, &made.rows);
    let mut counts = [0; 3];
    if clauses.iter().any(|c| c.literals.is_none()) {
        return counts;
    }
    for (n, clause) in clauses.iter().enumerate() {
        let plain = plain::lookup(&made.text, &made.rows, n);
        let plain: Found = plain.ok().map(|l| (l.column, l.constants));
        let original: Found = clause.lookup.as_ref().map(|l| (l.column, l.constants.clone()));
        counts[0] += 1;
        counts[1] += usize::from(plain.is_some());
        if clause.altered && plain != original {
            assert!(plain.is_none(), "rewriting below atoms only makes more lookups: {tree:?}");
            counts[2] += 1;
        } else {
            assert_eq!(plain, original, "{tree:?}");
        }
    }
    counts
}

/// Compares many trees.
fn compare_all(name: &str, trees: impl Iterator<Item = Tree>) -> [usize; 3] {
    let mut sums = [0; 3];
    for tree in trees {
        let counts = compare(&tree);
        (0..3).for_each(|n| sums[n] += counts[n]);
    }
    println!("{name}: {} clauses, {} lookups, {} rewritten below", sums[0], sums[1], sums[2]);
    sums
}

/// Atoms of every sort that decides whether a clause is a lookup.
fn atoms() -> Vec<Tree> {
    let c = || Tree::Column(3);
    let constants = [
        Tree::Null,
        Tree::Boolean(true),
        Tree::Integer(-1),
        float(-0.0),
        float(f64::NAN),
        Tree::Float(NAN_BITS + 1),
        Tree::Float(0xffff_ffff_ffff_ffff),
        string("s"),
        string(""),
    ];
    let mut atoms = vec![c(), Tree::Integer(1), is(c(), 0), is(c(), 1), is(Tree::Null, 0)];
    for constant in constants {
        atoms.push(equal(c(), constant.clone()));
        atoms.push(equal(constant.clone(), c()));
        atoms.push(equal(constant.clone(), constant));
    }
    atoms.push(equal(c(), c()));
    atoms.push(equal(Tree::Column(4), Tree::Integer(1)));
    atoms.push(is(Tree::Column(4), 0));
    atoms.push(binary(kind::LESS_THAN, c(), Tree::Integer(1)));
    atoms.push(equal(unary(kind::IDENTITY, c()), Tree::Integer(1)));
    atoms
}

#[test]
fn every_pair_of_atoms() {
    let all = atoms();
    let mut trees = Vec::new();
    for a in &all {
        trees.extend([a.clone(), not(a.clone()), not(not(a.clone()))]);
        for b in &all {
            trees.push(or(a.clone(), b.clone()));
            trees.push(and(a.clone(), not(b.clone())));
            trees.push(not(and(not(a.clone()), not(b.clone()))));
        }
    }
    let sums = compare_all("pairs", trees.into_iter());
    assert_eq!(sums[2], 0);
}

#[test]
fn random_lookups() {
    let rounds = if cfg!(debug_assertions) { 500 } else { 20_000 };
    let mut dice = Dice::new(31);
    let tree = |n: usize, dice: &mut Dice| {
        let atom = if n % 2 == 1 { random_atom } else { random_lookup };
        random_tree(dice, n % 4, &atom)
    };
    compare_all("random", (0..rounds).map(|n| tree(n, &mut dice)));
}

#[test]
fn rewriting_below_atoms_makes_lookups() {
    let doubled = |dice: &mut Dice| {
        let c = not(not(Tree::Column(0)));
        match dice.below(4) {
            0 => is(c, dice.below(2) as u64),
            1 => equal(c, random_constant(dice)),
            2 => equal(or(and(Tree::Column(0), Tree::Column(1)), Tree::Null), Tree::Null),
            _ => random_lookup(dice),
        }
    };
    let mut dice = Dice::new(32);
    let sums = compare_all("doubled", (0..500).map(|n| random_tree(&mut dice, n % 3, &doubled)));
    assert!(sums[2] > 0);
}

#[test]
fn order_of_refusals() {
    let made = predicate_of(&or(equal(Tree::Column(0), Tree::Integer(5)), is(Tree::Column(0), 1)));
    let value = |clause, n| plain::value_at(&made.text, &made.rows, clause, n);
    assert_eq!(value(0, 0), Ok(Value::Integer(5)));
    assert_eq!(value(0, 1), Ok(Value::Float(NAN_BITS)));
    assert_eq!(value(0, 2), Err((NO_SUCH, 0)));
    assert_eq!(value(1, 0), Err((NO_SUCH, 0)));
    let made = predicate_of(&not(equal(Tree::Column(0), Tree::Integer(5))));
    let value = |clause, n| plain::value_at(&made.text, &made.rows, clause, n);
    assert_eq!(value(0, 9), Err((NOT_LOOKUP, 0)));
    assert_eq!(value(1, 9), Err((NO_SUCH, 0)));
    // Too many clauses are refused before a clause number is looked at.
    let chain = |n: u64| (1..n).fold(Tree::Column(0), |t, c| and(t, Tree::Column(c)));
    let made = predicate_of(&or(chain(33), chain(32)));
    assert_eq!(plain::lookup(&made.text, &made.rows, 9_999), Err((TOO_MANY, 0)));
}

/// A clause that is a lookup is TRUE exactly on the cells that match one of
/// its values.
#[test]
fn lookups_find_the_true_cells() {
    let mut dice = Dice::new(33);
    let cells: Vec<Value> = (0..200)
        .map(|_| {
            let made = predicate_of(&random_constant(&mut dice));
            Value::of(&made.text, row_at(&made.rows, 0).constant())
        })
        .collect();
    for n in 0..500 {
        let first = random_lookup(&mut dice);
        let tree = (0..n % 4).fold(first, |t, _| or(t, random_lookup(&mut dice)));
        let made = predicate_of(&tree);
        let clause = plain::split(&made.text, &made.rows).unwrap().remove(0);
        let Ok(lookup) = plain::lookup(&made.text, &made.rows, 0) else { continue };
        for cell in &cells {
            let literal = |l: &u64| cells::literal(&made.text, &made.rows, *l, cell).unwrap();
            let value = clause.iter().map(literal).fold(Kleene::False, Kleene::or);
            let found = lookup.values.iter().any(|v| cells::matches(cell, v));
            assert_eq!(value == Kleene::True, found, "{tree:?} on {cell:?}");
        }
    }
}
