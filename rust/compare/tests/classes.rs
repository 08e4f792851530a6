//! What the comparison says of a split where the original's list is not the
//! format's: the smallest inputs of docs/DIFFERENCES.md.

use compare::original::{self, Verdict};
use fontrisc::predicate;
use oracle::cases::{Tree, and, equal, not, or, predicate_of, unary};
use oracle::plain;

/// How the original's clauses of a tree stand to the format's.
fn verdict(tree: &Tree) -> Verdict {
    let made = predicate_of(tree);
    let (literals, ends) =
        plain::split_into(&made.text, &made.rows, 99, 99).expect("a small predicate");
    let theirs = original::clauses(&made.text, &made.rows, ends.len() as u64);
    let narrow = |list: Vec<u64>| list.into_iter().map(|n| n as u32).collect::<Vec<_>>();
    original::verdict_on_split(&theirs.expect("few clauses"), &narrow(literals), &narrow(ends))
}

#[test]
fn what_is_left_above_atoms() {
    let [a, b, c, d] = [0, 1, 2, 3].map(Tree::Column);
    assert_eq!(verdict(&not(not(not(a.clone())))), Verdict::Same);
    assert_eq!(verdict(&not(not(not(not(a.clone()))))), Verdict::Class(6));
    assert_eq!(verdict(&or(or(and(a, b), c), d)), Verdict::Class(7));
}

#[test]
fn what_is_rewritten_below_atoms() {
    let plus = |tree: Tree| unary(predicate::IDENTITY, tree);
    let [a, b, c] = [0, 1, 2].map(Tree::Column);
    let twice = not(not(c.clone()));
    assert_eq!(verdict(&plus(not(c.clone()))), Verdict::Same);
    assert_eq!(verdict(&plus(twice.clone())), Verdict::Class(16));
    assert_eq!(verdict(&equal(not(and(a.clone(), b.clone())), c.clone())), Verdict::Class(16));
    assert_eq!(verdict(&equal(or(c.clone(), and(a.clone(), b)), c)), Verdict::Class(16));
    // One such atom is enough. Where something is left above atoms too, that counts.
    assert_eq!(verdict(&or(a.clone(), not(plus(twice.clone())))), Verdict::Class(16));
    assert_eq!(verdict(&and(not(not(not(not(a)))), plus(twice))), Verdict::Class(6));
}
