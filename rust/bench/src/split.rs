//! The times of `split` beside those of the original's `into_cnf_vec`.

use crate::clock::{best, nanoseconds, print_head, print_row, ratio, shown};
use crate::shapes::{AND, NOT, OR, Rows, rows};
use fontrisc::limit;
use oracle::expression::tree_of;
use oracle::layout::row_count;
use std::hint::black_box;

/// What was measured and how, before the table.
const NOTES: &str = "\
## split

Times are for one call, the best of many batches. The library writes into lists
of 8,192 and 1,024 numbers that are lent again and again and not cleared in
between. The original rewrites trees that were copied beforehand, and its clauses
are freed: that is part of its time. `Bare` is without: the clauses are kept.
Where its clauses are not split to the end (docs/DIFFERENCES.md, classes 6 and
7), it does less than the library: in the NOT chains.
";

/// A predicate: what it is called, and its rows.
type Named = (String, Vec<u64>);

/// A predicate with a name.
fn named(name: impl Into<String>, make: impl FnOnce(&mut Rows)) -> Named {
    (name.into(), rows(make))
}

/// The predicates.
fn predicates() -> Vec<Named> {
    let mut all = vec![
        named("c = 7", |made| conjunction(made, 1)),
        named("c = 7 AND d = 8", |made| conjunction(made, 2)),
        named("c = 7 AND (d = 8 OR NOT e = 9)", filter),
        named("(a AND b) OR NOT (c OR d)", small_product),
    ];
    all.extend([255, 511, 1_023].into_iter().flat_map(chains));
    for nots in [255, 511, 1_023, 2_047] {
        all.push(named(format!("NOT chain, {nots} NOTs"), |made| not_chain(made, nots)));
    }
    let eight = [2, 2, 2, 2, 2, 2, 4, 4];
    all.push(named("OR of two ANDs of 32: 1,024 clauses of 2", |made| product(made, &[32; 2])));
    all.push(named("OR of eight ANDs: 1,024 clauses of 8", |made| product(made, &eight)));
    all
}

/// Chains over so many columns.
fn chains(atoms: u64) -> [Named; 5] {
    let name = |shape: &str| format!("{shape}, {atoms} atoms");
    [
        named(name("AND chain"), |made| {
            made.left_chain(AND, atoms);
        }),
        named(name("OR chain"), |made| {
            made.left_chain(OR, atoms);
        }),
        named(name("NOT of an AND chain"), |made| {
            made.left_chain(AND, atoms);
            made.over(NOT);
        }),
        named(name("(AND chain) OR x"), |made| {
            let chain = made.left_chain(AND, atoms - 1);
            let x = made.column(9);
            made.join(OR, chain, x);
        }),
        named(name("x OR (AND chain)"), |made| {
            let x = made.column(9);
            let chain = made.right_chain(AND, atoms - 1);
            made.join(OR, x, chain);
        }),
    ]
}

/// A column under so many NOTs.
fn not_chain(made: &mut Rows, nots: usize) {
    made.column(0);
    for _ in 0..nots {
        made.over(NOT);
    }
}

/// An AND of comparisons.
fn conjunction(made: &mut Rows, tests: u64) {
    let first = made.equal(0, 7);
    (1..tests).fold(first, |tree, n| {
        let test = made.equal(n, 7 + n);
        made.join(AND, tree, test)
    });
}

/// Twelve rows.
fn filter(made: &mut Rows) {
    let first = made.equal(0, 7);
    let second = made.equal(1, 8);
    made.equal(2, 9);
    let third = made.over(NOT);
    let either = made.join(OR, second, third);
    made.join(AND, first, either);
}

/// Eight rows that come to four clauses.
fn small_product(made: &mut Rows) {
    let (a, b) = (made.column(0), made.column(1));
    let both = made.join(AND, a, b);
    let (c, d) = (made.column(2), made.column(3));
    made.join(OR, c, d);
    let neither = made.over(NOT);
    made.join(OR, both, neither);
}

/// An OR, leaning to the right, of ANDs of so many columns.
fn product(made: &mut Rows, sizes: &[u64]) {
    let parts: Vec<u64> = sizes.iter().map(|size| made.left_chain(AND, *size)).collect();
    let mut parts = parts.into_iter().rev();
    let last = parts.next().expect("there are parts");
    parts.fold(last, |tree, left| made.join(OR, left, tree));
}

/// Prints the table.
pub fn table() {
    println!("{NOTES}");
    print_head(&[
        "predicate",
        "rows",
        "clauses",
        "literals",
        "library",
        "per row",
        "original",
        "ratio",
        "bare original",
        "ratio",
    ]);
    for (name, rows) in predicates() {
        measure(&name, &rows);
    }
    println!();
}

/// Prints the row of one predicate.
fn measure(name: &str, rows: &[u64]) {
    let count = row_count(rows);
    let (mut literals, mut ends) = (vec![0; limit::LITERALS], vec![0; limit::CLAUSES]);
    let listed = fontrisc::split(b"", rows, &mut literals, &mut ends).expect("a good predicate");
    let things = count + listed.literals;
    let tree = tree_of(b"", rows);
    let [ours, theirs, bare] = best([
        &mut || {
            let split = |()| fontrisc::split(b"", black_box(rows), &mut literals, &mut ends);
            nanoseconds(things, || (), split)
        },
        &mut || nanoseconds(things, || tree.clone(), |tree| tree.into_cnf_vec().len()),
        &mut || nanoseconds(things, || tree.clone(), |tree| tree.into_cnf_vec()),
    ]);
    let each = format!("{:.1} ns", ours / count as f64);
    print_row(&[
        name.to_string(),
        count.to_string(),
        listed.clauses.to_string(),
        listed.literals.to_string(),
        shown(ours),
        each,
        shown(theirs),
        ratio(ours, theirs),
        shown(bare),
        ratio(ours, bare),
    ]);
}
