//! The times of `lookup` and `value_at` beside those of the original's
//! `is_column_lookup` and `into_column_values`.

use crate::clock::{best, nanoseconds, print_head, print_row, ratio, shown};
use crate::shapes::{AND, OR, Rows, rows};
use oracle::expression::tree_of;
use oracle::layout::row_count;
use oracle::sql::types::Expression;
use std::hint::black_box;

/// What was measured and how, before the table.
const NOTES: &str = "\
## lookup and value_at

Times are for one call, or for a call of `lookup` and one of `value_at` for each
value. The library starts from the predicate's rows each time. The original's
two functions start from a clause, so its time is given twice: with its
`into_cnf_vec` before them, from a tree that was copied beforehand, and with its
clauses freed; and alone, on a clause that is there already. Its values come all
at once.
";

/// An AND of as many clauses as asked for, each an OR of equalities on column 0.
fn predicate(made: &mut Rows, clauses: usize, values: u64) {
    let clause = |made: &mut Rows| {
        let first = made.equal(0, 0);
        (1..values).fold(first, |tree, n| {
            let test = made.equal(0, n);
            made.join(OR, tree, test)
        })
    };
    let first = clause(made);
    (1..clauses).fold(first, |tree, _| {
        let next = clause(made);
        made.join(AND, tree, next)
    });
}

/// Prints the table.
pub fn table() {
    println!("{NOTES}");
    print_head(&[
        "what",
        "clause",
        "values",
        "rows",
        "library",
        "original with splitting",
        "ratio",
        "original alone",
        "ratio",
    ]);
    for (clauses, values) in [(1, 1), (1, 4), (1, 40), (12, 1), (12, 4), (12, 40)] {
        let rows = rows(|made| predicate(made, clauses, values));
        let asked: &[usize] = if clauses == 1 { &[0] } else { &[0, clauses - 1] };
        for clause in asked {
            measure(&rows, *clause, clauses);
        }
    }
    println!();
}

/// Prints the rows of one clause of a predicate.
fn measure(rows: &[u64], clause: usize, clauses: usize) {
    let looked = fontrisc::lookup(b"", rows, clause).expect("the clause is a lookup");
    let column = usize::from(looked.column);
    let count = row_count(rows);
    let tree = tree_of(b"", rows);
    let alone = tree.clone().into_cnf_vec().swap_remove(clause);
    let say = |what: &str, times: [f64; 3]| {
        let [ours, split, alone] = times;
        print_row(&[
            what.to_string(),
            format!("{clause} of {clauses}"),
            looked.values.to_string(),
            count.to_string(),
            shown(ours),
            shown(split),
            ratio(ours, split),
            shown(alone),
            ratio(ours, alone),
        ]);
    };
    say("lookup", lookup_times(rows, clause, &tree, &alone));
    say("every value", value_times(rows, clause, &tree, &alone, column));
}

/// The times of one `lookup`: the library's, the original's with splitting and
/// alone.
fn lookup_times(rows: &[u64], clause: usize, tree: &Expression, alone: &Expression) -> [f64; 3] {
    let count = row_count(rows);
    let split = |tree: Expression| tree.into_cnf_vec()[black_box(clause)].is_column_lookup();
    best([
        &mut || {
            let lookup = |()| fontrisc::lookup(b"", black_box(rows), black_box(clause));
            nanoseconds(count, || (), lookup)
        },
        &mut || nanoseconds(count, || tree.clone(), split),
        &mut || nanoseconds(count, || (), |()| black_box(alone).is_column_lookup()),
    ])
}

/// The times of the lookup and all its values, likewise.
fn value_times(
    rows: &[u64],
    clause: usize,
    tree: &Expression,
    alone: &Expression,
    column: usize,
) -> [f64; 3] {
    let count = row_count(rows);
    let split = |tree: Expression| {
        let clause = tree.into_cnf_vec().swap_remove(black_box(clause));
        values(clause, column).is_some()
    };
    best([
        &mut || nanoseconds(count, || (), |()| every_value(black_box(rows), black_box(clause))),
        &mut || nanoseconds(count, || tree.clone(), split),
        &mut || nanoseconds(count, || alone.clone(), |alone| values(alone, column).is_some()),
    ])
}

/// The original's column and values of a clause.
fn values(clause: Expression, column: usize) -> Option<Vec<oracle::sql::types::Value>> {
    (clause.is_column_lookup() == Some(column)).then(|| clause.into_column_values(column))
}

/// Asks the library for the lookup and then for each value.
fn every_value(rows: &[u64], clause: usize) -> usize {
    let looked = fontrisc::lookup(b"", rows, clause).map_or(0, |looked| looked.values);
    (0..looked).filter(|n| fontrisc::value_at(b"", rows, clause, *n).is_ok()).count()
}
