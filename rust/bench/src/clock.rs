//! Taking times: many calls at once, the best of many such batches.

use std::hint::black_box;
use std::time::{Duration, Instant};

/// How often the figures of a row are taken in turn. Many short turns, so that a
/// busy second of the machine falls on every figure and not on one.
const ROUNDS: usize = 24;

/// How many batches are timed at most, each time.
const BATCHES: usize = 200;

/// What these batches may take together.
const PATIENCE: Duration = Duration::from_millis(12);

/// How many calls make a batch, if one call has to do with so many things
/// (tokens, rows): enough for the clock, few enough to keep their results.
fn calls(things: usize) -> usize {
    (4_000 / things.max(1)).clamp(1, 500)
}

/// The time of one call in nanoseconds. Before each batch `prepare` makes what
/// each of its calls consumes; what they answer is freed after the batch. Both
/// are outside the time.
pub fn nanoseconds<A, B>(
    things: usize,
    mut prepare: impl FnMut() -> A,
    mut call: impl FnMut(A) -> B,
) -> f64 {
    let calls = calls(things);
    let mut best = f64::INFINITY;
    let begun = Instant::now();
    for batch in 0..BATCHES {
        if batch > 3 && begun.elapsed() > PATIENCE {
            break;
        }
        let prepared: Vec<A> = (0..calls).map(|_| prepare()).collect();
        let mut kept = Vec::with_capacity(calls);
        let start = Instant::now();
        for one in prepared {
            kept.push(black_box(call(black_box(one))));
        }
        let each = start.elapsed().as_nanos() as f64 / calls as f64;
        best = best.min(each);
    }
    best
}

/// The best of several times for each of the figures of a row. They are taken in
/// turn, so that a busy moment of the machine falls on all of them.
pub fn best<const N: usize>(mut figures: [&mut dyn FnMut() -> f64; N]) -> [f64; N] {
    let mut best = [f64::INFINITY; N];
    for _ in 0..ROUNDS {
        for (best, figure) in best.iter_mut().zip(&mut figures) {
            *best = best.min(figure());
        }
    }
    best
}

/// A time with a unit that suits it.
pub fn shown(nanoseconds: f64) -> String {
    if nanoseconds < 1_000.0 {
        format!("{nanoseconds:.0} ns")
    } else if nanoseconds < 100_000.0 {
        format!("{:.1} µs", nanoseconds / 1_000.0)
    } else {
        format!("{:.0} µs", nanoseconds / 1_000.0)
    }
}

/// A ratio: how many times as long the original takes.
pub fn ratio(ours: f64, theirs: f64) -> String {
    let ratio = theirs / ours;
    if ratio < 1.0 { format!("{ratio:.2}") } else { format!("{ratio:.1}") }
}

/// Prints a row of a table.
pub fn print_row<S: AsRef<str>>(cells: &[S]) {
    let cells: Vec<&str> = cells.iter().map(AsRef::as_ref).collect();
    println!("| {} |", cells.join(" | "));
}

/// Prints the head of a table: the names of its columns, the first to the left.
pub fn print_head(names: &[&str]) {
    print_row(names);
    let lines: Vec<&str> = (0..names.len()).map(|n| if n == 0 { "---" } else { "---:" }).collect();
    println!("|{}|", lines.join("|"));
}
