//! The clause list of a predicate.

use super::predicate::{check, kind};
use super::refusal::{NO_LIST, TOO_MANY};
use super::{Refusal, limit};
use crate::layout::Row;

/// How many clauses a list has and how many literals in all, or too many.
type Size = Option<(u64, u64)>;

/// The clause list of a predicate, or the refusal: 1, 10 or 11. A clause is
/// its literals in order, each twice its row, plus one if it is negated.
pub fn split(text: &[u8], rows: &[u64]) -> Result<Vec<Vec<u64>>, Refusal> {
    let rows = check(text, rows)?;
    let root = rows.len() - 1;
    let work = || match size(&rows, root, false) {
        None => Err((TOO_MANY, 0)),
        Some(_) => Ok(list(&rows, root, false)),
    };
    // A predicate may nest as deep as it has rows.
    crate::on_large_stack_if(rows.len() > 256, work)
}

/// The literals and the ends that a split writes into lists of the given
/// lengths, or the refusal: 1, 10, 11 or 12.
pub fn split_into(
    text: &[u8],
    rows: &[u64],
    literals_length: usize,
    ends_length: usize,
) -> Result<(Vec<u64>, Vec<u64>), Refusal> {
    let clauses = split(text, rows)?;
    let literals: Vec<u64> = clauses.concat();
    if literals.len() > literals_length || clauses.len() > ends_length {
        return Err((NO_LIST, 0));
    }
    let mut end = 0;
    let ends = clauses.iter().map(|clause| {
        end += clause.len() as u64;
        end
    });
    let ends = ends.collect();
    Ok((literals, ends))
}

/// The size of the list of a row, read plainly or negated.
fn size(rows: &[Row], r: usize, negated: bool) -> Size {
    let kind = rows[r].kind;
    let (x, y) = (rows[r].x as usize, rows[r].y as usize);
    match kind {
        kind::NOT => size(rows, x, !negated),
        kind::AND | kind::OR => {
            let (left, right) = (size(rows, x, negated)?, size(rows, y, negated)?);
            within(if (kind == kind::AND) != negated {
                (left.0 + right.0, left.1 + right.1)
            } else {
                (left.0 * right.0, left.1 * right.0 + right.1 * left.0)
            })
        }
        _ => Some((1, 1)),
    }
}

/// A size that is within the limits. No list is empty, so a list is too large
/// as soon as a part of it is.
fn within(size: (u64, u64)) -> Size {
    (size.0 <= limit::CLAUSES && size.1 <= limit::LITERALS).then_some(size)
}

/// The list of a row, read plainly or negated.
fn list(rows: &[Row], r: usize, negated: bool) -> Vec<Vec<u64>> {
    let kind = rows[r].kind;
    let (x, y) = (rows[r].x as usize, rows[r].y as usize);
    match kind {
        kind::NOT => list(rows, x, !negated),
        kind::AND | kind::OR => {
            let (left, right) = (list(rows, x, negated), list(rows, y, negated));
            if (kind == kind::AND) != negated { both(left, right) } else { either(&left, &right) }
        }
        _ => vec![vec![2 * r as u64 + u64::from(negated)]],
    }
}

/// The left list, then the right.
fn both(mut left: Vec<Vec<u64>>, right: Vec<Vec<u64>>) -> Vec<Vec<u64>> {
    left.extend(right);
    left
}

/// Every pair of a left and a right clause made into one, the right running
/// faster.
fn either(left: &[Vec<u64>], right: &[Vec<u64>]) -> Vec<Vec<u64>> {
    let joined = |l: &Vec<u64>, r: &Vec<u64>| l.iter().chain(r).copied().collect();
    left.iter().flat_map(|l| right.iter().map(move |r| joined(l, r))).collect()
}
