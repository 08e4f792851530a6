//! Going through rows, clauses and values one by one, and the same in memory of
//! their own.

use crate::{ROW_WIDTH, Refused, Row, TOKEN_WIDTH, limit, parse, rows};

/// Reads a token table as one expression, as [`parse()`] does, into a table of
/// the size that is needed.
///
/// Stack: [`stack::PARSE`](crate::stack::PARSE).
///
/// ```
/// use fontrisc::{read, syntax, token};
///
/// let table = read(b"-1", &[token::MINUS, 0, 1, token::NUMBER, 1, 1]).unwrap();
/// let kinds: Vec<u64> = table.iter().map(|row| row.kind).collect();
/// assert_eq!(kinds, [syntax::INTEGER, syntax::NEGATE]);
/// ```
pub fn read(text: &[u8], tokens: &[u32]) -> Result<Vec<Row>, Refused> {
    // No list makes more rows than it has tokens.
    let most = (tokens.len() / TOKEN_WIDTH).min(limit::ROWS);
    let mut table = vec![0; ROW_WIDTH * most];
    let written = parse(text, tokens, &mut table)?;
    Ok(rows(&table).take(written).collect())
}

/// A literal of a clause: an atom, or one negated atom (FORMAT §8.3).
#[derive(Clone, Copy, Debug, PartialEq, Eq, Hash)]
pub struct Literal {
    /// The atom's row.
    pub row: usize,
    /// Whether it is negated.
    pub negated: bool,
}

impl From<u32> for Literal {
    fn from(number: u32) -> Literal {
        Literal { row: (number / 2) as usize, negated: number % 2 == 1 }
    }
}

/// The clauses that the first numbers of `split`'s two lists spell, so many of
/// them. From lists of another origin it may give clauses that are cut short. A
/// clause borrows the literals alone.
///
/// ```
/// use fontrisc::predicate::{COLUMN, NOT, OR};
/// use fontrisc::{Literal, clauses, split};
///
/// // a OR NOT b, where a and b are columns 0 and 1
/// let rows = [COLUMN, 0, 0, COLUMN, 1, 0, NOT, 1, 0, OR, 0, 2];
/// let (mut literals, mut ends) = ([0; 8], [0; 4]);
/// let listed = split(b"", &rows, &mut literals, &mut ends).unwrap();
/// let mut list = clauses(&literals, &ends[..listed.clauses]);
/// let clause: Vec<Literal> = list.next().unwrap().collect();
/// assert_eq!(clause[1], Literal { row: 1, negated: true });
/// assert!(list.next().is_none());
/// ```
pub fn clauses<'l, 'e>(
    literals: &'l [u32],
    ends: &'e [u32],
) -> impl ExactSizeIterator<Item = impl ExactSizeIterator<Item = Literal> + use<'l>> + use<'l, 'e> {
    let mut start = 0;
    ends.iter().map(move |end| {
        let clause = literals.get(start..*end as usize).unwrap_or_default();
        start = *end as usize;
        clause.iter().map(|number| Literal::from(*number))
    })
}

/// The clauses of a predicate, as [`split`](crate::split()) lists them.
///
/// Stack: [`stack::SPLIT`](crate::stack::SPLIT).
///
/// ```
/// use fontrisc::predicate::{AND, COLUMN};
///
/// // a AND b, where a and b are columns 0 and 1
/// let rows = [COLUMN, 0, 0, COLUMN, 1, 0, AND, 0, 1];
/// let list = fontrisc::clauses_of(b"", &rows).unwrap();
/// assert_eq!(list.iter().map(|clause| clause[0].row).collect::<Vec<_>>(), [0, 1]);
/// ```
pub fn clauses_of(text: &[u8], rows: &[u64]) -> Result<Vec<Vec<Literal>>, Refused> {
    let (mut literals, mut ends) = (vec![0; limit::LITERALS], vec![0; limit::CLAUSES]);
    let listed = crate::split(text, rows, &mut literals, &mut ends)?;
    Ok(clauses(&literals, &ends[..listed.clauses]).map(Iterator::collect).collect())
}

/// The values of a clause that is a lookup, each asked for by
/// [`value_at`](crate::value_at) when its turn comes. They are parts of the text
/// alone, and may be kept when the rows are gone.
///
/// Each value is a pass over the rows. So all values of a clause take a time that
/// grows as the square of its length.
///
/// Stack: [`stack::LOOKUP`](crate::stack::LOOKUP).
///
/// ```
/// use fontrisc::predicate::{COLUMN, EQUAL, STRING};
/// use fontrisc::{Value, values};
///
/// let text = b"free";
/// let found: Vec<Value> = {
///     // column 4 = 'free'
///     let rows = [COLUMN, 4, 0, STRING, 0, 4, EQUAL, 0, 1];
///     values(text, &rows, 0).unwrap().collect()
/// };
/// assert_eq!(found, [Value::String(b"free")]);
/// ```
pub fn values<'t, 'r>(
    text: &'t [u8],
    rows: &'r [u64],
    clause: usize,
) -> Result<impl ExactSizeIterator<Item = crate::Value<'t>> + use<'t, 'r>, Refused> {
    let found = crate::lookup(text, rows, clause)?;
    let value = move |n| crate::value_at(text, rows, clause, n);
    Ok((0..found.values).map(move |n| value(n).expect("there are so many")))
}
