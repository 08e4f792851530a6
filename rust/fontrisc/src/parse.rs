//! Reading tokens: `parse` and `spelled`.

use crate::{Refused, ffi, refused};

/// Reads a token table as one expression and writes its syntax rows (FORMAT §4,
/// §5). Answers how many rows it wrote.
///
/// A token is its kind, and the start and length of its span in the text
/// (FORMAT §2.2). Rows are the numbers of [`Row`](crate::Row), in post-order
/// (FORMAT §5.3). After an answer the rest of the table is as it
/// was; after a refusal every number of the table is 0. A table with a row for
/// each token, or of 2,048 rows if there are more tokens, is room enough.
///
/// Stack: [`stack::PARSE`](crate::stack::PARSE).
///
/// ```
/// use fontrisc::token::{EXCLAMATION, MINUS, NUMBER, PLUS};
/// use fontrisc::{Refusal, Refused, parse, syntax};
///
/// let mut rows = [7; 12];
/// assert_eq!(parse(b"-1!", &[MINUS, 0, 1, NUMBER, 1, 1, EXCLAMATION, 2, 1], &mut rows), Ok(3));
/// assert_eq!(rows[..6], [syntax::INTEGER, 1, 0, syntax::NEGATE, 0, 0]);
/// assert_eq!(rows[6..], [syntax::FACTORIAL, 1, 0, 7, 7, 7]);
///
/// let refused = parse(b"1 +", &[NUMBER, 0, 1, PLUS, 2, 1], &mut rows);
/// assert_eq!(refused, Err(Refused { why: Refusal::End, place: 2 }));
/// assert_eq!(rows, [0; 12]);
/// ```
pub fn parse(text: &[u8], tokens: &[u32], rows: &mut [u64]) -> Result<usize, Refused> {
    match ffi::parse(text, tokens, rows) {
        (0, written) => Ok(written as usize),
        (number, place) => Err(refused(number, place)),
    }
}

/// The bytes of token `n`, as a part of the text (FORMAT §2.6). If there is no
/// token `n`, or its span leaves the text, it is empty and begins at byte 0.
///
/// Stack: next to nothing.
///
/// ```
/// use fontrisc::token::{EQUAL, IDENT, NUMBER};
///
/// let tokens = [IDENT, 0, 4, EQUAL, 5, 1, NUMBER, 7, 2];
/// assert_eq!(fontrisc::spelled(b"size = 64", &tokens, 2), b"64");
/// assert_eq!(fontrisc::spelled(b"size = 64", &tokens, 3), b"");
/// ```
pub fn spelled<'t>(text: &'t [u8], tokens: &[u32], n: usize) -> &'t [u8] {
    let (start, length) = ffi::spelled(text, tokens, n);
    &text[start as usize..][..length as usize]
}
