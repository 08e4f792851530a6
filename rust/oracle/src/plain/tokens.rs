//! The token table, a token's bytes, and the number rule.

use super::refusal::{BAD_TABLE, TOO_LONG};
use super::{Refusal, limit};
use crate::layout::{TOKEN_WIDTH, token_count};

/// The kinds of tokens by name: those with content, all signs, and the keywords
/// that expressions use.
#[allow(missing_docs)]
pub mod kind {
    pub const NUMBER: u32 = 1;
    pub const STRING: u32 = 2;
    pub const IDENT: u32 = 3;
    pub const OR: u32 = 4;
    pub const AND: u32 = 5;
    pub const EQUAL: u32 = 6;
    pub const NOT_EQUAL: u32 = 7;
    pub const LESS_OR_GREATER_THAN: u32 = 8;
    pub const LIKE: u32 = 9;
    pub const GREATER_THAN: u32 = 10;
    pub const GREATER_THAN_OR_EQUAL: u32 = 11;
    pub const LESS_THAN: u32 = 12;
    pub const LESS_THAN_OR_EQUAL: u32 = 13;
    pub const PLUS: u32 = 14;
    pub const MINUS: u32 = 15;
    pub const ASTERISK: u32 = 16;
    pub const SLASH: u32 = 17;
    pub const PERCENT: u32 = 18;
    pub const CARET: u32 = 19;
    pub const EXCLAMATION: u32 = 20;
    pub const IS: u32 = 21;
    pub const NOT: u32 = 22;
    pub const NULL: u32 = 23;
    pub const NAN: u32 = 24;
    pub const TRUE: u32 = 25;
    pub const FALSE: u32 = 26;
    pub const INFINITY: u32 = 27;
    pub const OPEN_PAREN: u32 = 28;
    pub const CLOSE_PAREN: u32 = 29;
    pub const COMMA: u32 = 30;
    pub const PERIOD: u32 = 31;
    pub const SEMICOLON: u32 = 32;
    /// The last of the keywords that no expression uses.
    pub const LAST: u32 = 88;
}

/// The refusal of a text and a token table before any reading: TOO_LONG, then
/// BAD_TABLE; none if both are good.
pub fn table_fault(text: &[u8], tokens: &[u32]) -> Option<Refusal> {
    let whole = token_count(tokens);
    if text.len() > limit::TEXT || whole > limit::TOKENS {
        return Some((TOO_LONG, 0));
    }
    if !tokens.len().is_multiple_of(TOKEN_WIDTH) {
        return Some((BAD_TABLE, whole as u64));
    }
    let bad = |n: &usize| {
        let known = (1..=kind::LAST).contains(&tokens[TOKEN_WIDTH * n]);
        !known || span(text, tokens, *n).is_none()
    };
    (0..whole).find(bad).map(|n| (BAD_TABLE, n as u64))
}

/// The start and length of a token whose span fits into the text.
fn span(text: &[u8], tokens: &[u32], n: usize) -> Option<(u64, u64)> {
    let [_, start, length] = *tokens.as_chunks::<TOKEN_WIDTH>().0.get(n)?;
    let (start, length) = (u64::from(start), u64::from(length));
    (start + length <= text.len() as u64).then_some((start, length))
}

/// Where a token's bytes stand in the text: start and length. Both are 0 if the
/// table has no such token or its span leaves the text.
pub fn spelled(text: &[u8], tokens: &[u32], n: usize) -> (u64, u64) {
    span(text, tokens, n).unwrap_or((0, 0))
}

/// What a number token's bytes are.
#[derive(Clone, Copy, Debug, PartialEq, Eq)]
pub enum Number {
    /// All digits, and the value is within the limit.
    Integer(u64),
    /// Another spelling that the number rule admits.
    Float,
    /// No number.
    Neither,
}

/// Applies the number rule to a token's bytes.
pub fn number(bytes: &[u8]) -> Number {
    if bytes.is_empty() {
        Number::Neither
    } else if bytes.iter().all(u8::is_ascii_digit) {
        integer(bytes).map_or(Number::Neither, Number::Integer)
    } else if float(bytes) {
        Number::Float
    } else {
        Number::Neither
    }
}

/// The value of a run of digits, if it is at most the largest integer.
fn integer(digits: &[u8]) -> Option<u64> {
    const MAXIMUM: u128 = 9_223_372_036_854_775_807;
    let mut value: u128 = 0;
    for digit in digits {
        value = 10 * value + u128::from(digit - b'0');
        if value > MAXIMUM {
            return None;
        }
    }
    Some(value as u64)
}

/// Whether the bytes are digits, perhaps a point and digits, perhaps an
/// exponent, and nothing else.
fn float(bytes: &[u8]) -> bool {
    let (whole, mut rest) = digits(bytes);
    if whole == 0 {
        return false;
    }
    if let [b'.', after @ ..] = rest {
        rest = digits(after).1;
    }
    if let [b'e' | b'E', after @ ..] = rest {
        let unsigned = if let [b'+' | b'-', more @ ..] = after { more } else { after };
        let (count, after) = digits(unsigned);
        if count == 0 {
            return false;
        }
        rest = after;
    }
    rest.is_empty()
}

/// How many digits stand first, and what follows them.
fn digits(bytes: &[u8]) -> (usize, &[u8]) {
    let count = bytes.iter().take_while(|b| b.is_ascii_digit()).count();
    (count, &bytes[count..])
}
