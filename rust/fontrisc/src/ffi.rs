//! The C functions of the library, and for each a safe function that lends it
//! slices and hands out its numbers. All `unsafe` of this crate stands here.
//!
//! What the C functions ask of a caller is the same for all five: each pointer
//! leads to as many elements as the length beside it says, and what is lent to
//! be written overlaps nothing else. Slices, and references to numbers of one's
//! own, are just that. The library keeps no pointer after it returns, and it is
//! proved to write only what docs/FORMAT.md says.
#![allow(unsafe_code)]

unsafe extern "C" {
    fn fontrisc_parse(
        text: *const u8,
        text_len: usize,
        tokens: *const u32,
        tokens_len: usize,
        rows: *mut u64,
        rows_len: usize,
        at: *mut u64,
    ) -> u32;

    fn fontrisc_spelled(
        text: *const u8,
        text_len: usize,
        tokens: *const u32,
        tokens_len: usize,
        n: usize,
        start: *mut u64,
        length: *mut u64,
    );

    fn fontrisc_split(
        text: *const u8,
        text_len: usize,
        rows: *const u64,
        rows_len: usize,
        literals: *mut u32,
        literals_len: usize,
        ends: *mut u32,
        ends_len: usize,
        clauses: *mut u64,
        total: *mut u64,
    ) -> u32;

    fn fontrisc_lookup(
        text: *const u8,
        text_len: usize,
        rows: *const u64,
        rows_len: usize,
        clause: usize,
        column: *mut u64,
        count: *mut u64,
    ) -> u32;

    fn fontrisc_value(
        text: *const u8,
        text_len: usize,
        rows: *const u64,
        rows_len: usize,
        clause: usize,
        n: usize,
        kind: *mut u64,
        x: *mut u64,
        y: *mut u64,
    ) -> u32;
}

/// `fontrisc_parse`: the refusal's number, and the rows written or the place.
pub fn parse(text: &[u8], tokens: &[u32], rows: &mut [u64]) -> (u32, u64) {
    let mut at = 0;
    // SAFETY: each pointer and length is one slice's; `rows` and `at` are lent
    // by `&mut`, so nothing else refers to them.
    let number = unsafe {
        fontrisc_parse(
            text.as_ptr(),
            text.len(),
            tokens.as_ptr(),
            tokens.len(),
            rows.as_mut_ptr(),
            rows.len(),
            &mut at,
        )
    };
    (number, at)
}

/// `fontrisc_spelled`: the start and the length.
pub fn spelled(text: &[u8], tokens: &[u32], n: usize) -> (u64, u64) {
    let (mut start, mut length) = (0, 0);
    // SAFETY: each pointer and length is one slice's; `start` and `length` are
    // two numbers of this function's own.
    unsafe {
        fontrisc_spelled(
            text.as_ptr(),
            text.len(),
            tokens.as_ptr(),
            tokens.len(),
            n,
            &mut start,
            &mut length,
        );
    }
    (start, length)
}

/// `fontrisc_split`: the refusal's number, and clauses and literals, or the
/// place and 0.
pub fn split(text: &[u8], rows: &[u64], literals: &mut [u32], ends: &mut [u32]) -> (u32, u64, u64) {
    let (mut clauses, mut total) = (0, 0);
    // SAFETY: each pointer and length is one slice's; both lists are lent by
    // `&mut`, so they overlap nothing, and the two numbers are this function's.
    let number = unsafe {
        fontrisc_split(
            text.as_ptr(),
            text.len(),
            rows.as_ptr(),
            rows.len(),
            literals.as_mut_ptr(),
            literals.len(),
            ends.as_mut_ptr(),
            ends.len(),
            &mut clauses,
            &mut total,
        )
    };
    (number, clauses, total)
}

/// `fontrisc_lookup`: the refusal's number, and column and count of values, or
/// the place and 0.
pub fn lookup(text: &[u8], rows: &[u64], clause: usize) -> (u32, u64, u64) {
    let (mut column, mut count) = (0, 0);
    // SAFETY: each pointer and length is one slice's; `column` and `count` are
    // two numbers of this function's own.
    let number = unsafe {
        fontrisc_lookup(
            text.as_ptr(),
            text.len(),
            rows.as_ptr(),
            rows.len(),
            clause,
            &mut column,
            &mut count,
        )
    };
    (number, column, count)
}

/// How many numbers a constant is: kind, x and y (FORMAT §9.5).
pub const CONSTANT_WIDTH: usize = 3;

/// A constant in numbers.
pub type Constant = [u64; CONSTANT_WIDTH];

/// `fontrisc_value`: the refusal's number, and the value as a constant, or the
/// place, 0 and 0.
pub fn value(text: &[u8], rows: &[u64], clause: usize, n: usize) -> (u32, Constant) {
    let (mut kind, mut x, mut y) = (0, 0, 0);
    // SAFETY: each pointer and length is one slice's; `kind`, `x` and `y` are
    // three numbers of this function's own.
    let number = unsafe {
        fontrisc_value(
            text.as_ptr(),
            text.len(),
            rows.as_ptr(),
            rows.len(),
            clause,
            n,
            &mut kind,
            &mut x,
            &mut y,
        )
    };
    (number, [kind, x, y])
}
