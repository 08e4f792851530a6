//! Token tables under construction: what is pushed gets a span that suits it.

use crate::parse::Case;
use fontrisc::token::*;
use oracle::cases::Dice;
use oracle::layout::{ROW_WIDTH, token_count};
use oracle::plain::{self, limit};

/// Spellings of numbers that the format takes, then others.
pub const NUMBERS: [&str; 34] = [
    "0",
    "1",
    "7",
    "42",
    "007",
    "9223372036854775807",
    "00000000000000000000000000000009223372036854775807",
    "1.5",
    "2.",
    "1e9",
    "3E-2",
    "1.e5",
    "1e400",
    "0e0",
    "1.25e+17",
    "9223372036854775808.",
    "9223372036854775808",
    "18446744073709551616",
    "18446744073709551617",
    "99999999999999999999999999",
    "00000000000000000000000000000009223372036854775808",
    "",
    ".5",
    ".",
    "-1",
    "+.5",
    "inf",
    "NaN",
    "Infinity",
    "1e",
    "1e+",
    "1e5.",
    "1.5.2",
    "0x1",
];

/// How many of [`NUMBERS`] the format takes.
pub const GOOD: usize = 16;

/// The infix operators: kind, precedence, and the minimum of the right side.
pub const INFIX: [(u32, u32, u32); 16] = [
    (OR, 1, 2),
    (AND, 2, 3),
    (EQUAL, 4, 5),
    (NOT_EQUAL, 4, 5),
    (LESS_OR_GREATER_THAN, 4, 5),
    (LIKE, 4, 5),
    (GREATER_THAN, 5, 6),
    (GREATER_THAN_OR_EQUAL, 5, 6),
    (LESS_THAN, 5, 6),
    (LESS_THAN_OR_EQUAL, 5, 6),
    (PLUS, 6, 7),
    (MINUS, 6, 7),
    (ASTERISK, 7, 8),
    (SLASH, 7, 8),
    (PERCENT, 7, 8),
    (CARET, 8, 8),
];

/// A case under construction: tokens whose spans lie anywhere in a text that
/// was there before.
pub struct Maker<'d> {
    /// Where its chance comes from.
    pub dice: &'d mut Dice,
    /// The text.
    pub text: Vec<u8>,
    /// Where each of [`NUMBERS`] lies in the text.
    numbers: Vec<(u32, u32)>,
    /// The tokens so far.
    pub tokens: Vec<u32>,
}

impl<'d> Maker<'d> {
    /// No tokens yet, over a text that holds the spellings of numbers.
    pub fn new(dice: &'d mut Dice) -> Self {
        let mut text = b"name".to_vec();
        let mut numbers = Vec::new();
        for number in NUMBERS {
            numbers.push((text.len() as u32, number.len() as u32));
            text.extend(number.bytes());
        }
        Maker { dice, text, numbers, tokens: Vec::new() }
    }

    /// No tokens yet, over any text: its numbers are pushed by their spans.
    pub fn over(dice: &'d mut Dice, text: Vec<u8>) -> Self {
        Maker { dice, text, numbers: Vec::new(), tokens: Vec::new() }
    }

    /// The case, with a table of a length that puts the rows to the test.
    pub fn done(self) -> Case {
        let rows = plain::parse(&self.text, &self.tokens, limit::ROWS, limit::LEVELS);
        let needed = rows.map_or(self.count() / 2, |rows| rows.len());
        let slots = slots(self.dice, needed);
        Case { text: self.text, tokens: self.tokens, slots }
    }

    /// How many tokens there are.
    pub fn count(&self) -> usize {
        token_count(&self.tokens)
    }

    /// Adds a token of a kind, with a span that suits it.
    pub fn push(&mut self, kind: u32) {
        let (start, length) = match kind {
            NUMBER => {
                let most = if self.dice.below(40) == 0 { NUMBERS.len() } else { GOOD };
                self.numbers[self.dice.below(most)]
            }
            _ => self.any_span(),
        };
        self.tokens.extend([kind, start, length]);
    }

    /// A short span that fits, anywhere.
    fn any_span(&mut self) -> (u32, u32) {
        let start = self.dice.below(self.text.len() + 1);
        let most = (self.text.len() - start).min(6);
        (start as u32, self.dice.below(most + 1) as u32)
    }

    /// Adds several tokens.
    pub fn all(&mut self, kinds: &[u32]) {
        kinds.iter().for_each(|kind| self.push(*kind));
    }

    /// An atom without parts that are read.
    pub fn leaf(&mut self) {
        match self.dice.below(10) {
            0..3 => self.push(NUMBER),
            3..6 => self.push(IDENT),
            6 => self.all(&[IDENT, PERIOD, IDENT]),
            7 => self.push(STRING),
            8 => self.all(&[IDENT, OPEN_PAREN, CLOSE_PAREN]),
            _ => {
                let kind = self.dice.pick(&[ASTERISK, NULL, NAN, TRUE, FALSE, INFINITY]);
                self.push(kind);
            }
        }
    }

    /// An expression of about so many tokens, nested about so deep.
    pub fn grow(&mut self, budget: usize, depth: usize) {
        if budget < 2 || depth == 0 {
            return self.leaf();
        }
        match self.dice.below(12) {
            0..6 => self.chain(budget, depth),
            6 => {
                self.push(OPEN_PAREN);
                self.grow(budget - 2, depth - 1);
                self.push(CLOSE_PAREN);
            }
            7 => {
                let prefix = self.dice.pick(&[NOT, PLUS, MINUS, MINUS, MINUS]);
                self.push(prefix);
                self.grow(budget - 1, depth - 1);
            }
            8 => {
                self.grow(budget - 1, depth - 1);
                self.push(EXCLAMATION);
            }
            9 => {
                self.grow(budget - 2, depth - 1);
                let test = self.dice.pick(&[NULL, NAN]);
                let not: &[u32] = self.dice.pick(&[&[IS], &[IS, NOT]]);
                self.all(not);
                self.push(test);
            }
            _ => self.call(budget, depth),
        }
    }

    /// Expressions with infix operators between them.
    pub fn chain(&mut self, budget: usize, depth: usize) {
        let parts = 2 + self.dice.below((budget / 2).min(60));
        let same = self.dice.pick(&INFIX).0;
        let mixed = self.dice.below(3) > 0;
        for part in 0..parts {
            if part > 0 {
                let kind = if mixed { self.dice.pick(&INFIX).0 } else { same };
                self.push(kind);
            }
            self.part(budget / parts, depth - 1);
        }
    }

    /// An operand: as it is, or in parentheses.
    fn part(&mut self, budget: usize, depth: usize) {
        let closed = budget > 2 && self.dice.below(2) == 0;
        if closed {
            self.push(OPEN_PAREN);
        }
        self.grow(budget, depth);
        if closed {
            self.push(CLOSE_PAREN);
        }
    }

    /// A function with arguments.
    fn call(&mut self, budget: usize, depth: usize) {
        let parts = self.dice.below((budget / 2).clamp(1, 40));
        self.all(&[IDENT, OPEN_PAREN]);
        for part in 0..parts {
            if part > 0 {
                self.push(COMMA);
            }
            self.grow(budget / parts, depth - 1);
        }
        self.push(CLOSE_PAREN);
    }

    /// Steps down by one level, at a minimum; adds what must close the step and
    /// answers the minimum below.
    pub fn step(&mut self, minimum: u32, closing: &mut Vec<u32>) -> u32 {
        let infix: Vec<_> = INFIX.iter().filter(|(_, p, _)| *p >= minimum).copied().collect();
        match self.dice.below(6) {
            0 => {
                self.push(OPEN_PAREN);
                closing.push(CLOSE_PAREN);
                0
            }
            1 => {
                self.all(&[IDENT, OPEN_PAREN]);
                for _ in 0..self.dice.below(3) {
                    self.leaf();
                    self.push(COMMA);
                }
                closing.push(CLOSE_PAREN);
                0
            }
            2 if minimum <= 3 => {
                self.push(NOT);
                3
            }
            3 | 4 if !infix.is_empty() => {
                let (kind, _, side) = self.dice.pick(&infix);
                self.leaf();
                self.push(kind);
                side
            }
            _ => {
                let sign = self.dice.pick(&[PLUS, MINUS]);
                self.push(sign);
                10
            }
        }
    }
}

/// A length for the table when a reading needs so many rows: exactly enough, a
/// little more or less, next to nothing, or plenty.
fn slots(dice: &mut Dice, needed: usize) -> usize {
    let exact = ROW_WIDTH * needed;
    match dice.below(16) {
        0..3 => exact,
        3 => exact + 1,
        4 => exact + 2,
        5 => exact.saturating_sub(1),
        6 => exact.saturating_sub(2),
        7 => exact.saturating_sub(ROW_WIDTH),
        8 => dice.below(ROW_WIDTH),
        9 => dice.below(exact + 1),
        10 => ROW_WIDTH * dice.below(needed + 1) + ROW_WIDTH - 1,
        11 if dice.below(20) == 0 => ROW_WIDTH * limit::ROWS + dice.below(8) - 4,
        _ => exact + dice.below(40),
    }
}
