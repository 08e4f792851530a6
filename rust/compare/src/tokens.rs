//! Token tables by chance: expressions made by the grammar, spoiled ones, long
//! and deep ones, numbers of every spelling, tables that no reading begins on.

use crate::maker::*;
use crate::parse::Case;
use fontrisc::token::*;
use oracle::cases::Dice;
use oracle::layout::{TOKEN_WIDTH, token_count};
use oracle::plain::limit;

/// Makes a case by chance.
pub fn random_case(dice: &mut Dice) -> Case {
    match dice.below(200) {
        0..80 => grown(dice, 40, 8),
        80..120 => {
            let case = grown(dice, 40, 8);
            damaged(dice, case)
        }
        120..145 => random_tokens(dice),
        145..165 => spellings(dice),
        165..183 => near_deepest_level(dice),
        183..196 => bad_table(dice),
        196..199 => long(dice),
        _ => at_the_limits(dice),
    }
}

/// An expression by the grammar.
fn grown(dice: &mut Dice, budget: usize, depth: usize) -> Case {
    let budget = 1 + dice.below(budget);
    let depth = 1 + dice.below(depth);
    let mut maker = Maker::new(dice);
    maker.grow(budget, depth);
    maker.done()
}

/// A case with a few tokens dropped, doubled, replaced, swapped or cut off.
fn damaged(dice: &mut Dice, mut case: Case) -> Case {
    for _ in 0..1 + dice.below(3) {
        let count = token_count(&case.tokens);
        if count == 0 {
            break;
        }
        let at = TOKEN_WIDTH * dice.below(count);
        match dice.below(6) {
            0 => drop(case.tokens.drain(at..at + TOKEN_WIDTH)),
            1 => {
                let token = case.tokens[at..at + TOKEN_WIDTH].to_vec();
                case.tokens.splice(at..at, token);
            }
            2 => case.tokens[at] = 1 + dice.below(SEMICOLON as usize) as u32,
            3 => case.tokens[at] = 1 + dice.below(WRITE as usize) as u32,
            4 => {
                let other = TOKEN_WIDTH * dice.below(count);
                (0..TOKEN_WIDTH).for_each(|n| case.tokens.swap(at + n, other + n));
            }
            _ => case.tokens.truncate(at),
        }
    }
    case
}

/// Tokens in no order.
fn random_tokens(dice: &mut Dice) -> Case {
    let count = dice.below(24);
    let mut maker = Maker::new(dice);
    for _ in 0..count {
        let last = if maker.dice.below(10) == 0 { WRITE } else { PERIOD };
        let kind = 1 + maker.dice.below(last as usize) as u32;
        maker.push(kind);
    }
    maker.done()
}

/// A short expression whose numbers are any bytes out of a few.
fn spellings(dice: &mut Dice) -> Case {
    let bytes: &[u8] = dice.pick(&[b"0019.eE+-", b"019.eE+-xiInNfFaA\xff\xc3\xa9", b"0099"]);
    let length = dice.below(40);
    let text: Vec<u8> = (0..length).map(|_| dice.pick(bytes)).collect();
    let mut maker = Maker::over(dice, text);
    for part in 0..1 + maker.dice.below(3) {
        if part > 0 {
            maker.push(PLUS);
        }
        let start = maker.dice.below(length + 1);
        let span = maker.dice.below((length - start).min(24) + 1);
        maker.tokens.extend([NUMBER, start as u32, span as u32]);
    }
    maker.done()
}

/// Readings inside one another, close to the deepest level allowed: by
/// prefixes, right sides, arguments and parentheses in any mixture, or by one
/// of them alone.
fn near_deepest_level(dice: &mut Dice) -> Case {
    let levels = limit::LEVELS - 6 + dice.below(10);
    let alone = dice.below(8);
    let mut maker = Maker::new(dice);
    let mut closing = Vec::new();
    let mut minimum = 0;
    for _ in 0..levels {
        match alone {
            0 => maker.push(MINUS),
            1 => maker.push(NOT),
            2 => maker.all(&[NUMBER, CARET]),
            3 => {
                maker.push(OPEN_PAREN);
                closing.push(CLOSE_PAREN);
            }
            4 => {
                maker.all(&[IDENT, OPEN_PAREN]);
                closing.push(CLOSE_PAREN);
            }
            _ => minimum = maker.step(minimum, &mut closing),
        }
    }
    if maker.dice.below(8) > 0 {
        maker.leaf();
    }
    if maker.dice.below(10) == 0 {
        closing.pop();
    }
    closing.into_iter().for_each(|kind| maker.push(kind));
    let case = maker.done();
    if dice.below(4) == 0 { damaged(dice, case) } else { case }
}

/// A table that is refused before reading, or just not.
pub fn bad_table(dice: &mut Dice) -> Case {
    let mut case = grown(dice, 12, 4);
    let length = case.text.len() as u32;
    let at = TOKEN_WIDTH * dice.below(token_count(&case.tokens));
    let token = &mut case.tokens[at..at + TOKEN_WIDTH];
    match dice.below(10) {
        0 => token[0] = dice.pick(&[0, WRITE, WRITE + 1, WRITE + 2, 1 << 8, 1 << 31, u32::MAX]),
        1 => (token[1], token[2]) = dice.pick(&[(length, 0), (length + 1, 0), (length, 1)]),
        2 => (token[1], token[2]) = dice.pick(&[(0, length), (0, length + 1), (1, length)]),
        3 => token[1] = u32::MAX - dice.below(3) as u32,
        4 => token[2] = u32::MAX - dice.below(3) as u32,
        5 => {
            // The sum, cut to 32 bits, would be small.
            let start = u32::MAX - dice.below(4) as u32;
            let wrapped = dice.below(length as usize + 1) as u32;
            (token[1], token[2]) = (start, wrapped.wrapping_sub(start));
        }
        6 => case.tokens.push(dice.below(WRITE as usize + 2) as u32),
        7 => drop(case.tokens.pop()),
        8 => case.tokens.truncate(at + 1 + dice.below(2)),
        _ => case.text.resize(limit::TEXT + dice.below(3) - 1, b'0'),
    }
    case
}

/// A long expression.
fn long(dice: &mut Dice) -> Case {
    let budget = 200 + dice.below(limit::TOKENS);
    let depth = 3 + dice.below(4);
    let mut maker = Maker::new(dice);
    maker.chain(budget, depth);
    maker.tokens.truncate(TOKEN_WIDTH * limit::TOKENS);
    if maker.dice.below(4) == 0 {
        let length = maker.dice.below(limit::TEXT);
        let digits = maker.dice.pick(b"09x");
        maker.text.resize(length.max(maker.text.len()), digits);
    }
    let case = maker.done();
    if dice.below(3) == 0 { damaged(dice, case) } else { case }
}

/// Cases next to a limit: as many tokens, rows or bytes as allowed, one fewer,
/// one more.
fn at_the_limits(dice: &mut Dice) -> Case {
    let mut maker = Maker::new(dice);
    match maker.dice.below(4) {
        0 => arguments(&mut maker),
        1 => names(&mut maker),
        2 => {
            let postfixes = limit::ROWS - 3 + maker.dice.below(5);
            maker.push(NUMBER);
            (0..postfixes).for_each(|_| maker.push(EXCLAMATION));
        }
        _ => {
            let kind = maker.dice.pick(&[OPEN_PAREN, MINUS, NUMBER, NOT]);
            let count = limit::TOKENS + maker.dice.below(3) - 1;
            (0..count).for_each(|_| maker.push(kind));
        }
    }
    if maker.dice.below(3) == 0 {
        long_number(&mut maker);
    }
    let mut case = maker.done();
    if dice.below(6) == 0 {
        case.tokens.extend([NUMBER, 0, 1].iter().take(1 + dice.below(TOKEN_WIDTH)));
    }
    case
}

/// A call: n arguments are 2n + 2 tokens and n + 1 rows, so one less than the rows
/// that are allowed fills both.
fn arguments(maker: &mut Maker<'_>) {
    let arguments = limit::ROWS - 4 + maker.dice.below(6);
    maker.all(&[IDENT, OPEN_PAREN]);
    for n in 0..arguments {
        let kinds: &[u32] = if n > 0 { &[COMMA, IDENT] } else { &[IDENT] };
        maker.all(kinds);
    }
    maker.push(CLOSE_PAREN);
}

/// A chain: n qualified names are 4n - 1 tokens and 2n - 1 rows.
fn names(maker: &mut Maker<'_>) {
    let names = limit::ROWS / 2 - 2 + maker.dice.below(4);
    let operator = maker.dice.pick(&INFIX[..15]).0;
    for n in 0..names {
        if n > 0 {
            maker.push(operator);
        }
        maker.all(&[IDENT, PERIOD, IDENT]);
    }
    if maker.dice.below(2) == 0 {
        let kind = maker.dice.pick(&[EXCLAMATION, CLOSE_PAREN, IDENT]);
        maker.push(kind);
    }
}

/// Makes the text about as long as it may be, and a token a number to its end.
fn long_number(maker: &mut Maker<'_>) {
    let length = limit::TEXT + maker.dice.below(3) - 1;
    maker.text.resize(length, b'0');
    let n = maker.dice.below(maker.count());
    let start = maker.dice.below(100) as u32;
    maker.tokens.as_chunks_mut().0[n] = [NUMBER, start, length as u32 - start];
}
