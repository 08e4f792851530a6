//! The plain reading against the original parser: every short token string,
//! random long ones, and the limits that only the plain reading has.

use oracle::cases::*;
use oracle::layout::{Row, TOKEN_WIDTH, token_count};
use oracle::parser::{Reading, read};
use oracle::plain::reading::syntax;
use oracle::plain::refusal::*;
use oracle::plain::tokens::kind;
use oracle::plain::{self, Refusal, levels_needed, limit, spelled, table_fault};

/// The original parser's answer in the plain reading's form.
fn original(text: &[u8], tokens: &[u32]) -> Result<Vec<Row>, Refusal> {
    match read(text, tokens) {
        Reading::Rows(rows) => Ok(rows),
        Reading::Refused(number, place) => Err((number, place)),
        Reading::Outside => panic!("these numbers are UTF-8"),
    }
}

/// Compares both on every string of `length` tokens out of a table of tokens.
fn compare_all(made: &Tokens, length: usize) -> u64 {
    let kinds = token_count(&made.tokens);
    let firsts: Vec<usize> = (0..kinds).collect();
    let halves = firsts.chunks(kinds.div_ceil(2));
    std::thread::scope(|scope| {
        let work = halves.map(|half| scope.spawn(|| compare_some(made, half, length)));
        let work: Vec<_> = work.collect();
        work.into_iter().map(|thread| thread.join().unwrap()).sum()
    })
}

/// The same for the strings that begin with one of `firsts`.
fn compare_some(made: &Tokens, firsts: &[usize], length: usize) -> u64 {
    let kinds = token_count(&made.tokens);
    let tails = kinds.pow(length as u32 - 1);
    let table = made.tokens.as_chunks::<TOKEN_WIDTH>().0;
    let mut tokens = vec![table[0]; length];
    let mut compared = 0;
    for &first in firsts {
        for tail in 0..tails {
            tokens[0] = table[first];
            let mut rest = tail;
            for token in &mut tokens[1..] {
                *token = table[rest % kinds];
                rest /= kinds;
            }
            let tokens = tokens.as_flattened();
            let plain = plain::parse(&made.text, tokens, limit::ROWS, limit::LEVELS);
            assert_eq!(plain, original(&made.text, tokens), "{tokens:?}");
            compared += 1;
        }
    }
    compared
}

#[test]
fn every_short_string_reads_alike() {
    let longest = if cfg!(debug_assertions) { 3 } else { 5 };
    let made = words(EVERY);
    let compared: u64 = (1..=longest).map(|length| compare_all(&made, length)).sum();
    println!("{compared} strings over {} tokens", token_count(&made.tokens));
}

/// About ten seconds more: `cargo test --release -p oracle -- --ignored`.
#[test]
#[ignore = "47 million strings"]
fn every_string_of_six_parts_reads_alike() {
    println!("{} strings of 6 tokens", compare_all(&words(PARTS), 6));
}

#[test]
fn random_expressions_read_alike() {
    let rounds = if cfg!(debug_assertions) { 3_000 } else { 100_000 };
    let mut dice = Dice::new(11);
    let mut accepted = 0;
    for round in 0..rounds {
        let mut line = random_expression(&mut dice, 1 + round % 7);
        if round % 3 == 0 {
            line = spoil(&mut dice, &line);
        }
        let made = words(&line);
        let plain = plain::parse(&made.text, &made.tokens, limit::ROWS, limit::LEVELS);
        assert_eq!(plain, original(&made.text, &made.tokens), "{line}");
        accepted += usize::from(plain.is_ok());
        levels_bound(&made);
    }
    println!("{accepted} of {rounds} accepted");
}

/// The level limit decides exactly by the levels that a reading needs.
fn levels_bound(made: &Tokens) {
    let needed = levels_needed(&made.text, &made.tokens);
    let free = original(&made.text, &made.tokens);
    let at = |levels| plain::parse(&made.text, &made.tokens, limit::ROWS, levels);
    assert_eq!(at(needed), free);
    assert_eq!(at(needed - 1).unwrap_err().0, TOO_DEEP);
}

#[test]
fn levels() {
    let parse = |line: &str| {
        let made = words(line);
        plain::parse(&made.text, &made.tokens, limit::ROWS, limit::LEVELS).map(|rows| rows.len())
    };
    assert_eq!(parse(&format!("{}a", "NOT ".repeat(63))), Ok(64));
    assert_eq!(parse(&format!("{}a", "NOT ".repeat(64))), Err((TOO_DEEP, 64)));
    assert_eq!(parse(&format!("{}1", "1 ^ ".repeat(63))), Ok(127));
    assert_eq!(parse(&format!("{}1", "1 ^ ".repeat(64))), Err((TOO_DEEP, 128)));
    assert_eq!(parse(&format!("{}1", "1 + ".repeat(64))), Ok(129));
    // A level is refused before its first token is looked at, here and there.
    assert_eq!(parse(&"( ".repeat(63)), Err((END, 63)));
    assert_eq!(parse(&"( ".repeat(64)), Err((TOO_DEEP, 64)));
    assert_eq!(parse(&format!("{};", "( ".repeat(64))), Err((TOO_DEEP, 64)));
    assert_eq!(parse(&format!("{}f ( )", "( ".repeat(63))), Err((END, 66)));
    assert_eq!(parse(&format!("{}f (", "( ".repeat(63))), Err((TOO_DEEP, 65)));
}

#[test]
fn rooms() {
    let place = |line: &str, room: usize| {
        let made = words(line);
        plain::parse(&made.text, &made.tokens, room, limit::LEVELS).unwrap_err()
    };
    assert_eq!(place("a", 0), (NO_ROOM, 1));
    assert_eq!(place("( a )", 0), (NO_ROOM, 2));
    assert_eq!(place("a . b", 0), (NO_ROOM, 3));
    assert_eq!(place("f ( )", 0), (NO_ROOM, 3));
    assert_eq!(place("1 + 2", 0), (NO_ROOM, 1));
    assert_eq!(place("1 + 2", 1), (NO_ROOM, 3));
    assert_eq!(place("1 + 2", 2), (NO_ROOM, 3));
    assert_eq!(place("- a", 0), (NO_ROOM, 2));
    assert_eq!(place("- a", 1), (NO_ROOM, 2));
    assert_eq!(place("a ! b", 1), (NO_ROOM, 2));
    assert_eq!(place("a IS NOT NULL", 1), (NO_ROOM, 4));
    assert_eq!(place("a IS NOT NULL", 2), (NO_ROOM, 4));
    // The number rule comes before the row; a wrong token before the row, too.
    assert_eq!(place("1x", 0), (BAD_NUMBER, 0));
    assert_eq!(place("a . 1", 0), (WRONG_TOKEN, 2));
}

#[test]
fn no_more_rows_than_the_maximum() {
    let line = |numbers: usize| format!("{}1", "1 + ".repeat(numbers - 1));
    let parse = |line: &str| {
        let made = words(line);
        plain::parse(&made.text, &made.tokens, usize::MAX, limit::LEVELS).map(|rows| rows.len())
    };
    assert_eq!(parse(&line(1_024)), Ok(2_047));
    assert_eq!(parse(&format!("- {}", line(1_024))), Ok(2_048));
    // Row 2,049 is the last Add; all 2,049 tokens are read by then.
    assert_eq!(parse(&line(1_025)), Err((NO_ROOM, 2_049)));
}

#[test]
fn tables() {
    let text = vec![b'1'; limit::TEXT];
    assert_eq!(table_fault(&text, &[1, 0, 16_384]), None);
    assert_eq!(table_fault(&text, &[1, 1, 16_384]), Some((BAD_TABLE, 0)));
    assert_eq!(table_fault(&text, &[1, 16_384, 0]), None);
    assert_eq!(table_fault(&text, &[1, 0, 1, 1, u32::MAX, 2]), Some((BAD_TABLE, 1)));
    assert_eq!(table_fault(&text, &[88, 0, 0, 89, 0, 0]), Some((BAD_TABLE, 1)));
    assert_eq!(table_fault(&text, &[0, 0, 0]), Some((BAD_TABLE, 0)));
    // A length that is no multiple of three comes before the tokens' faults.
    assert_eq!(table_fault(&text, &[0, 0, 0, 1]), Some((BAD_TABLE, 1)));
    assert_eq!(table_fault(&text, &[1, 0]), Some((BAD_TABLE, 0)));
    assert_eq!(table_fault(&[b'1'; limit::TEXT + 1], &[0]), Some((TOO_LONG, 0)));
    let most = [1, 0, 1].repeat(limit::TOKENS);
    assert_eq!(table_fault(&text, &most), None);
    assert_eq!(table_fault(&text, &[most.clone(), vec![1, 0]].concat()), Some((BAD_TABLE, 4_096)));
    assert_eq!(table_fault(&text, &[most, vec![1, 0, 1]].concat()), Some((TOO_LONG, 0)));
}

#[test]
fn spelled_parts() {
    let tokens = [3, 1, 2, 3, 2, 9, 99, 0, 3, 1, 1];
    assert_eq!(spelled(b"abc", &tokens, 0), (1, 2));
    assert_eq!(spelled(b"abc", &tokens, 1), (0, 0));
    assert_eq!(spelled(b"abc", &tokens, 2), (0, 3));
    assert_eq!(spelled(b"abc", &tokens, 3), (0, 0));
    assert_eq!(spelled(b"abc", &tokens, usize::MAX), (0, 0));
}

#[test]
fn a_number_that_is_not_text_is_outside() {
    let tokens = [1, 0, 1];
    assert_eq!(read(&[0xff], &tokens), Reading::Outside);
    assert_eq!(plain::parse(&[0xff], &tokens, 1, 1), Err((BAD_NUMBER, 0)));
    // Names and strings may hold any bytes: the parser only passes them on.
    assert_eq!(read(&[0xff], &[3, 0, 1]), Reading::Rows(vec![Row::new(syntax::COLUMN, 0, 0)]));
}

#[test]
fn every_kind_is_another_token() {
    let fixed = oracle::sql::parser::lexer::fixed;
    let tokens: Vec<_> = (kind::OR..=kind::LAST).map(|kind| fixed(kind).unwrap()).collect();
    for (n, token) in tokens.iter().enumerate() {
        assert!(!tokens[..n].contains(token), "{token:?} has two kinds");
        // A keyword's name in the original is its spelling.
        if let oracle::sql::parser::Token::Keyword(keyword) = token {
            assert_eq!(format!("{keyword:?}").to_uppercase(), SPELLED[n]);
        }
    }
    assert!(fixed(kind::IDENT).is_none() && fixed(kind::LAST + 1).is_none());
}
