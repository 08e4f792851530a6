//! The stored answers are what the command writes now, and can be replayed.

use oracle::layout::{CONSTANT_WIDTH, ROW_WIDTH, TOKEN_WIDTH, rows_of};
use oracle::list::{parse_lines, split_lines};
use oracle::plain::{self, limit};

/// A stored file's lines.
fn stored(name: &str) -> Vec<String> {
    let path = format!("{}/../../crates/replay/data/{name}.txt", env!("CARGO_MANIFEST_DIR"));
    let text = std::fs::read_to_string(&path).unwrap_or_else(|e| panic!("{name}.txt: {e}"));
    assert!(text.ends_with('\n') && !text.contains("  "), "{name}.txt is out of form");
    text.lines().map(String::from).collect()
}

#[test]
fn parse_is_up_to_date() {
    assert_eq!(stored("parse"), parse_lines());
}

#[test]
fn split_is_up_to_date() {
    assert_eq!(stored("split"), split_lines());
}

/// Reads a line from left to right.
struct Line<'a>(std::str::Split<'a, char>);

impl<'a> Line<'a> {
    fn word(&mut self) -> &'a str {
        self.0.next().expect("the line goes on")
    }

    fn number(&mut self) -> u64 {
        self.word().parse().expect("a decimal number")
    }

    fn list(&mut self, length: u64) -> Vec<u64> {
        (0..length).map(|_| self.number()).collect()
    }

    /// So many tokens, rows or constants as the next number says, each so wide.
    fn table(&mut self, width: usize) -> Vec<u64> {
        let count = self.number();
        self.list(count * width as u64)
    }

    fn bytes(&mut self) -> Vec<u8> {
        let count = self.number();
        self.list(count).into_iter().map(|b| u8::try_from(b).unwrap()).collect()
    }

    fn end(mut self) {
        assert_eq!(self.0.next(), None);
    }
}

#[test]
fn parse_lines_replay() {
    for stored in stored("parse") {
        let mut line = Line(stored.split(' '));
        assert_eq!(line.word(), "P");
        let text = line.bytes();
        let tokens: Vec<u32> = line.table(TOKEN_WIDTH).into_iter().map(|n| n as u32).collect();
        let expected = match line.word() {
            "A" => Ok(rows_of(&line.table(ROW_WIDTH))),
            "R" => Err((line.number() as u32, line.number())),
            other => panic!("{other} is no answer"),
        };
        line.end();
        assert_eq!(plain::parse(&text, &tokens, limit::ROWS, limit::LEVELS), expected);
    }
}

#[test]
fn split_lines_replay() {
    for stored in stored("split") {
        let mut line = Line(stored.split(' '));
        let letter = line.word();
        let text = line.bytes();
        let rows = line.table(ROW_WIDTH);
        match letter {
            "S" => {
                assert_eq!(line.word(), "C");
                let count = line.number();
                let mut clause = || {
                    let length = line.number();
                    line.list(length)
                };
                let clauses: Vec<Vec<u64>> = (0..count).map(|_| clause()).collect();
                assert_eq!(plain::split(&text, &rows), Ok(clauses));
            }
            "L" => {
                let clause = line.number() as usize;
                let expected = match line.word() {
                    "N" => None,
                    "V" => Some((line.number(), line.table(CONSTANT_WIDTH))),
                    other => panic!("{other} is no answer"),
                };
                let lookup = plain::lookup(&text, &rows, clause).ok();
                assert_eq!(lookup.map(|l| (l.column, l.constants.concat())), expected);
            }
            other => panic!("{other} begins no line"),
        }
        line.end();
    }
}
