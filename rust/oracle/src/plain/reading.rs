//! Reading tokens into syntax rows.

use super::refusal::*;
use super::tokens::{Number, kind, number, spelled, table_fault};
use super::{Refusal, limit};
use crate::layout::{Row, TOKEN_WIDTH, token_count};

/// The kinds of syntax rows by name.
#[allow(missing_docs)]
pub mod syntax {
    pub const ALL: u64 = 1;
    pub const INTEGER: u64 = 2;
    pub const FLOAT: u64 = 3;
    pub const INFINITY: u64 = 4;
    pub const NAN: u64 = 5;
    pub const STRING: u64 = 6;
    pub const BOOLEAN: u64 = 7;
    pub const NULL: u64 = 8;
    pub const COLUMN: u64 = 9;
    pub const QUALIFIED: u64 = 10;
    pub const FUNCTION: u64 = 11;
    pub const IDENTITY: u64 = 12;
    pub const NEGATE: u64 = 13;
    pub const NOT: u64 = 14;
    pub const FACTORIAL: u64 = 15;
    pub const IS: u64 = 16;
    pub const AND: u64 = 17;
    pub const OR: u64 = 18;
    pub const EQUAL: u64 = 19;
    pub const NOT_EQUAL: u64 = 20;
    pub const GREATER_THAN: u64 = 21;
    pub const GREATER_THAN_OR_EQUAL: u64 = 22;
    pub const LESS_THAN: u64 = 23;
    pub const LESS_THAN_OR_EQUAL: u64 = 24;
    pub const LIKE: u64 = 25;
    pub const ADD: u64 = 26;
    pub const SUBTRACT: u64 = 27;
    pub const MULTIPLY: u64 = 28;
    pub const DIVIDE: u64 = 29;
    pub const REMAINDER: u64 = 30;
    pub const EXPONENTIATE: u64 = 31;
}

/// Reads the whole token table as one expression.
///
/// `table_rows` is how many rows the lent table holds, `max_levels` the level
/// limit (the format's is 64). The answer is the rows, or the refusal.
pub fn parse(
    text: &[u8],
    tokens: &[u32],
    table_rows: usize,
    max_levels: usize,
) -> Result<Vec<Row>, Refusal> {
    if let Some(fault) = table_fault(text, tokens) {
        return Err(fault);
    }
    let mut reader = Reader::new(text, tokens, table_rows.min(limit::ROWS), max_levels);
    reader.whole()?;
    Ok(reader.rows)
}

/// How many levels reading a good table takes when neither levels nor rows are
/// limited; for a refused one, how many were begun before the refusal.
pub fn levels_needed(text: &[u8], tokens: &[u32]) -> usize {
    let work = || {
        let mut reader = Reader::new(text, tokens, usize::MAX, usize::MAX);
        let _ = reader.whole();
        reader.deepest
    };
    // Without a limit the reading may nest as deep as there are tokens.
    crate::on_large_stack_if(token_count(tokens) > limit::LEVELS, work)
}

/// The state of one reading.
struct Reader<'a> {
    text: &'a [u8],
    tokens: &'a [u32],
    /// The next unread token.
    at: usize,
    rows: Vec<Row>,
    room: usize,
    max_levels: usize,
    deepest: usize,
}

/// A step's answer, or the refusal that ends the reading.
type Step<T> = Result<T, Refusal>;

impl<'a> Reader<'a> {
    fn new(text: &'a [u8], tokens: &'a [u32], room: usize, max_levels: usize) -> Self {
        Reader { text, tokens, at: 0, rows: Vec::new(), room, max_levels, deepest: 0 }
    }

    /// The whole table: an expression at minimum 0, and nothing after it.
    fn whole(&mut self) -> Step<()> {
        self.expression(1, 0)?;
        match self.peek() {
            None => Ok(()),
            Some(_) => self.refuse(LEFT_OVER, self.at),
        }
    }

    /// The kind of the next token.
    fn peek(&self) -> Option<u32> {
        self.tokens.get(TOKEN_WIDTH * self.at).copied()
    }

    /// Uses the next token and answers its kind; END if there is none.
    fn next(&mut self) -> Step<u32> {
        let Some(kind) = self.peek() else {
            return self.refuse(END, self.at);
        };
        self.at += 1;
        Ok(kind)
    }

    /// Uses the next token if it is of that kind.
    fn next_is(&mut self, kind: u32) -> bool {
        let is = self.peek() == Some(kind);
        if is {
            self.at += 1;
        }
        is
    }

    /// Uses the next token, which must be of that kind.
    fn expect(&mut self, kind: u32) -> Step<()> {
        if self.next()? == kind { Ok(()) } else { self.refuse(WRONG_TOKEN, self.at - 1) }
    }

    fn refuse<T>(&self, number: u32, place: usize) -> Step<T> {
        Err((number, place as u64))
    }

    /// Writes a row that is due and answers its number.
    fn row(&mut self, kind: u64, x: u64, y: u64) -> Step<u64> {
        if self.rows.len() == self.room {
            return self.refuse(NO_ROOM, self.at);
        }
        self.rows.push(Row::new(kind, x, y));
        Ok(self.rows.len() as u64 - 1)
    }

    /// One reading at a minimum; answers the row of what was read.
    fn expression(&mut self, level: usize, minimum: u32) -> Step<u64> {
        if level > self.max_levels {
            return self.refuse(TOO_DEEP, self.at);
        }
        self.deepest = self.deepest.max(level);
        let mut left = self.prefix_or_atom(level, minimum)?;
        left = self.postfixes(left, minimum)?;
        left = self.infixes(level, left, minimum)?;
        self.postfixes(left, minimum)
    }

    /// A prefix operator that the minimum admits with its operand, else an atom.
    fn prefix_or_atom(&mut self, level: usize, minimum: u32) -> Step<u64> {
        let (precedence, row_kind) = match self.peek() {
            Some(kind::NOT) => (3, syntax::NOT),
            Some(kind::PLUS) => (10, syntax::IDENTITY),
            Some(kind::MINUS) => (10, syntax::NEGATE),
            _ => return self.atom(level),
        };
        if precedence < minimum {
            return self.atom(level);
        }
        self.next()?;
        let operand = self.expression(level + 1, precedence)?;
        self.row(row_kind, operand, 0)
    }

    /// Postfix operators, while the minimum admits them.
    fn postfixes(&mut self, mut left: u64, minimum: u32) -> Step<u64> {
        loop {
            match self.peek() {
                Some(kind::IS) if 4 >= minimum => left = self.is(left)?,
                Some(kind::EXCLAMATION) if 9 >= minimum => {
                    self.next()?;
                    left = self.row(syntax::FACTORIAL, left, 0)?;
                }
                _ => return Ok(left),
            }
        }
    }

    /// IS, perhaps NOT, then NULL or NAN.
    fn is(&mut self, left: u64) -> Step<u64> {
        self.expect(kind::IS)?;
        let not = self.next_is(kind::NOT);
        let y = match self.next()? {
            kind::NULL => 0,
            kind::NAN => 1,
            _ => return self.refuse(WRONG_TOKEN, self.at - 1),
        };
        let row = self.row(syntax::IS, left, y)?;
        if not { self.row(syntax::NOT, row, 0) } else { Ok(row) }
    }

    /// Infix operators with their right sides, while the minimum admits them.
    fn infixes(&mut self, level: usize, mut left: u64, minimum: u32) -> Step<u64> {
        while let Some((precedence, row_kind)) = self.peek().and_then(infix) {
            if precedence < minimum {
                break;
            }
            let caret = self.next()? == kind::CARET;
            let right_minimum = if caret { precedence } else { precedence + 1 };
            let right = self.expression(level + 1, right_minimum)?;
            left = self.row(row_kind, left, right)?;
        }
        Ok(left)
    }

    /// An atom.
    fn atom(&mut self, level: usize) -> Step<u64> {
        let token = self.at as u64;
        match self.next()? {
            kind::ASTERISK => self.row(syntax::ALL, 0, 0),
            kind::NUMBER => self.number(token),
            kind::STRING => self.row(syntax::STRING, token, 0),
            kind::TRUE => self.row(syntax::BOOLEAN, 1, 0),
            kind::FALSE => self.row(syntax::BOOLEAN, 0, 0),
            kind::INFINITY => self.row(syntax::INFINITY, 0, 0),
            kind::NAN => self.row(syntax::NAN, 0, 0),
            kind::NULL => self.row(syntax::NULL, 0, 0),
            kind::IDENT if self.next_is(kind::OPEN_PAREN) => self.call(level, token),
            kind::IDENT if self.next_is(kind::PERIOD) => {
                self.expect(kind::IDENT)?;
                self.row(syntax::QUALIFIED, token, self.at as u64 - 1)
            }
            kind::IDENT => self.row(syntax::COLUMN, token, 0),
            kind::OPEN_PAREN => {
                let inner = self.expression(level + 1, 0)?;
                self.expect(kind::CLOSE_PAREN)?;
                Ok(inner)
            }
            _ => self.refuse(NO_ATOM, self.at - 1),
        }
    }

    /// The number that was just used.
    fn number(&mut self, token: u64) -> Step<u64> {
        let (start, length) = spelled(self.text, self.tokens, token as usize);
        match number(&self.text[start as usize..(start + length) as usize]) {
            Number::Integer(value) => self.row(syntax::INTEGER, value, 0),
            Number::Float => self.row(syntax::FLOAT, token, 0),
            Number::Neither => self.refuse(BAD_NUMBER, token as usize),
        }
    }

    /// The arguments after `name(`, up to the closing parenthesis.
    fn call(&mut self, level: usize, name: u64) -> Step<u64> {
        let mut arguments = 0;
        while !self.next_is(kind::CLOSE_PAREN) {
            if arguments > 0 {
                self.expect(kind::COMMA)?;
            }
            self.expression(level + 1, 0)?;
            arguments += 1;
        }
        self.row(syntax::FUNCTION, name, arguments)
    }
}

/// The precedence of an infix operator and the kind of its row.
fn infix(token: u32) -> Option<(u32, u64)> {
    Some(match token {
        kind::OR => (1, syntax::OR),
        kind::AND => (2, syntax::AND),
        kind::EQUAL => (4, syntax::EQUAL),
        kind::NOT_EQUAL | kind::LESS_OR_GREATER_THAN => (4, syntax::NOT_EQUAL),
        kind::LIKE => (4, syntax::LIKE),
        kind::GREATER_THAN => (5, syntax::GREATER_THAN),
        kind::GREATER_THAN_OR_EQUAL => (5, syntax::GREATER_THAN_OR_EQUAL),
        kind::LESS_THAN => (5, syntax::LESS_THAN),
        kind::LESS_THAN_OR_EQUAL => (5, syntax::LESS_THAN_OR_EQUAL),
        kind::PLUS => (6, syntax::ADD),
        kind::MINUS => (6, syntax::SUBTRACT),
        kind::ASTERISK => (7, syntax::MULTIPLY),
        kind::SLASH => (7, syntax::DIVIDE),
        kind::PERCENT => (7, syntax::REMAINDER),
        kind::CARET => (8, syntax::EXPONENTIATE),
        _ => return None,
    })
}
