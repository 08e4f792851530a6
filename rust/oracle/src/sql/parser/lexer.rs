//! Tokens, and a lexer that hands out a token table one token at a time.
//!
//! Turning text into tokens is not part of the format, so this lexer reads no
//! text of its own: it is given kinds and spans. A string or a name is handed
//! out as the decimal spelling of its token number, which is how a tree's
//! strings and names lead back to their tokens.

use crate::error::Result;
use crate::layout::TOKEN_WIDTH;
use crate::plain::tokens::kind;
use std::cell::Cell;
use std::fmt::{Display, Formatter};

/// A token as the original parser takes it.
#[derive(Clone, Debug, PartialEq, Eq)]
#[allow(missing_docs)]
pub enum Token {
    Number(String),
    String(String),
    Ident(String),
    Keyword(Keyword),
    Asterisk,
    Caret,
    CloseParen,
    Comma,
    Equal,
    Exclamation,
    GreaterThan,
    GreaterThanOrEqual,
    LessOrGreaterThan,
    LessThan,
    LessThanOrEqual,
    Minus,
    NotEqual,
    OpenParen,
    Percent,
    Period,
    Plus,
    Semicolon,
    Slash,
}

/// A keyword that the original parser names.
#[derive(Clone, Copy, Debug, PartialEq, Eq)]
#[allow(missing_docs)]
pub enum Keyword {
    Or,
    And,
    Like,
    Is,
    Not,
    Null,
    NaN,
    True,
    False,
    Infinity,
    As,
    Asc,
    Begin,
    Bool,
    Boolean,
    By,
    Commit,
    Create,
    Cross,
    Default,
    Delete,
    Desc,
    Double,
    Drop,
    Exists,
    Explain,
    Float,
    From,
    Group,
    Having,
    If,
    Index,
    Inner,
    Insert,
    Int,
    Integer,
    Into,
    Join,
    Key,
    Left,
    Limit,
    Of,
    Offset,
    On,
    Only,
    Order,
    Outer,
    Primary,
    Read,
    References,
    Right,
    Rollback,
    Select,
    Set,
    String,
    System,
    Table,
    Text,
    Time,
    Transaction,
    Unique,
    Update,
    Values,
    Varchar,
    Where,
    Write,
}

impl From<Keyword> for Token {
    fn from(keyword: Keyword) -> Self {
        Token::Keyword(keyword)
    }
}

impl Display for Keyword {
    fn fmt(&self, f: &mut Formatter<'_>) -> std::fmt::Result {
        write!(f, "{self:?}")
    }
}

impl Display for Token {
    fn fmt(&self, f: &mut Formatter<'_>) -> std::fmt::Result {
        write!(f, "{self:?}")
    }
}

/// What a lexer has handed out so far. It outlives the parser that owns the
/// lexer, so the place of a refusal can be told afterwards.
#[derive(Debug, Default)]
pub struct Progress {
    /// How many tokens were handed out.
    pub handed: Cell<usize>,
    /// Whether a token was asked for after the last one.
    pub past_end: Cell<bool>,
    /// Whether a number was handed out whose bytes are not UTF-8, so that the
    /// parser was given something else.
    pub outside: Cell<bool>,
}

/// Hands out the tokens of a table, or tokens that were made before.
pub struct Lexer<'a> {
    text: &'a [u8],
    tokens: &'a [u32],
    progress: Option<&'a Progress>,
    next: usize,
    made: Made<'a>,
}

/// Tokens that were made before, if a lexer has such.
enum Made<'a> {
    /// None: the lexer has a table.
    No,
    /// Each is handed out as a copy, its string on the heap copied too.
    Copied(std::slice::Iter<'a, Token>),
    /// Each is handed out as it is.
    Given(std::vec::IntoIter<Token>),
}

impl<'a> Lexer<'a> {
    /// The constructor that the original calls for a statement's text.
    /// That path is not part of the format: the lexer has no tokens.
    pub fn new(_text: &'a str) -> Self {
        Lexer { text: &[], tokens: &[], progress: None, next: 0, made: Made::No }
    }

    /// A lexer over a good token table: kind, start and length of each token.
    pub fn over(text: &'a [u8], tokens: &'a [u32], progress: &'a Progress) -> Self {
        Lexer { text, tokens, progress: Some(progress), next: 0, made: Made::No }
    }

    /// A lexer that hands out copies of tokens.
    pub fn copying(tokens: &'a [Token]) -> Self {
        Lexer { made: Made::Copied(tokens.iter()), ..Lexer::new("") }
    }

    /// A lexer that hands out tokens as they are.
    pub fn given(tokens: Vec<Token>) -> Self {
        Lexer { made: Made::Given(tokens.into_iter()), ..Lexer::new("") }
    }

    /// The number token's bytes as the parser is given them.
    fn number(&self, start: u32, length: u32) -> String {
        let bytes = &self.text[start as usize..start as usize + length as usize];
        match std::str::from_utf8(bytes) {
            Ok(spelling) => spelling.to_string(),
            Err(_) => {
                if let Some(progress) = self.progress {
                    progress.outside.set(true);
                }
                String::new()
            }
        }
    }
}

impl Iterator for Lexer<'_> {
    type Item = Result<Token>;

    fn next(&mut self) -> Option<Self::Item> {
        match &mut self.made {
            Made::Copied(tokens) => return tokens.next().cloned().map(Ok),
            Made::Given(tokens) => return tokens.next().map(Ok),
            Made::No => {}
        }
        let at = self.next;
        let Some(&[kind, start, length]) = self.tokens.as_chunks::<TOKEN_WIDTH>().0.get(at) else {
            if let Some(progress) = self.progress {
                progress.past_end.set(true);
            }
            return None;
        };
        self.next += 1;
        if let Some(progress) = self.progress {
            progress.handed.set(self.next);
        }
        Some(Ok(match kind {
            kind::NUMBER => Token::Number(self.number(start, length)),
            kind::STRING => Token::String(at.to_string()),
            kind::IDENT => Token::Ident(at.to_string()),
            kind => fixed(kind).expect("the table was checked"),
        }))
    }
}

/// The token of a kind that has no content of its own: a keyword or a sign.
pub fn fixed(kind: u32) -> Option<Token> {
    Some(match kind {
        kind::OR => Token::Keyword(Keyword::Or),
        kind::AND => Token::Keyword(Keyword::And),
        kind::EQUAL => Token::Equal,
        kind::NOT_EQUAL => Token::NotEqual,
        kind::LESS_OR_GREATER_THAN => Token::LessOrGreaterThan,
        kind::LIKE => Token::Keyword(Keyword::Like),
        kind::GREATER_THAN => Token::GreaterThan,
        kind::GREATER_THAN_OR_EQUAL => Token::GreaterThanOrEqual,
        kind::LESS_THAN => Token::LessThan,
        kind::LESS_THAN_OR_EQUAL => Token::LessThanOrEqual,
        kind::PLUS => Token::Plus,
        kind::MINUS => Token::Minus,
        kind::ASTERISK => Token::Asterisk,
        kind::SLASH => Token::Slash,
        kind::PERCENT => Token::Percent,
        kind::CARET => Token::Caret,
        kind::EXCLAMATION => Token::Exclamation,
        kind::IS => Token::Keyword(Keyword::Is),
        kind::NOT => Token::Keyword(Keyword::Not),
        kind::NULL => Token::Keyword(Keyword::Null),
        kind::NAN => Token::Keyword(Keyword::NaN),
        kind::TRUE => Token::Keyword(Keyword::True),
        kind::FALSE => Token::Keyword(Keyword::False),
        kind::INFINITY => Token::Keyword(Keyword::Infinity),
        kind::OPEN_PAREN => Token::OpenParen,
        kind::CLOSE_PAREN => Token::CloseParen,
        kind::COMMA => Token::Comma,
        kind::PERIOD => Token::Period,
        kind::SEMICOLON => Token::Semicolon,
        _ => {
            let after = kind.checked_sub(kind::SEMICOLON + 1)?;
            Token::Keyword(*STATEMENT_KEYWORDS.get(after as usize)?)
        }
    })
}

/// The keywords that no expression uses, in the order of their kinds, which follow
/// the one of `;`.
const STATEMENT_KEYWORDS: [Keyword; 56] = [
    Keyword::As,
    Keyword::Asc,
    Keyword::Begin,
    Keyword::Bool,
    Keyword::Boolean,
    Keyword::By,
    Keyword::Commit,
    Keyword::Create,
    Keyword::Cross,
    Keyword::Default,
    Keyword::Delete,
    Keyword::Desc,
    Keyword::Double,
    Keyword::Drop,
    Keyword::Exists,
    Keyword::Explain,
    Keyword::Float,
    Keyword::From,
    Keyword::Group,
    Keyword::Having,
    Keyword::If,
    Keyword::Index,
    Keyword::Inner,
    Keyword::Insert,
    Keyword::Int,
    Keyword::Integer,
    Keyword::Into,
    Keyword::Join,
    Keyword::Key,
    Keyword::Left,
    Keyword::Limit,
    Keyword::Of,
    Keyword::Offset,
    Keyword::On,
    Keyword::Only,
    Keyword::Order,
    Keyword::Outer,
    Keyword::Primary,
    Keyword::Read,
    Keyword::References,
    Keyword::Right,
    Keyword::Rollback,
    Keyword::Select,
    Keyword::Set,
    Keyword::String,
    Keyword::System,
    Keyword::Table,
    Keyword::Text,
    Keyword::Time,
    Keyword::Transaction,
    Keyword::Unique,
    Keyword::Update,
    Keyword::Values,
    Keyword::Varchar,
    Keyword::Where,
    Keyword::Write,
];
