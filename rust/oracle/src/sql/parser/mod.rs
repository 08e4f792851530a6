//! The parser (the original's) and the tokens and trees it works on (written here).

pub mod ast;
pub mod lexer;

/// The original parser source, compiled as it stands, and beside it the one
/// function that reaches its private parts.
#[allow(missing_docs, clippy::all)]
pub mod parser {
    include!(concat!(env!("ORACLE_SOURCES"), "/src/sql/parser/parser.rs"));

    /// How the reading of a whole expression ended without a tree.
    #[derive(Clone, Copy, Debug, PartialEq, Eq)]
    pub enum Stopped {
        /// No atom starts at the last token handed out.
        NoAtom,
        /// Another token was needed than the last one handed out.
        WrongToken,
        /// A token stands after the expression.
        LeftOver,
        /// The last token handed out is no number.
        BadNumber,
    }

    /// Reads one expression that must use every token of the lexer.
    pub fn read_whole(lexer: Lexer<'_>) -> std::result::Result<ast::Expression, Stopped> {
        let mut parser = Parser { lexer: lexer.peekable() };
        let expression = parser.parse_expression().map_err(stopped)?;
        match parser.lexer.next() {
            None => Ok(expression),
            Some(_) => Err(Stopped::LeftOver),
        }
    }

    /// Which of the ways to stop an error is.
    fn stopped(error: crate::error::Error) -> Stopped {
        use crate::error::Error;
        match error {
            Error::Input(said) if said.contains("atom") => Stopped::NoAtom,
            Error::Input(_) => Stopped::WrongToken,
            Error::Number => Stopped::BadNumber,
        }
    }
}

pub use lexer::{Keyword, Lexer, Progress, Token};
