//! The original parser's answer to a token table.

use crate::layout::{Row, TOKEN_WIDTH, token_count};
use crate::plain::reading::syntax;
use crate::plain::refusal::{BAD_NUMBER, END, LEFT_OVER, NO_ATOM, WRONG_TOKEN};
use crate::plain::tokens::kind;
use crate::sql::parser::ast::{Expression, Literal, Operator};
use crate::sql::parser::lexer::fixed;
use crate::sql::parser::parser::{Stopped, read_whole};
use crate::sql::parser::{Lexer, Progress, Token};

/// What the original parser makes of a token table.
#[derive(Clone, Debug, PartialEq, Eq)]
pub enum Reading {
    /// It accepts: the tree as syntax rows.
    Rows(Vec<Row>),
    /// It refuses: the refusal number and the place, in the format's terms.
    Refused(u32, u64),
    /// It cannot be asked: a number that it came to see is not UTF-8.
    Outside,
}

/// Tables longer than this are read on a large stack.
const SHALLOW: usize = 100;

/// Asks the original parser to read a good token table as one expression.
///
/// The parser has no limit on levels or rows, so refusals 1, 2, 8 and 9 never
/// come from here; [`table_fault`](crate::plain::table_fault) decides 1 and 2.
pub fn read(text: &[u8], tokens: &[u32]) -> Reading {
    crate::on_large_stack_if(token_count(tokens) > SHALLOW, || read_here(text, tokens))
}

/// The same on the caller's own stack, for one that runs on a large stack
/// already.
pub fn read_here(text: &[u8], tokens: &[u32]) -> Reading {
    let progress = Progress::default();
    let answer = read_whole(Lexer::over(text, tokens, &progress));
    if progress.outside.get() {
        return Reading::Outside;
    }
    match answer {
        Ok(tree) => Reading::Rows(rows_of(&tree, text, tokens)),
        Err(_) if progress.past_end.get() => Reading::Refused(END, token_count(tokens) as u64),
        Err(stopped) => Reading::Refused(refusal(stopped), progress.handed.get() as u64 - 1),
    }
}

/// The tokens of a good table as the parser takes them, for measuring how fast
/// it reads when they are made already: names and strings hold their bytes.
pub fn tokens_of(text: &[u8], tokens: &[u32]) -> Vec<Token> {
    let token = |[kind, start, length]: &[u32; TOKEN_WIDTH]| {
        let bytes = &text[*start as usize..][..*length as usize];
        let content = String::from_utf8_lossy(bytes).into_owned();
        match *kind {
            kind::NUMBER => Token::Number(content),
            kind::STRING => Token::String(content),
            kind::IDENT => Token::Ident(content),
            kind => fixed(kind).expect("the table was checked"),
        }
    };
    tokens.as_chunks().0.iter().map(token).collect()
}

/// The tree that the parser makes of tokens, if it accepts them. They are
/// handed to it as copies.
pub fn tree_of_copied(tokens: &[Token]) -> Option<Expression> {
    read_whole(Lexer::copying(tokens)).ok()
}

/// The tree that the parser makes of tokens, if it accepts them. They are
/// handed to it as they are.
pub fn tree_of_given(tokens: Vec<Token>) -> Option<Expression> {
    read_whole(Lexer::given(tokens)).ok()
}

/// The format's number for a way to stop before the end of the tokens.
fn refusal(stopped: Stopped) -> u32 {
    match stopped {
        Stopped::NoAtom => NO_ATOM,
        Stopped::WrongToken => WRONG_TOKEN,
        Stopped::LeftOver => LEFT_OVER,
        Stopped::BadNumber => BAD_NUMBER,
    }
}

/// A tree as syntax rows in post-order.
fn rows_of(tree: &Expression, text: &[u8], tokens: &[u32]) -> Vec<Row> {
    let mut writer = RowWriter { rows: Vec::new(), text, tokens, floats: 0 };
    writer.write(tree);
    writer.rows
}

/// Writes a tree as rows.
struct RowWriter<'a> {
    rows: Vec<Row>,
    text: &'a [u8],
    tokens: &'a [u32],
    /// The tokens before this one are no longer candidates for a float.
    floats: usize,
}

impl RowWriter<'_> {
    /// Adds a row and answers its number.
    fn push(&mut self, kind: u64, x: u64, y: u64) -> u64 {
        self.rows.push(Row::new(kind, x, y));
        self.rows.len() as u64 - 1
    }

    /// Writes a tree and answers its root's row.
    fn write(&mut self, tree: &Expression) -> u64 {
        match tree {
            Expression::All => self.push(syntax::ALL, 0, 0),
            Expression::Column(None, name) => self.push(syntax::COLUMN, token(name), 0),
            Expression::Column(Some(table), name) => {
                self.push(syntax::QUALIFIED, token(table), token(name))
            }
            Expression::Literal(literal) => self.literal(literal),
            Expression::Function(name, arguments) => {
                for argument in arguments {
                    self.write(argument);
                }
                self.push(syntax::FUNCTION, token(name), arguments.len() as u64)
            }
            Expression::Operator(operator) => self.operator(operator),
        }
    }

    /// Writes a literal.
    fn literal(&mut self, literal: &Literal) -> u64 {
        match literal {
            Literal::Null => self.push(syntax::NULL, 0, 0),
            Literal::Boolean(b) => self.push(syntax::BOOLEAN, u64::from(*b), 0),
            Literal::Integer(i) => self.push(syntax::INTEGER, *i as u64, 0),
            Literal::String(s) => self.push(syntax::STRING, token(s), 0),
            Literal::Float(_) => {
                let (token, kind) = self.next_float();
                match kind {
                    kind::INFINITY => self.push(syntax::INFINITY, 0, 0),
                    kind::NAN => self.push(syntax::NAN, 0, 0),
                    _ => self.push(syntax::FLOAT, token, 0),
                }
            }
        }
    }

    /// The token, and its kind, of the float literal that comes next in the
    /// tree. Floats stand in the tree in the order of their tokens, and only
    /// INFINITY, NAN and numbers that are not all digits become one.
    fn next_float(&mut self) -> (u64, u32) {
        loop {
            let at = self.floats;
            let [kind, start, length] = self.tokens.as_chunks::<TOKEN_WIDTH>().0[at];
            self.floats += 1;
            let bytes = || &self.text[start as usize..(start + length) as usize];
            match kind {
                kind::NAN | kind::INFINITY => return (at as u64, kind),
                kind::NUMBER if !bytes().iter().all(u8::is_ascii_digit) => {
                    return (at as u64, kind);
                }
                _ => {}
            }
        }
    }

    /// Writes an operator with its operands.
    fn operator(&mut self, operator: &Operator) -> u64 {
        use Operator::*;
        match operator {
            Identity(a) => self.unary(syntax::IDENTITY, a),
            Negate(a) => self.unary(syntax::NEGATE, a),
            Not(a) => self.unary(syntax::NOT, a),
            Factorial(a) => self.unary(syntax::FACTORIAL, a),
            Is(a, literal) => self.is(a, literal),
            And(a, b) => self.binary(syntax::AND, a, b),
            Or(a, b) => self.binary(syntax::OR, a, b),
            Equal(a, b) => self.binary(syntax::EQUAL, a, b),
            NotEqual(a, b) => self.binary(syntax::NOT_EQUAL, a, b),
            GreaterThan(a, b) => self.binary(syntax::GREATER_THAN, a, b),
            GreaterThanOrEqual(a, b) => self.binary(syntax::GREATER_THAN_OR_EQUAL, a, b),
            LessThan(a, b) => self.binary(syntax::LESS_THAN, a, b),
            LessThanOrEqual(a, b) => self.binary(syntax::LESS_THAN_OR_EQUAL, a, b),
            Like(a, b) => self.binary(syntax::LIKE, a, b),
            Add(a, b) => self.binary(syntax::ADD, a, b),
            Subtract(a, b) => self.binary(syntax::SUBTRACT, a, b),
            Multiply(a, b) => self.binary(syntax::MULTIPLY, a, b),
            Divide(a, b) => self.binary(syntax::DIVIDE, a, b),
            Remainder(a, b) => self.binary(syntax::REMAINDER, a, b),
            Exponentiate(a, b) => self.binary(syntax::EXPONENTIATE, a, b),
        }
    }

    /// Writes an operand, then its operator.
    fn unary(&mut self, kind: u64, operand: &Expression) -> u64 {
        let x = self.write(operand);
        self.push(kind, x, 0)
    }

    /// Writes two operands, then their operator.
    fn binary(&mut self, kind: u64, left: &Expression, right: &Expression) -> u64 {
        let x = self.write(left);
        let y = self.write(right);
        self.push(kind, x, y)
    }

    /// Writes IS NULL or IS NAN. The NAN token is used up as a float's is.
    fn is(&mut self, operand: &Expression, literal: &Literal) -> u64 {
        let x = self.write(operand);
        let y = match literal {
            Literal::Null => 0,
            _ => {
                self.next_float();
                1
            }
        };
        self.push(syntax::IS, x, y)
    }
}

/// The token number that a name or a string carries.
fn token(content: &str) -> u64 {
    content.parse().expect("the lexer wrote a token number")
}
