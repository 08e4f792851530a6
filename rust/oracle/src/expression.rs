//! The original expression source's answers about a predicate: its clauses,
//! lookups and values, and what it evaluates a literal to.

use crate::layout::{Constant, Row, row_at, row_count};
use crate::plain::cells::{Kleene, NAN_BITS, Value};
use crate::plain::predicate::{is_constant, kind};
use crate::sql::types::{Expression, Value as Cell};
use std::panic::{AssertUnwindSafe, catch_unwind};

/// A lookup as the original reports it.
#[derive(Clone, Debug, PartialEq, Eq)]
pub struct Lookup {
    /// The column.
    pub column: u64,
    /// The values, in order.
    pub values: Vec<Value>,
    /// The same values as constants.
    pub constants: Vec<Constant>,
}

/// One element of the original's list of clauses.
#[derive(Clone, Debug, PartialEq, Eq)]
pub struct Clause {
    /// The literals in order, if the element is an OR of literals and each is
    /// an atom or one NOT of an atom; none if it is anything else.
    pub literals: Option<Vec<u64>>,
    /// An AND is left in it.
    pub and_left: bool,
    /// A NOT of something other than an atom is left in it.
    pub not_left: bool,
    /// Something below one of its atoms was rewritten.
    pub altered: bool,
    /// The lookup that it is, if the source calls it one.
    pub lookup: Option<Lookup>,
}

/// Predicates with more rows than this are worked on a large stack.
const SHALLOW: usize = 64;

/// Asks the original for the clauses of a good predicate.
///
/// The source copies operands when it distributes OR over AND and knows no
/// limit, so the caller first makes sure that the clause list is a small one.
pub fn split(text: &[u8], rows: &[u64]) -> Vec<Clause> {
    crate::on_large_stack_if(row_count(rows) > SHALLOW, || split_here(text, rows))
}

/// The same on the caller's own stack, for one that runs on a large stack
/// already. The source is run twice: on the true predicate, and on one whose
/// atoms are columns numbered by their rows.
pub fn split_here(text: &[u8], rows: &[u64]) -> Vec<Clause> {
    let root = row_count(rows) - 1;
    let marked = skeleton(rows, root).into_cnf_vec();
    let whole = build(text, rows, root, Strings::Numbered).into_cnf_vec();
    assert_eq!(marked.len(), whole.len(), "the shape above atoms depends on atoms");
    marked.into_iter().zip(whole).map(|(m, w)| clause(text, rows, m, w)).collect()
}

/// A good predicate as the original's type.
pub fn tree_of(text: &[u8], rows: &[u64]) -> Expression {
    build(text, rows, row_count(rows) - 1, Strings::Spelled)
}

/// What there is to say of one element, given twice.
fn clause(text: &[u8], rows: &[u64], marked: Expression, whole: Expression) -> Clause {
    let (mut and_left, mut not_left) = (false, false);
    leftovers(&marked, &mut and_left, &mut not_left);
    let mut literals = Vec::new();
    let pure = collect(&marked, &mut literals);
    let altered = restore(text, rows, &marked) != whole;
    let lookup = whole.is_column_lookup().map(|column| {
        let found = whole.into_column_values(column);
        let constants: Vec<Constant> = found.iter().map(|v| constant(rows, v)).collect();
        let values = constants.iter().map(|constant| Value::of(text, *constant)).collect();
        Lookup { column: column as u64, values, constants }
    });
    Clause { literals: pure.then_some(literals), and_left, not_left, altered, lookup }
}

/// Gathers the literals of an OR of literals; false if it is something else.
fn collect(marked: &Expression, literals: &mut Vec<u64>) -> bool {
    match marked {
        Expression::Column(row) => {
            literals.push(2 * *row as u64);
            true
        }
        Expression::Not(inner) => match inner.as_ref() {
            Expression::Column(row) => {
                literals.push(2 * *row as u64 + 1);
                true
            }
            _ => false,
        },
        Expression::Or(left, right) => collect(left, literals) && collect(right, literals),
        _ => false,
    }
}

/// Notes what keeps an element from being an OR of literals.
fn leftovers(marked: &Expression, and_left: &mut bool, not_left: &mut bool) {
    match marked {
        Expression::And(left, right) | Expression::Or(left, right) => {
            *and_left |= matches!(marked, Expression::And(..));
            leftovers(left, and_left, not_left);
            leftovers(right, and_left, not_left);
        }
        Expression::Not(inner) => {
            *not_left |= !matches!(inner.as_ref(), Expression::Column(_));
            leftovers(inner, and_left, not_left);
        }
        _ => {}
    }
}

/// The predicate with each atom replaced by a column numbered by its row.
fn skeleton(rows: &[u64], r: usize) -> Expression {
    let Row { kind, x, y, .. } = row_at(rows, r);
    let operand = |r: u64| Box::new(skeleton(rows, r as usize));
    match kind {
        kind::AND => Expression::And(operand(x), operand(y)),
        kind::OR => Expression::Or(operand(x), operand(y)),
        kind::NOT => Expression::Not(operand(x)),
        _ => Expression::Column(r),
    }
}

/// A marked element with the true atoms put back.
fn restore(text: &[u8], rows: &[u64], marked: &Expression) -> Expression {
    let put = |e: &Expression| Box::new(restore(text, rows, e));
    match marked {
        Expression::And(left, right) => Expression::And(put(left), put(right)),
        Expression::Or(left, right) => Expression::Or(put(left), put(right)),
        Expression::Not(inner) => Expression::Not(put(inner)),
        Expression::Column(row) => build(text, rows, *row, Strings::Numbered),
        _ => unreachable!("a skeleton has no other nodes"),
    }
}

/// What a string constant holds when it is handed to the original.
#[derive(Clone, Copy)]
enum Strings {
    /// The decimal number of its row: which constant came back is then known.
    Numbered,
    /// Its bytes, one character for each, so that any bytes can be handed over and
    /// comparing characters is comparing bytes.
    Spelled,
}

/// The predicate below a row as the original's type.
fn build(text: &[u8], rows: &[u64], r: usize, strings: Strings) -> Expression {
    let row @ Row { kind, x, y, .. } = row_at(rows, r);
    let operand = |r: u64| Box::new(build(text, rows, r as usize, strings));
    match kind {
        _ if is_constant(kind) => Expression::Constant(match strings {
            Strings::Numbered if kind == kind::STRING => Cell::String(r.to_string()),
            _ => cell_of(&Value::of(text, row.constant())),
        }),
        kind::COLUMN => Expression::Column(x as usize),
        kind::AND => Expression::And(operand(x), operand(y)),
        kind::OR => Expression::Or(operand(x), operand(y)),
        kind::NOT => Expression::Not(operand(x)),
        kind::EQUAL => Expression::Equal(operand(x), operand(y)),
        kind::GREATER_THAN => Expression::GreaterThan(operand(x), operand(y)),
        kind::LESS_THAN => Expression::LessThan(operand(x), operand(y)),
        kind::IS => {
            Expression::Is(operand(x), if y == 0 { Cell::Null } else { Cell::Float(f64::NAN) })
        }
        kind::ADD => Expression::Add(operand(x), operand(y)),
        kind::DIVIDE => Expression::Divide(operand(x), operand(y)),
        kind::EXPONENTIATE => Expression::Exponentiate(operand(x), operand(y)),
        kind::FACTORIAL => Expression::Factorial(operand(x)),
        kind::IDENTITY => Expression::Identity(operand(x)),
        kind::MULTIPLY => Expression::Multiply(operand(x), operand(y)),
        kind::NEGATE => Expression::Negate(operand(x)),
        kind::REMAINDER => Expression::Remainder(operand(x), operand(y)),
        kind::SQUARE_ROOT => Expression::SquareRoot(operand(x)),
        kind::SUBTRACT => Expression::Subtract(operand(x), operand(y)),
        kind::LIKE => Expression::Like(operand(x), operand(y)),
        _ => unreachable!("the rows were checked"),
    }
}

/// A value as the original takes it, strings one character a byte.
fn cell_of(value: &Value) -> Cell {
    match value {
        Value::Null => Cell::Null,
        Value::Boolean(b) => Cell::Boolean(*b),
        Value::Integer(i) => Cell::Integer(*i),
        Value::Float(bits) => Cell::Float(f64::from_bits(*bits)),
        Value::String(bytes) => Cell::String(bytes.iter().map(|b| char::from(*b)).collect()),
    }
}

/// A value that came back, as a constant.
fn constant(rows: &[u64], value: &Cell) -> Constant {
    match value {
        Cell::Null => [kind::NULL, 0, 0],
        Cell::Boolean(b) => [kind::BOOLEAN, u64::from(*b), 0],
        Cell::Integer(i) => [kind::INTEGER, *i as u64, 0],
        Cell::Float(x) if x.is_nan() => [kind::FLOAT, NAN_BITS, 0],
        Cell::Float(x) => [kind::FLOAT, x.to_bits(), 0],
        Cell::String(number) => {
            row_at(rows, number.parse().expect("a row number was handed over")).constant()
        }
    }
}

/// What the original evaluates a literal to.
#[derive(Clone, Copy, Debug, PartialEq, Eq)]
pub enum Evaluated {
    /// TRUE, FALSE or NULL.
    Truth(Kleene),
    /// A value that is none of these.
    Other,
    /// It reports an error.
    Refused,
    /// It panics.
    Panicked,
}

/// Asks the original for the value of one literal of a good predicate
/// on a row of cells, the first in column 0. A literal of a row that is no
/// atom asks for the value of everything below that row.
pub fn evaluate(text: &[u8], rows: &[u64], literal: u64, cells: &[Value]) -> Evaluated {
    let atom = build(text, rows, literal as usize / 2, Strings::Spelled);
    let expression = if literal % 2 == 1 { Expression::Not(Box::new(atom)) } else { atom };
    let cells: Vec<Cell> = cells.iter().map(cell_of).collect();
    match catch_unwind(AssertUnwindSafe(|| expression.evaluate(Some(&cells)))) {
        Ok(Ok(Cell::Boolean(true))) => Evaluated::Truth(Kleene::True),
        Ok(Ok(Cell::Boolean(false))) => Evaluated::Truth(Kleene::False),
        Ok(Ok(Cell::Null)) => Evaluated::Truth(Kleene::Null),
        Ok(Ok(_)) => Evaluated::Other,
        Ok(Err(_)) => Evaluated::Refused,
        Err(_) => Evaluated::Panicked,
    }
}

/// Whether the original panics when it is asked for the values of one
/// element of its list under a column, rather than answering.
pub fn values_panic(text: &[u8], rows: &[u64], clause: usize, column: usize) -> bool {
    let root = row_count(rows) - 1;
    let mut clauses = build(text, rows, root, Strings::Numbered).into_cnf_vec();
    let clause = clauses.swap_remove(clause);
    catch_unwind(AssertUnwindSafe(|| clause.into_column_values(column))).is_err()
}

/// The Kleene value of the original's clauses, whatever their form,
/// when each atom's row has the value that `atoms` gives it.
pub fn conjunction(rows: &[u64], atoms: &dyn Fn(usize) -> Kleene) -> Kleene {
    let clauses = skeleton(rows, row_count(rows) - 1).into_cnf_vec();
    clauses.iter().fold(Kleene::True, |value, clause| value.and(kleene(clause, atoms)))
}

/// The Kleene value of a skeleton.
fn kleene(marked: &Expression, atoms: &dyn Fn(usize) -> Kleene) -> Kleene {
    match marked {
        Expression::And(left, right) => kleene(left, atoms).and(kleene(right, atoms)),
        Expression::Or(left, right) => kleene(left, atoms).or(kleene(right, atoms)),
        Expression::Not(inner) => kleene(inner, atoms).not(),
        Expression::Column(row) => atoms(*row),
        _ => unreachable!("a skeleton has no other nodes"),
    }
}
