//! The trees that the original parser builds. Its source names the variants
//! and fields; their definition is not part of it and is written here.

use crate::sql::types::DataType;
use std::collections::BTreeMap;

/// An expression.
#[derive(Clone, Debug, PartialEq)]
pub enum Expression {
    /// `*`.
    All,
    /// A column, with its table where it is qualified.
    Column(Option<String>, String),
    /// A literal value.
    Literal(Literal),
    /// A call: the name and the arguments.
    Function(String, Vec<Expression>),
    /// An operator with its operands.
    Operator(Operator),
}

/// A literal value.
#[derive(Clone, Debug, PartialEq)]
pub enum Literal {
    /// NULL.
    Null,
    /// TRUE or FALSE.
    Boolean(bool),
    /// A whole number.
    Integer(i64),
    /// Any other number, INFINITY and NAN.
    Float(f64),
    /// A string.
    String(String),
}

/// An operator with its operands.
#[derive(Clone, Debug, PartialEq)]
#[allow(missing_docs)]
pub enum Operator {
    And(Box<Expression>, Box<Expression>),
    Not(Box<Expression>),
    Or(Box<Expression>, Box<Expression>),
    Equal(Box<Expression>, Box<Expression>),
    GreaterThan(Box<Expression>, Box<Expression>),
    GreaterThanOrEqual(Box<Expression>, Box<Expression>),
    Is(Box<Expression>, Literal),
    LessThan(Box<Expression>, Box<Expression>),
    LessThanOrEqual(Box<Expression>, Box<Expression>),
    NotEqual(Box<Expression>, Box<Expression>),
    Add(Box<Expression>, Box<Expression>),
    Divide(Box<Expression>, Box<Expression>),
    Exponentiate(Box<Expression>, Box<Expression>),
    Factorial(Box<Expression>),
    Identity(Box<Expression>),
    Multiply(Box<Expression>, Box<Expression>),
    Negate(Box<Expression>),
    Remainder(Box<Expression>, Box<Expression>),
    Subtract(Box<Expression>, Box<Expression>),
    Like(Box<Expression>, Box<Expression>),
}

impl std::convert::From<Literal> for Expression {
    fn from(literal: Literal) -> Self {
        Expression::Literal(literal)
    }
}

impl std::convert::From<Operator> for Expression {
    fn from(operator: Operator) -> Self {
        Expression::Operator(operator)
    }
}

impl std::convert::From<Operator> for Box<Expression> {
    fn from(operator: Operator) -> Self {
        Box::new(operator.into())
    }
}

/// A statement. None is ever read here; the parser's source names them.
#[derive(Clone, Debug)]
#[allow(missing_docs, clippy::large_enum_variant)]
pub enum Statement {
    Begin {
        read_only: bool,
        as_of: Option<u64>,
    },
    Commit,
    Rollback,
    Explain(Box<Statement>),
    CreateTable {
        name: String,
        columns: Vec<Column>,
    },
    DropTable {
        name: String,
        if_exists: bool,
    },
    Delete {
        table: String,
        r#where: Option<Expression>,
    },
    Insert {
        table: String,
        columns: Option<Vec<String>>,
        values: Vec<Vec<Expression>>,
    },
    Update {
        table: String,
        set: BTreeMap<String, Option<Expression>>,
        r#where: Option<Expression>,
    },
    Select {
        select: Vec<(Expression, Option<String>)>,
        from: Vec<From>,
        r#where: Option<Expression>,
        group_by: Vec<Expression>,
        having: Option<Expression>,
        order_by: Vec<(Expression, Direction)>,
        limit: Option<Expression>,
        offset: Option<Expression>,
    },
}

/// A column of a new table.
#[derive(Clone, Debug)]
#[allow(missing_docs)]
pub struct Column {
    pub name: String,
    pub datatype: DataType,
    pub primary_key: bool,
    pub nullable: Option<bool>,
    pub default: Option<Expression>,
    pub unique: bool,
    pub index: bool,
    pub references: Option<String>,
}

/// A source of rows in a statement.
#[derive(Clone, Debug)]
#[allow(missing_docs)]
pub enum From {
    Table { name: String, alias: Option<String> },
    Join { left: Box<From>, right: Box<From>, r#type: JoinType, predicate: Option<Expression> },
}

/// A kind of join.
#[derive(Clone, Copy, Debug, PartialEq, Eq)]
#[allow(missing_docs)]
pub enum JoinType {
    Cross,
    Inner,
    Left,
    Right,
}

/// A direction of sorting.
#[derive(Clone, Copy, Debug, Default, PartialEq, Eq)]
#[allow(missing_docs)]
pub enum Direction {
    #[default]
    Ascending,
    Descending,
}
