//! Inputs: token tables written as words, predicates written as trees, and
//! seeded chance.

use crate::layout::{Row, row_count};
use crate::plain::predicate::kind;
use crate::plain::tokens::kind as token;

/// How the kinds of tokens without content are spelled, in the order of their
/// numbers, which begin with the one of OR.
pub const SPELLED: [&str; 85] = [
    "OR",
    "AND",
    "=",
    "!=",
    "<>",
    "LIKE",
    ">",
    ">=",
    "<",
    "<=",
    "+",
    "-",
    "*",
    "/",
    "%",
    "^",
    "!",
    "IS",
    "NOT",
    "NULL",
    "NAN",
    "TRUE",
    "FALSE",
    "INFINITY",
    "(",
    ")",
    ",",
    ".",
    ";",
    "AS",
    "ASC",
    "BEGIN",
    "BOOL",
    "BOOLEAN",
    "BY",
    "COMMIT",
    "CREATE",
    "CROSS",
    "DEFAULT",
    "DELETE",
    "DESC",
    "DOUBLE",
    "DROP",
    "EXISTS",
    "EXPLAIN",
    "FLOAT",
    "FROM",
    "GROUP",
    "HAVING",
    "IF",
    "INDEX",
    "INNER",
    "INSERT",
    "INT",
    "INTEGER",
    "INTO",
    "JOIN",
    "KEY",
    "LEFT",
    "LIMIT",
    "OF",
    "OFFSET",
    "ON",
    "ONLY",
    "ORDER",
    "OUTER",
    "PRIMARY",
    "READ",
    "REFERENCES",
    "RIGHT",
    "ROLLBACK",
    "SELECT",
    "SET",
    "STRING",
    "SYSTEM",
    "TABLE",
    "TEXT",
    "TIME",
    "TRANSACTION",
    "UNIQUE",
    "UPDATE",
    "VALUES",
    "VARCHAR",
    "WHERE",
    "WRITE",
];

/// A text and a token table.
#[derive(Clone, Debug, PartialEq, Eq)]
pub struct Tokens {
    /// The text.
    pub text: Vec<u8>,
    /// Kind, start and length of each token.
    pub tokens: Vec<u32>,
}

impl Tokens {
    /// An empty text without tokens.
    pub fn new() -> Self {
        Tokens { text: Vec::new(), tokens: Vec::new() }
    }

    /// Adds a token whose bytes stand at the end of the text.
    pub fn push(&mut self, kind: u32, bytes: &[u8]) {
        if !self.text.is_empty() {
            self.text.push(b' ');
        }
        self.tokens.extend([kind, self.text.len() as u32, bytes.len() as u32]);
        self.text.extend(bytes);
    }
}

impl Default for Tokens {
    fn default() -> Self {
        Self::new()
    }
}

/// Makes a token table of words that stand apart by one space. A word that
/// spells a keyword or a sign is that; `'x` is the string x; `#x` is a number
/// token with the bytes x, and so is a word that starts with a digit; any other
/// word is a name.
pub fn words(line: &str) -> Tokens {
    let mut made = Tokens::new();
    for word in line.split(' ').filter(|word| !word.is_empty()) {
        let (kind, bytes) = token_of(word);
        made.push(kind, bytes.as_bytes());
    }
    made
}

/// The kind and the bytes of a word.
fn token_of(word: &str) -> (u32, &str) {
    if let Some(n) = SPELLED.iter().position(|s| *s == word) {
        return (token::OR + n as u32, word);
    }
    match word.as_bytes()[0] {
        b'\'' => (token::STRING, &word[1..]),
        b'#' => (token::NUMBER, &word[1..]),
        b'0'..=b'9' => (token::NUMBER, word),
        _ => (token::IDENT, word),
    }
}

/// A word of a known kind.
pub fn word_of(kind: u32) -> &'static str {
    match kind {
        token::NUMBER => "7",
        token::STRING => "'s",
        token::IDENT => "x",
        _ => SPELLED[(kind - token::OR) as usize],
    }
}

/// A token for each kind that expressions use, the number in three spellings,
/// and one that they do not use: 34.
pub const EVERY: &str = "1 1.5 1x 'x a OR AND = != <> LIKE > >= < <= + - * / % ^ ! IS NOT NULL \
                         NAN TRUE FALSE INFINITY ( ) , . ;";

/// One token for each part that a token can play: 19.
pub const PARTS: &str = "1 a OR AND = < + - * ^ ! IS NOT NULL NAN ( ) , .";

/// Seeded chance: the same seed gives the same numbers everywhere.
#[derive(Clone, Debug)]
pub struct Dice(u64);

impl Dice {
    /// Chance from a seed.
    pub fn new(seed: u64) -> Self {
        Dice(seed ^ 0x9e37_79b9_7f4a_7c15)
    }

    /// The next number (xorshift).
    pub fn roll(&mut self) -> u64 {
        self.0 ^= self.0 << 13;
        self.0 ^= self.0 >> 7;
        self.0 ^= self.0 << 17;
        self.0.wrapping_mul(0x2545_f491_4f6c_dd1d)
    }

    /// A number below `n`.
    pub fn below(&mut self, n: usize) -> usize {
        ((self.roll() >> 33) % n as u64) as usize
    }

    /// One of several things.
    pub fn pick<T: Copy>(&mut self, things: &[T]) -> T {
        things[self.below(things.len())]
    }
}

/// The infix operators as words, by rising kind.
pub const INFIX: [&str; 16] =
    ["OR", "AND", "=", "!=", "<>", "LIKE", ">", ">=", "<", "<=", "+", "-", "*", "/", "%", "^"];

/// A random expression as words. Most are accepted; some put a prefix or a
/// postfix where the precedence forbids it.
pub fn random_expression(dice: &mut Dice, depth: usize) -> String {
    if depth == 0 {
        return random_leaf(dice);
    }
    let part = |dice: &mut Dice| {
        let shallower = dice.below(depth);
        random_expression(dice, shallower)
    };
    match dice.below(12) {
        0..=5 => {
            let operator = dice.pick(&INFIX);
            let (left, right) = (part(dice), part(dice));
            format!("{left} {operator} {right}")
        }
        6 => format!("( {} )", part(dice)),
        7 => format!("NOT {}", part(dice)),
        8 => format!("{} {}", dice.pick(&["-", "+"]), part(dice)),
        9 => format!("{} !", part(dice)),
        10 => {
            let tests = ["IS NULL", "IS NAN", "IS NOT NULL", "IS NOT NAN"];
            format!("{} {}", part(dice), dice.pick(&tests))
        }
        _ => match dice.below(3) {
            0 => "f ( )".to_string(),
            1 => format!("f ( {} )", part(dice)),
            _ => format!("f ( {} , {} )", part(dice), part(dice)),
        },
    }
}

/// A random atom that is one token, or a qualified name.
fn random_leaf(dice: &mut Dice) -> String {
    let leaves = [
        "1", "0", "42", "007", "1.5", "2.", "1e9", "3E-2", "'s", "'", "a", "b", "c", "t . c", "*",
        "TRUE", "FALSE", "NULL", "NAN", "INFINITY",
    ];
    dice.pick(&leaves).to_string()
}

/// The words with one change: one dropped, doubled or replaced.
pub fn spoil(dice: &mut Dice, line: &str) -> String {
    let mut words: Vec<&str> = line.split(' ').collect();
    let at = dice.below(words.len());
    match dice.below(3) {
        0 => drop(words.remove(at)),
        1 => words.insert(at, words[at]),
        _ => words[at] = word_of(dice.below(token::LAST as usize) as u32 + 1),
    }
    words.join(" ")
}

/// A predicate as a tree.
#[derive(Clone, Debug, PartialEq, Eq)]
#[allow(missing_docs)]
pub enum Tree {
    Null,
    Boolean(bool),
    Integer(i64),
    Float(u64),
    String(Vec<u8>),
    Column(u64),
    /// A kind of one operand other than Is.
    Unary(u64, Box<Tree>),
    /// Is: 0 for NULL, 1 for NAN.
    Is(Box<Tree>, u64),
    /// A kind of two operands.
    Binary(u64, Box<Tree>, Box<Tree>),
}

/// A kind of two operands over these.
pub fn binary(kind: u64, left: Tree, right: Tree) -> Tree {
    Tree::Binary(kind, Box::new(left), Box::new(right))
}

/// A kind of one operand, other than Is, over this one.
pub fn unary(kind: u64, operand: Tree) -> Tree {
    Tree::Unary(kind, Box::new(operand))
}

/// A conjunction.
pub fn and(left: Tree, right: Tree) -> Tree {
    binary(kind::AND, left, right)
}

/// A disjunction.
pub fn or(left: Tree, right: Tree) -> Tree {
    binary(kind::OR, left, right)
}

/// A negation.
pub fn not(tree: Tree) -> Tree {
    unary(kind::NOT, tree)
}

/// An equality.
pub fn equal(left: Tree, right: Tree) -> Tree {
    binary(kind::EQUAL, left, right)
}

/// A test for NULL (0) or NaN (1).
pub fn is(tree: Tree, y: u64) -> Tree {
    Tree::Is(Box::new(tree), y)
}

/// A chain of one kind over columns from 0 on, leaning to the left.
pub fn chain(kind: u64, atoms: u64) -> Tree {
    (1..atoms).fold(Tree::Column(0), |tree, n| binary(kind, tree, Tree::Column(n)))
}

/// Chains of the inner kind, each of so many atoms, joined by the outer one.
pub fn joined_chains(outer: u64, inner: u64, sizes: &[u64]) -> Tree {
    let chains = sizes.iter().map(|size| chain(inner, *size));
    chains.reduce(|left, right| binary(outer, left, right)).expect("there is a chain")
}

/// An OR of conjunctions, each given by how many atoms it has.
pub fn or_of_ands(sizes: &[u64]) -> Tree {
    joined_chains(kind::OR, kind::AND, sizes)
}

/// A float constant.
pub fn float(value: f64) -> Tree {
    Tree::Float(value.to_bits())
}

/// A string constant.
pub fn string(value: &str) -> Tree {
    Tree::String(value.as_bytes().to_vec())
}

/// A predicate's text and rows.
#[derive(Clone, Debug, PartialEq, Eq)]
pub struct Predicate {
    /// The text that holds the strings.
    pub text: Vec<u8>,
    /// The table of its rows.
    pub rows: Vec<u64>,
}

/// A tree as text and rows.
pub fn predicate_of(tree: &Tree) -> Predicate {
    let mut made = Predicate { text: Vec::new(), rows: Vec::new() };
    made.push(tree);
    made
}

impl Predicate {
    /// Adds the rows of a tree and answers its root's.
    fn push(&mut self, tree: &Tree) -> u64 {
        let row = match tree {
            Tree::Null => Row::new(kind::NULL, 0, 0),
            Tree::Boolean(b) => Row::new(kind::BOOLEAN, u64::from(*b), 0),
            Tree::Integer(i) => Row::new(kind::INTEGER, *i as u64, 0),
            Tree::Float(bits) => Row::new(kind::FLOAT, *bits, 0),
            Tree::String(bytes) => {
                let start = self.text.len() as u64;
                self.text.extend(bytes);
                Row::new(kind::STRING, start, bytes.len() as u64)
            }
            Tree::Column(c) => Row::new(kind::COLUMN, *c, 0),
            Tree::Unary(kind, operand) => Row::new(*kind, self.push(operand), 0),
            Tree::Is(operand, y) => Row::new(kind::IS, self.push(operand), *y),
            Tree::Binary(kind, left, right) => Row::new(*kind, self.push(left), self.push(right)),
        };
        self.rows.extend(row.numbers());
        row_count(&self.rows) as u64 - 1
    }
}

/// Every tree of AND, OR and NOT over `count` columns in order, from number
/// `first` on, with at most `nots` NOTs directly on each node.
pub fn every_tree(first: u64, count: u64, nots: usize) -> Vec<Tree> {
    let mut bare = Vec::new();
    if count == 1 {
        bare.push(Tree::Column(first));
    }
    for left in 1..count {
        let rights = every_tree(first + left, count - left, nots);
        for l in every_tree(first, left, nots) {
            for r in &rights {
                bare.push(and(l.clone(), r.clone()));
                bare.push(or(l.clone(), r.clone()));
            }
        }
    }
    let mut all = Vec::new();
    for tree in bare {
        let mut tree = tree;
        for _ in 0..nots {
            let next = not(tree.clone());
            all.push(tree);
            tree = next;
        }
        all.push(tree);
    }
    all
}

/// A random tree of AND, OR and NOT over atoms that `atom` makes.
pub fn random_tree(dice: &mut Dice, depth: usize, atom: &dyn Fn(&mut Dice) -> Tree) -> Tree {
    if depth == 0 {
        return atom(dice);
    }
    let part = |dice: &mut Dice| {
        let shallower = dice.below(depth);
        random_tree(dice, shallower, atom)
    };
    match dice.below(5) {
        0 | 1 => and(part(dice), part(dice)),
        2 | 3 => or(part(dice), part(dice)),
        _ => not(part(dice)),
    }
}

/// A random atom: a third of them of the lookup sort, the others columns, Booleans,
/// comparisons, and tests for NULL or NaN.
pub fn random_atom(dice: &mut Dice) -> Tree {
    match dice.below(6) {
        0 => Tree::Column(dice.below(4) as u64),
        1 => Tree::Boolean(dice.below(2) == 1),
        2 => {
            let kind = dice.pick(&[kind::GREATER_THAN, kind::LESS_THAN, kind::LIKE]);
            binary(kind, random_term(dice), random_term(dice))
        }
        3 => is(random_term(dice), dice.below(2) as u64),
        _ => random_lookup(dice),
    }
}

/// A random column, constant or small sum.
fn random_term(dice: &mut Dice) -> Tree {
    let column = Tree::Column(1);
    let unaries = [kind::FACTORIAL, kind::IDENTITY, kind::NEGATE, kind::SQUARE_ROOT];
    match dice.below(4) {
        0 => Tree::Column(dice.below(4) as u64),
        1 => binary(kind::ADD, column, Tree::Integer(2)),
        2 => unary(dice.pick(&unaries), column),
        _ => random_constant(dice),
    }
}

/// A random constant.
pub fn random_constant(dice: &mut Dice) -> Tree {
    match dice.below(8) {
        0 => Tree::Null,
        1 => Tree::Boolean(dice.below(2) == 1),
        2 => Tree::Integer(dice.below(5) as i64 - 2),
        3 => Tree::Integer(dice.pick(&[i64::MIN, i64::MAX])),
        4 => float(dice.pick(&[0.0, -0.0, 1.5, f64::INFINITY, f64::NAN])),
        5 => Tree::Float(0xfff0_0000_0000_0001),
        6 => string(dice.pick(&["", "x", "yes"])),
        _ => Tree::String(vec![0xff, 0x00]),
    }
}

/// A random literal of the lookup sort, mostly on column 0.
pub fn random_lookup(dice: &mut Dice) -> Tree {
    let column = Tree::Column(if dice.below(12) == 0 { 1 } else { 0 });
    match dice.below(4) {
        0 => is(column, dice.below(2) as u64),
        1 => equal(random_constant(dice), column),
        _ => equal(column, random_constant(dice)),
    }
}
