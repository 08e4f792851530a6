//! The kinds of tokens (FORMAT §2.2): the first number of each token.
//!
//! Kind 0 and those above [`WRITE`] are unknown.

// What carries a spelling.

/// A number: its span is judged by FORMAT §3.
pub const NUMBER: u32 = 1;
/// A string: its span covers the content, unquoted.
pub const STRING: u32 = 2;
/// A name: likewise.
pub const IDENT: u32 = 3;

// Infix operators.

/// OR.
pub const OR: u32 = 4;
/// AND.
pub const AND: u32 = 5;
/// `=`.
pub const EQUAL: u32 = 6;
/// `!=`.
pub const NOT_EQUAL: u32 = 7;
/// `<>`.
pub const LESS_OR_GREATER_THAN: u32 = 8;
/// LIKE.
pub const LIKE: u32 = 9;
/// `>`.
pub const GREATER_THAN: u32 = 10;
/// `>=`.
pub const GREATER_THAN_OR_EQUAL: u32 = 11;
/// `<`.
pub const LESS_THAN: u32 = 12;
/// `<=`.
pub const LESS_THAN_OR_EQUAL: u32 = 13;
/// `+`.
pub const PLUS: u32 = 14;
/// `-`.
pub const MINUS: u32 = 15;
/// `*`.
pub const ASTERISK: u32 = 16;
/// `/`.
pub const SLASH: u32 = 17;
/// `%`.
pub const PERCENT: u32 = 18;
/// `^`.
pub const CARET: u32 = 19;

// What else expressions use.

/// `!`.
pub const EXCLAMATION: u32 = 20;
/// IS.
pub const IS: u32 = 21;
/// NOT.
pub const NOT: u32 = 22;
/// NULL.
pub const NULL: u32 = 23;
/// NAN.
pub const NAN: u32 = 24;
/// TRUE.
pub const TRUE: u32 = 25;
/// FALSE.
pub const FALSE: u32 = 26;
/// INFINITY.
pub const INFINITY: u32 = 27;
/// `(`.
pub const OPEN_PAREN: u32 = 28;
/// `)`.
pub const CLOSE_PAREN: u32 = 29;
/// `,`.
pub const COMMA: u32 = 30;
/// `.`.
pub const PERIOD: u32 = 31;
/// `;`.
pub const SEMICOLON: u32 = 32;

// Keywords of statements, which no expression uses.

/// AS.
pub const AS: u32 = 33;
/// ASC.
pub const ASC: u32 = 34;
/// BEGIN.
pub const BEGIN: u32 = 35;
/// BOOL.
pub const BOOL: u32 = 36;
/// BOOLEAN.
pub const BOOLEAN: u32 = 37;
/// BY.
pub const BY: u32 = 38;
/// COMMIT.
pub const COMMIT: u32 = 39;
/// CREATE.
pub const CREATE: u32 = 40;
/// CROSS.
pub const CROSS: u32 = 41;
/// DEFAULT.
pub const DEFAULT: u32 = 42;
/// DELETE.
pub const DELETE: u32 = 43;
/// DESC.
pub const DESC: u32 = 44;
/// DOUBLE.
pub const DOUBLE: u32 = 45;
/// DROP.
pub const DROP: u32 = 46;
/// EXISTS.
pub const EXISTS: u32 = 47;
/// EXPLAIN.
pub const EXPLAIN: u32 = 48;
/// FLOAT.
pub const FLOAT: u32 = 49;
/// FROM.
pub const FROM: u32 = 50;
/// GROUP.
pub const GROUP: u32 = 51;
/// HAVING.
pub const HAVING: u32 = 52;
/// IF.
pub const IF: u32 = 53;
/// INDEX.
pub const INDEX: u32 = 54;
/// INNER.
pub const INNER: u32 = 55;
/// INSERT.
pub const INSERT: u32 = 56;
/// INT.
pub const INT: u32 = 57;
/// INTEGER.
pub const INTEGER: u32 = 58;
/// INTO.
pub const INTO: u32 = 59;
/// JOIN.
pub const JOIN: u32 = 60;
/// KEY.
pub const KEY: u32 = 61;
/// LEFT.
pub const LEFT: u32 = 62;
/// LIMIT.
pub const LIMIT: u32 = 63;
/// OF.
pub const OF: u32 = 64;
/// OFFSET.
pub const OFFSET: u32 = 65;
/// ON.
pub const ON: u32 = 66;
/// ONLY.
pub const ONLY: u32 = 67;
/// ORDER.
pub const ORDER: u32 = 68;
/// OUTER.
pub const OUTER: u32 = 69;
/// PRIMARY.
pub const PRIMARY: u32 = 70;
/// READ.
pub const READ: u32 = 71;
/// REFERENCES.
pub const REFERENCES: u32 = 72;
/// RIGHT.
pub const RIGHT: u32 = 73;
/// ROLLBACK.
pub const ROLLBACK: u32 = 74;
/// SELECT.
pub const SELECT: u32 = 75;
/// SET.
pub const SET: u32 = 76;
/// STRING, the keyword of a type.
pub const STRING_TYPE: u32 = 77;
/// SYSTEM.
pub const SYSTEM: u32 = 78;
/// TABLE.
pub const TABLE: u32 = 79;
/// TEXT.
pub const TEXT: u32 = 80;
/// TIME.
pub const TIME: u32 = 81;
/// TRANSACTION.
pub const TRANSACTION: u32 = 82;
/// UNIQUE.
pub const UNIQUE: u32 = 83;
/// UPDATE.
pub const UPDATE: u32 = 84;
/// VALUES.
pub const VALUES: u32 = 85;
/// VARCHAR.
pub const VARCHAR: u32 = 86;
/// WHERE.
pub const WHERE: u32 = 87;
/// WRITE.
pub const WRITE: u32 = 88;
