/* Fontrisc: tokens to syntax rows, predicates to clauses and lookups.
 *
 * For C (C99) and C++, on x86-64 Linux. Link libfontrisc.a; of C's library it
 * calls `memset` and `memcpy` at most.
 *
 * What each function answers, for every input, is said in docs/FORMAT.md, whose
 * sections are cited here as FORMAT 4: tokens in 2, both sorts of rows in 5 and 6.
 * The library uses no heap, keeps no pointer and has no state: calls on memory of
 * their own may run at the same time.
 *
 * Lent memory. A length counts elements: bytes, numbers of a table (three to a
 * token or row) or places in a list. Each pointer leads to that many elements
 * and is aligned for them. It is never null, also where the length is 0.
 * Memory lent to be written, the numbers after the last length included, must
 * not overlap anything else that is lent in the same call.
 *
 * Answers. A function that returns a number returns 0 if it has an answer, and
 * otherwise a refusal. After a refusal the numbers it hands out are the place (a
 * token's or a row's number) and zeros.
 *
 * Stack. A call needs some of its thread's stack: what the constants below say.
 * This was measured, at the deepest inputs there are, and nothing proves it. On a
 * thread that has less left the operating system may stop the program. */

#ifndef FONTRISC_H
#define FONTRISC_H

#include <stddef.h>
#include <stdint.h>

#ifdef __cplusplus
extern "C" {
#endif

/* The largest amounts (FORMAT 1.1). */
#define FONTRISC_MAX_TEXT 16384
#define FONTRISC_MAX_TOKENS 4096
#define FONTRISC_MAX_ROWS 2048
#define FONTRISC_MAX_LEVELS 64
#define FONTRISC_MAX_CLAUSES 1024
#define FONTRISC_MAX_LITERALS 8192

/* Stack that suffices for a call, in bytes (docs/PERFORMANCE.md, Stack). Next to
 * nothing does for `fontrisc_spelled`. */
#define FONTRISC_STACK_PARSE 65536
#define FONTRISC_STACK_SPLIT 262144
#define FONTRISC_STACK_LOOKUP 262144 /* for `fontrisc_value` too */

/* The refusals (FORMAT 11.1), each with its place. */
#define FONTRISC_TOO_LONG 1     /* text, tokens or predicate rows over the limit; 0 */
#define FONTRISC_BAD_TABLE 2    /* a ragged or wrong token table; the token */
#define FONTRISC_END 3          /* a token is needed and none is left; the count of tokens */
#define FONTRISC_NO_ATOM 4      /* no atom starts with this token; the token */
#define FONTRISC_WRONG_TOKEN 5  /* another token is needed here; the token */
#define FONTRISC_LEFT_OVER 6    /* tokens are left after the expression; the first of them */
#define FONTRISC_BAD_NUMBER 7   /* a Number token spells no number; the token */
#define FONTRISC_TOO_DEEP 8     /* a 65th level of reading; the next unread token */
#define FONTRISC_NO_ROOM 9      /* the row table is full; the next unread token */
#define FONTRISC_BAD_TREE 10    /* the predicate rows are not one tree; the row */
#define FONTRISC_TOO_MANY 11    /* more than 1,024 clauses or 8,192 literals; 0 */
#define FONTRISC_NO_LIST 12     /* a list is too short; 0 */
#define FONTRISC_NOT_LOOKUP 13  /* the clause is no lookup; 0 */
#define FONTRISC_NO_SUCH 14     /* no clause or value has this number; 0 */

/* The kinds of tokens (FORMAT 2.2). 0 and all above 88 are unknown. */
enum {
    /* What carries a spelling. */
    FONTRISC_TOKEN_NUMBER = 1,
    FONTRISC_TOKEN_STRING = 2,
    FONTRISC_TOKEN_IDENT = 3,
    /* Infix operators. */
    FONTRISC_TOKEN_OR = 4,
    FONTRISC_TOKEN_AND = 5,
    FONTRISC_TOKEN_EQUAL = 6,                  /* = */
    FONTRISC_TOKEN_NOT_EQUAL = 7,              /* != */
    FONTRISC_TOKEN_LESS_OR_GREATER_THAN = 8,   /* <> */
    FONTRISC_TOKEN_LIKE = 9,
    FONTRISC_TOKEN_GREATER_THAN = 10,          /* > */
    FONTRISC_TOKEN_GREATER_THAN_OR_EQUAL = 11, /* >= */
    FONTRISC_TOKEN_LESS_THAN = 12,             /* < */
    FONTRISC_TOKEN_LESS_THAN_OR_EQUAL = 13,    /* <= */
    FONTRISC_TOKEN_PLUS = 14,                  /* + */
    FONTRISC_TOKEN_MINUS = 15,                 /* - */
    FONTRISC_TOKEN_ASTERISK = 16,              /* * */
    FONTRISC_TOKEN_SLASH = 17,                 /* / */
    FONTRISC_TOKEN_PERCENT = 18,               /* % */
    FONTRISC_TOKEN_CARET = 19,                 /* ^ */
    /* What else expressions use. */
    FONTRISC_TOKEN_EXCLAMATION = 20,           /* ! */
    FONTRISC_TOKEN_IS = 21,
    FONTRISC_TOKEN_NOT = 22,
    FONTRISC_TOKEN_NULL = 23,
    FONTRISC_TOKEN_NAN = 24,
    FONTRISC_TOKEN_TRUE = 25,
    FONTRISC_TOKEN_FALSE = 26,
    FONTRISC_TOKEN_INFINITY = 27,
    FONTRISC_TOKEN_OPEN_PAREN = 28,            /* ( */
    FONTRISC_TOKEN_CLOSE_PAREN = 29,           /* ) */
    FONTRISC_TOKEN_COMMA = 30,                 /* , */
    FONTRISC_TOKEN_PERIOD = 31,                /* . */
    FONTRISC_TOKEN_SEMICOLON = 32,             /* ; */
    /* Keywords of statements, which no expression uses. */
    FONTRISC_TOKEN_AS = 33, FONTRISC_TOKEN_ASC = 34, FONTRISC_TOKEN_BEGIN = 35,
    FONTRISC_TOKEN_BOOL = 36, FONTRISC_TOKEN_BOOLEAN = 37, FONTRISC_TOKEN_BY = 38,
    FONTRISC_TOKEN_COMMIT = 39, FONTRISC_TOKEN_CREATE = 40, FONTRISC_TOKEN_CROSS = 41,
    FONTRISC_TOKEN_DEFAULT = 42, FONTRISC_TOKEN_DELETE = 43, FONTRISC_TOKEN_DESC = 44,
    FONTRISC_TOKEN_DOUBLE = 45, FONTRISC_TOKEN_DROP = 46, FONTRISC_TOKEN_EXISTS = 47,
    FONTRISC_TOKEN_EXPLAIN = 48, FONTRISC_TOKEN_FLOAT = 49, FONTRISC_TOKEN_FROM = 50,
    FONTRISC_TOKEN_GROUP = 51, FONTRISC_TOKEN_HAVING = 52, FONTRISC_TOKEN_IF = 53,
    FONTRISC_TOKEN_INDEX = 54, FONTRISC_TOKEN_INNER = 55, FONTRISC_TOKEN_INSERT = 56,
    FONTRISC_TOKEN_INT = 57, FONTRISC_TOKEN_INTEGER = 58, FONTRISC_TOKEN_INTO = 59,
    FONTRISC_TOKEN_JOIN = 60, FONTRISC_TOKEN_KEY = 61, FONTRISC_TOKEN_LEFT = 62,
    FONTRISC_TOKEN_LIMIT = 63, FONTRISC_TOKEN_OF = 64, FONTRISC_TOKEN_OFFSET = 65,
    FONTRISC_TOKEN_ON = 66, FONTRISC_TOKEN_ONLY = 67, FONTRISC_TOKEN_ORDER = 68,
    FONTRISC_TOKEN_OUTER = 69, FONTRISC_TOKEN_PRIMARY = 70, FONTRISC_TOKEN_READ = 71,
    FONTRISC_TOKEN_REFERENCES = 72, FONTRISC_TOKEN_RIGHT = 73, FONTRISC_TOKEN_ROLLBACK = 74,
    FONTRISC_TOKEN_SELECT = 75, FONTRISC_TOKEN_SET = 76, FONTRISC_TOKEN_STRING_TYPE = 77,
    FONTRISC_TOKEN_SYSTEM = 78, FONTRISC_TOKEN_TABLE = 79, FONTRISC_TOKEN_TEXT = 80,
    FONTRISC_TOKEN_TIME = 81, FONTRISC_TOKEN_TRANSACTION = 82, FONTRISC_TOKEN_UNIQUE = 83,
    FONTRISC_TOKEN_UPDATE = 84, FONTRISC_TOKEN_VALUES = 85, FONTRISC_TOKEN_VARCHAR = 86,
    FONTRISC_TOKEN_WHERE = 87, FONTRISC_TOKEN_WRITE = 88
};

/* The kinds of syntax rows (FORMAT 5.3): what `fontrisc_parse` writes. An x or y
 * that is not named is 0. */
enum {
    FONTRISC_SYNTAX_ALL = 1,
    FONTRISC_SYNTAX_INTEGER = 2,    /* x its value */
    FONTRISC_SYNTAX_FLOAT = 3,      /* x its token */
    FONTRISC_SYNTAX_INFINITY = 4,
    FONTRISC_SYNTAX_NAN = 5,
    FONTRISC_SYNTAX_STRING = 6,     /* x its token */
    FONTRISC_SYNTAX_BOOLEAN = 7,    /* x 1 for TRUE, 0 for FALSE */
    FONTRISC_SYNTAX_NULL = 8,
    FONTRISC_SYNTAX_COLUMN = 9,     /* x the name's token */
    FONTRISC_SYNTAX_QUALIFIED = 10, /* x the table's token, y the column's */
    FONTRISC_SYNTAX_FUNCTION = 11,  /* x the name's token, y the number of arguments */
    /* Over one operand: x its row. */
    FONTRISC_SYNTAX_IDENTITY = 12,
    FONTRISC_SYNTAX_NEGATE = 13,
    FONTRISC_SYNTAX_NOT = 14,
    FONTRISC_SYNTAX_FACTORIAL = 15,
    FONTRISC_SYNTAX_IS = 16,        /* y 0 for NULL, 1 for NAN */
    /* Over two: x the left row, y the right one. */
    FONTRISC_SYNTAX_AND = 17,
    FONTRISC_SYNTAX_OR = 18,
    FONTRISC_SYNTAX_EQUAL = 19,
    FONTRISC_SYNTAX_NOT_EQUAL = 20,
    FONTRISC_SYNTAX_GREATER_THAN = 21,
    FONTRISC_SYNTAX_GREATER_THAN_OR_EQUAL = 22,
    FONTRISC_SYNTAX_LESS_THAN = 23,
    FONTRISC_SYNTAX_LESS_THAN_OR_EQUAL = 24,
    FONTRISC_SYNTAX_LIKE = 25,
    FONTRISC_SYNTAX_ADD = 26,
    FONTRISC_SYNTAX_SUBTRACT = 27,
    FONTRISC_SYNTAX_MULTIPLY = 28,
    FONTRISC_SYNTAX_DIVIDE = 29,
    FONTRISC_SYNTAX_REMAINDER = 30,
    FONTRISC_SYNTAX_EXPONENTIATE = 31
};

/* The kinds of predicate rows (FORMAT 6.2): what the other functions are lent. An
 * x or y that is not named is 0. */
enum {
    /* Constants. */
    FONTRISC_ROW_NULL = 1,
    FONTRISC_ROW_BOOLEAN = 2,      /* x 0 or 1 */
    FONTRISC_ROW_INTEGER = 3,      /* x its two's complement pattern */
    FONTRISC_ROW_FLOAT = 4,        /* x its bits */
    FONTRISC_ROW_STRING = 5,       /* x its start in the text, y its length */
    /* A column. */
    FONTRISC_ROW_COLUMN = 6,       /* x its number, up to 65,535 */
    /* What predicates are split at. Over two operands, x is the left row and y the right one. */
    FONTRISC_ROW_AND = 7,
    FONTRISC_ROW_OR = 8,
    FONTRISC_ROW_NOT = 9,          /* x its operand */
    /* Every other operator. */
    FONTRISC_ROW_EQUAL = 10,
    FONTRISC_ROW_GREATER_THAN = 11,
    FONTRISC_ROW_LESS_THAN = 12,
    FONTRISC_ROW_IS = 13,          /* x its operand; y 0 for NULL, 1 for NAN */
    FONTRISC_ROW_ADD = 14,
    FONTRISC_ROW_DIVIDE = 15,
    FONTRISC_ROW_EXPONENTIATE = 16,
    FONTRISC_ROW_FACTORIAL = 17,   /* x its operand */
    FONTRISC_ROW_IDENTITY = 18,    /* x its operand */
    FONTRISC_ROW_MULTIPLY = 19,
    FONTRISC_ROW_NEGATE = 20,      /* x its operand */
    FONTRISC_ROW_REMAINDER = 21,
    FONTRISC_ROW_SQUARE_ROOT = 22, /* x its operand */
    FONTRISC_ROW_SUBTRACT = 23,
    FONTRISC_ROW_LIKE = 24
};

/* Reads a token table as one expression and writes its syntax rows (FORMAT 4,
 * 5). `at` becomes the number of rows written, or the place of the refusal.
 * After a refusal every number of `rows` is 0. A `rows_len` of 3 * min(number of
 * tokens, FONTRISC_MAX_ROWS) always suffices: there are no more rows than tokens. */
uint32_t fontrisc_parse(
    const uint8_t *text, size_t text_len,
    const uint32_t *tokens, size_t tokens_len,
    uint64_t *rows, size_t rows_len,
    uint64_t *at);

/* Says where token `n` stands in the text (FORMAT 2.6): start and length, both
 * 0 if the table has no such token or its span does not fit. */
void fontrisc_spelled(
    const uint8_t *text, size_t text_len,
    const uint32_t *tokens, size_t tokens_len,
    size_t n,
    uint64_t *start, uint64_t *length);

/* Splits a predicate into clauses (FORMAT 8): literals, each twice its row plus
 * one if negated, and for each clause how many literals there are up to its
 * end. `clauses` and `total` become the numbers of clauses and literals; after
 * a refusal the place and 0, and both lists are as they were. Lists of
 * FONTRISC_MAX_LITERALS and FONTRISC_MAX_CLAUSES places always suffice. */
uint32_t fontrisc_split(
    const uint8_t *text, size_t text_len,
    const uint64_t *rows, size_t rows_len,
    uint32_t *literals, size_t literals_len,
    uint32_t *ends, size_t ends_len,
    uint64_t *clauses, uint64_t *total);

/* Finds the column that clause number `clause` of a predicate looks up, and how
 * many values (FORMAT 9.4). After a refusal: the place and 0. */
uint32_t fontrisc_lookup(
    const uint8_t *text, size_t text_len,
    const uint64_t *rows, size_t rows_len,
    size_t clause,
    uint64_t *column, uint64_t *count);

/* Hands out value `n` of such a lookup (FORMAT 9.5) as kind, x and y of a
 * constant, FONTRISC_ROW_NULL to FONTRISC_ROW_STRING. Each call goes through all
 * rows. After a refusal: the place, 0 and 0. */
uint32_t fontrisc_value(
    const uint8_t *text, size_t text_len,
    const uint64_t *rows, size_t rows_len,
    size_t clause, size_t n,
    uint64_t *kind, uint64_t *x, uint64_t *y);

#ifdef __cplusplus
}
#endif

#endif
