/* A filter for heap events: (op = 'free' OR op = 'handover') AND NOT fenced.
 *
 * Its tokens are read, and the columns it names are printed. Then it is lent to the
 * library as a predicate, split, and asked which columns can be looked up.
 * `examples/run` builds the library, compiles this and runs it. */

#include "fontrisc.h"

#include <inttypes.h>
#include <stdio.h>

static const char text[] = "(op = 'free' OR op = 'handover') AND NOT fenced";

/* What a lexer makes of the text: kind, start and length. */
static const uint32_t tokens[] = {
    FONTRISC_TOKEN_OPEN_PAREN, 0, 1,
    FONTRISC_TOKEN_IDENT, 1, 2,
    FONTRISC_TOKEN_EQUAL, 4, 1,
    FONTRISC_TOKEN_STRING, 7, 4, /* without its quotes */
    FONTRISC_TOKEN_OR, 13, 2,
    FONTRISC_TOKEN_IDENT, 16, 2,
    FONTRISC_TOKEN_EQUAL, 19, 1,
    FONTRISC_TOKEN_STRING, 22, 8,
    FONTRISC_TOKEN_CLOSE_PAREN, 31, 1,
    FONTRISC_TOKEN_AND, 33, 3,
    FONTRISC_TOKEN_NOT, 37, 3,
    FONTRISC_TOKEN_IDENT, 41, 6,
};

/* What a planner makes of its rows. Column 0 is op, column 1 is fenced. */
static const uint64_t rows[] = {
    FONTRISC_ROW_COLUMN, 0, 0,  /* 0  op */
    FONTRISC_ROW_STRING, 7, 4,  /* 1  'free' */
    FONTRISC_ROW_EQUAL, 0, 1,   /* 2  op = 'free' */
    FONTRISC_ROW_COLUMN, 0, 0,  /* 3  op */
    FONTRISC_ROW_STRING, 22, 8, /* 4  'handover' */
    FONTRISC_ROW_EQUAL, 3, 4,   /* 5  op = 'handover' */
    FONTRISC_ROW_OR, 2, 5,      /* 6 */
    FONTRISC_ROW_COLUMN, 1, 0,  /* 7  fenced */
    FONTRISC_ROW_NOT, 7, 0,     /* 8 */
    FONTRISC_ROW_AND, 6, 8,     /* 9 */
};

#define LENGTH(list) (sizeof list / sizeof list[0])
#define TEXT (const uint8_t *)text, sizeof text - 1
#define TOKENS tokens, LENGTH(tokens)
#define ROWS rows, LENGTH(rows)

/* Says what was refused and where. */
static int refused(const char *what, uint32_t refusal, uint64_t place) {
    printf("%s: refusal %" PRIu32 " at %" PRIu64 "\n", what, refusal, place);
    return 1;
}

/* Reads the tokens and prints the columns' names. */
static int print_columns(void) {
    uint64_t read[LENGTH(tokens)], count, start, length;
    uint32_t refusal = fontrisc_parse(TEXT, TOKENS, read, LENGTH(read), &count);
    if (refusal != 0) {
        return refused("parse", refusal, count);
    }
    printf("%" PRIu64 " rows, columns:", count);
    for (uint64_t n = 0; n < count; n++) {
        if (read[3 * n] == FONTRISC_SYNTAX_COLUMN) {
            fontrisc_spelled(TEXT, TOKENS, (size_t)read[3 * n + 1], &start, &length);
            printf(" %.*s", (int)length, text + start);
        }
    }
    printf("\n");
    return 0;
}

/* Prints the strings that a clause looks for in its column, if it is a lookup. */
static int print_lookup(size_t clause) {
    uint64_t column, count, kind, x, y;
    uint32_t refusal = fontrisc_lookup(TEXT, ROWS, clause, &column, &count);
    if (refusal == FONTRISC_NOT_LOOKUP) {
        printf("  no lookup: every cell has to be asked\n");
        return 0;
    }
    if (refusal != 0) {
        return refused("lookup", refusal, column);
    }
    printf("  a lookup on column %" PRIu64 ":", column);
    for (uint64_t n = 0; n < count; n++) {
        refusal = fontrisc_value(TEXT, ROWS, clause, (size_t)n, &kind, &x, &y);
        if (refusal != 0) {
            return refused("value", refusal, kind);
        }
        if (kind == FONTRISC_ROW_STRING) {
            printf(" '%.*s'", (int)y, text + x);
        }
    }
    printf("\n");
    return 0;
}

/* Splits the predicate and prints its clauses, each with its lookup. */
static int print_clauses(void) {
    uint32_t literals[16], ends[16];
    uint64_t clauses, total;
    uint32_t refusal = fontrisc_split(TEXT, ROWS, literals, 16, ends, 16, &clauses, &total);
    if (refusal != 0) {
        return refused("split", refusal, clauses);
    }
    for (size_t k = 0, at = 0; k < clauses; k++) {
        printf("clause %zu:", k);
        for (; at < ends[k]; at++) {
            printf("%s row %" PRIu32, literals[at] % 2 ? " NOT" : "", literals[at] / 2);
        }
        printf("\n");
        if (print_lookup(k) != 0) {
            return 1;
        }
    }
    return 0;
}

int main(void) {
    return print_columns() != 0 || print_clauses() != 0;
}
