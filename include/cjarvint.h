/*
 * Cjarvint, a proved reader of SQL queries, for C99 and C++.
 *
 * `tools/staticlib` proves the two functions below and writes target/staticlib/libfirmware.a, which has them and all they
 * need: no heap, no C library, no state between calls. Link it beside your program (examples/run.sh does).
 *
 * What each call answers is document 01, docs/01-scope.md. Whatever the lists hold, a call ends, answers with exactly the number and
 * the place that 01 gives, and leaves in the lists exactly what 01 says. That is proved (crates/firmware), if the caller keeps this:
 *
 *  - a pointer is not null, not even with length 0, and is aligned as uint32_t is;
 *  - as many numbers as the length says lie there, can be read, and behind a pointer without const can be written;
 *  - the lists without const overlap no other list (kinds and texts may be one);
 *  - nothing else writes into any list during the call.
 *
 * Lengths count numbers of 32 bits, not bytes. Rattle compiles for x86-64 Linux alone so far, and there a list is passed as two
 * arguments, its pointer and its length.
 */
#ifndef CJARVINT_H
#define CJARVINT_H

#include <stddef.h>
#include <stdint.h>

#ifdef __cplusplus
extern "C" {
#endif

/* The answer of a call. */
typedef struct {
    uint32_t number; /* CJARVINT_ACCEPTED, or the number of the refusal */
    size_t place;    /* accepted: how many records, from cjarvint_write how many tokens; refused: as said at each number below */
} cjarvint_answer;

/*
 * Reads a command: kinds[i] and texts[i] are the kind and the text number of token i.
 *
 * Accepted: the table's first 4 * place numbers are the reading's records, and the numbers beyond keep what they were.
 * Refused (1 to 9): no number changes.
 *
 * A place is never over 8 * (kinds_length + 1), so a table of CJARVINT_TABLE(kinds_length) numbers is room for every command.
 */
cjarvint_answer cjarvint_read(const uint32_t *kinds, size_t kinds_length,
                              const uint32_t *texts, size_t texts_length,
                              uint32_t *nodes, size_t nodes_length);

/*
 * Reads a command as cjarvint_read does, and writes its canonical writing: two commands mean the same exactly when their writings are
 * equal, number for number.
 *
 * Accepted: the table's first 4 * records numbers are the reading (the last of these records, the query, has their count as its size),
 * the first `place` numbers of both output lists are the writing's kinds and text numbers, and the numbers beyond keep what they were.
 * Refused by 1 to 9: no number changes. Refused by 10: the reading stands in the table; the output lists are as they were.
 *
 * A writing may be longer than its command, for a bare alias gets its AS and a NOT to the right, as in wet = NOT dry, its parentheses; these
 * make it deeper too. A writing of over 4,096 tokens, or deeper than 64 levels, is refused when it is read in its turn.
 */
cjarvint_answer cjarvint_write(const uint32_t *kinds, size_t kinds_length,
                               const uint32_t *texts, size_t texts_length,
                               uint32_t *nodes, size_t nodes_length,
                               uint32_t *out_kinds, size_t out_kinds_length,
                               uint32_t *out_texts, size_t out_texts_length);

/* Answers' numbers, and what their places are; tokens count from 0. They are looked for in this order: 1, 2, the smallest place of
   3 to 8 (at one place 3 before 5), 9, 10. */
enum {
    CJARVINT_ACCEPTED = 0,
    CJARVINT_BAD_LISTS = 1,      /* kinds and texts, or both output lists, differ in length, or over 4,096 tokens. Place: 0 */
    CJARVINT_UNFIT_TOKEN = 2,    /* kind 0 or over 71, or a text number of JOIN_KW not in 1 to 7, of LIKE_KW not in 1 to 3. Place: the first */
    CJARVINT_CANNOT_FOLLOW = 3,  /* the tokens before it begin some command, with it they begin none. Place: it */
    CJARVINT_UNFINISHED = 4,     /* the list begins a command and isn't one. Place: how many tokens there are */
    CJARVINT_TOO_DEEP = 5,       /* an expression of level 65 starts. Place: its first token */
    CJARVINT_TOO_MANY_OPEN = 6,  /* a 17th query opens. Place: its SELECT or VALUES */
    CJARVINT_NO_SUCH_JOIN = 7,   /* join words that don't go together, as LEFT INNER. Place: the JOIN */
    CJARVINT_UNEQUAL_ROWS = 8,   /* a row of VALUES is not as long as the first. Place: the row's RP */
    CJARVINT_SHORT_TABLE = 9,    /* the table holds fewer than four numbers a record. Place: how many records are needed */
    CJARVINT_SHORT_OUTPUT = 10   /* the output lists hold fewer numbers than the writing. Place: how many tokens are needed */
};

/* Tokens of a command, at most. */
#define CJARVINT_TOKENS 4096
/* Numbers of a table that is room for every command of so many tokens. */
#define CJARVINT_TABLE(tokens) (32 * ((tokens) + 1))
/* Tokens of a writing from so many records, at most. The usual is about as many as the command has; refusal 10 says how many. */
#define CJARVINT_WRITING(records) (12 * (records))
/* Bytes of stack that a call takes at worst, on x86-64. Measured (bench/firmware.sh), not proved: cjarvint_write 11,448, cjarvint_read 11,336;
 * an earlier compiler took 16,320, which is kept as the bound. */
#define CJARVINT_STACK 16320

/*
 * A record is four numbers: code, detail, children, size. Its children stand before it, left to right, each after its own; size
 * counts the records of the whole, the record itself too. So the node whose record is number i has its last child at record i - 1,
 * and the sibling before a child at record j is at j - (its size). The last record is the command, a query.
 */
enum { CJARVINT_CODE, CJARVINT_DETAIL, CJARVINT_CHILDREN, CJARVINT_SIZE, CJARVINT_WIDTH };

/* Codes of records, with their children; detail is 0 unless said. An optional child that is missing is CJARVINT_NODE_ABSENT. */
enum {
    CJARVINT_NODE_ABSENT = 0,
    CJARVINT_NODE_QUERY = 1,         /* body, order list, limit, offset */
    CJARVINT_NODE_SELECT = 2,        /* detail 1 DISTINCT, 2 ALL; column list, FROM, WHERE, group list, HAVING */
    CJARVINT_NODE_VALUES = 3,        /* rows, as lists */
    CJARVINT_NODE_LIST = 4,          /* members */
    CJARVINT_NODE_STAR = 5,          /* the column * */
    CJARVINT_NODE_NAME_STAR = 6,     /* the column name . *; name */
    CJARVINT_NODE_COLUMN = 7,        /* detail: alias mode 0 none, 1 AS, 2 bare; expression, alias */
    CJARVINT_NODE_FROM = 8,          /* source, joins */
    CJARVINT_NODE_JOIN = 9,          /* detail 0 for a comma, else 64 + flags: INNER 1, CROSS 2, NATURAL 4, LEFT 8, RIGHT 16,
                                        OUTER 32; source, constraint */
    CJARVINT_NODE_ON = 10,           /* expression */
    CJARVINT_NODE_USING = 11,        /* names */
    CJARVINT_NODE_TABLE = 12,        /* detail: alias mode + 4 * (1 INDEXED BY, 2 NOT INDEXED); schema, name, alias, index */
    CJARVINT_NODE_QUERY_SOURCE = 13, /* detail: alias mode; query, alias */
    CJARVINT_NODE_SORT = 14,         /* detail 1 ASC, 2 DESC, + 4 * (1 NULLS FIRST, 2 NULLS LAST); expression */
    CJARVINT_NODE_ID = 20,           /* a name; detail of 20 to 29: the text number */
    CJARVINT_NODE_STRING_NAME = 21,
    CJARVINT_NODE_INDEXED_NAME = 22,
    CJARVINT_NODE_JOIN_NAME = 23,
    CJARVINT_NODE_INTEGER = 24,      /* a literal */
    CJARVINT_NODE_FLOAT = 25,
    CJARVINT_NODE_STRING = 26,
    CJARVINT_NODE_BLOB = 27,
    CJARVINT_NODE_VARIABLE = 28,
    CJARVINT_NODE_CTIME = 29,
    CJARVINT_NODE_NULL = 30,
    CJARVINT_NODE_NAMES = 31,        /* a column's one to three names */
    CJARVINT_NODE_CALL = 32,         /* detail 1 DISTINCT, 2 STAR; name, list of arguments */
    CJARVINT_NODE_PARENS = 33,       /* expressions */
    CJARVINT_NODE_SUBQUERY = 34,     /* query */
    CJARVINT_NODE_EXISTS = 35,       /* query */
    CJARVINT_NODE_CASE = 36,         /* base, each WHEN and its THEN, ELSE */
    CJARVINT_NODE_CAST = 37,         /* expression, name */
    CJARVINT_NODE_PREFIX = 38,       /* detail: the kind; operand */
    CJARVINT_NODE_BINARY = 39,       /* detail: the kind, IS NOT 137, LIKE_KW 200 + text, NOT LIKE_KW 300 + text; two operands */
    CJARVINT_NODE_NULL_TEST = 40,    /* detail 41 ISNULL, 42 NOTNULL or NOT NULL; operand */
    CJARVINT_NODE_IN_LIST = 41,      /* detail of 41 to 43: 1 for NOT; operand, list */
    CJARVINT_NODE_IN_QUERY = 42,     /* operand, query */
    CJARVINT_NODE_BETWEEN = 43,      /* operand, two bounds */
    CJARVINT_NODE_COLLATE = 44       /* operand, name */
};

/*
 * Kinds of tokens. Text numbers are read of ID to CTIME_KW and of LIKE_KW; the caller numbers spellings as it likes, but for the words
 * of JOIN_KW (1 CROSS, 2 FULL, 3 INNER, 4 LEFT, 5 NATURAL, 6 RIGHT, 7 OUTER) and of LIKE_KW (1 LIKE, 2 GLOB, 3 REGEXP). KWID is a
 * keyword outside this table that may stand for an ID.
 */
enum {
    CJARVINT_ID = 1, CJARVINT_KWID = 2, CJARVINT_STRING = 3, CJARVINT_INDEXED = 4, CJARVINT_JOIN_KW = 5,
    CJARVINT_INTEGER = 6, CJARVINT_FLOAT = 7, CJARVINT_BLOB = 8, CJARVINT_VARIABLE = 9, CJARVINT_CTIME_KW = 10,
    CJARVINT_NULL = 11, CJARVINT_LP = 12, CJARVINT_RP = 13, CJARVINT_COMMA = 14, CJARVINT_DOT = 15,
    CJARVINT_SEMI = 16, CJARVINT_STAR = 17, CJARVINT_PLUS = 18, CJARVINT_MINUS = 19, CJARVINT_SLASH = 20,
    CJARVINT_REM = 21, CJARVINT_CONCAT = 22, CJARVINT_BITAND = 23, CJARVINT_BITOR = 24, CJARVINT_LSHIFT = 25,
    CJARVINT_RSHIFT = 26, CJARVINT_BITNOT = 27, CJARVINT_EQ = 28, CJARVINT_NE = 29, CJARVINT_LT = 30,
    CJARVINT_LE = 31, CJARVINT_GT = 32, CJARVINT_GE = 33, CJARVINT_AND = 34, CJARVINT_OR = 35, CJARVINT_NOT = 36,
    CJARVINT_IS = 37, CJARVINT_IN = 38, CJARVINT_BETWEEN = 39, CJARVINT_LIKE_KW = 40, CJARVINT_ISNULL = 41,
    CJARVINT_NOTNULL = 42, CJARVINT_COLLATE = 43, CJARVINT_CASE = 44, CJARVINT_WHEN = 45, CJARVINT_THEN = 46,
    CJARVINT_ELSE = 47, CJARVINT_END = 48, CJARVINT_CAST = 49, CJARVINT_AS = 50, CJARVINT_EXISTS = 51,
    CJARVINT_SELECT = 52, CJARVINT_VALUES = 53, CJARVINT_DISTINCT = 54, CJARVINT_ALL = 55, CJARVINT_FROM = 56,
    CJARVINT_JOIN = 57, CJARVINT_ON = 58, CJARVINT_USING = 59, CJARVINT_WHERE = 60, CJARVINT_GROUP = 61,
    CJARVINT_BY = 62, CJARVINT_HAVING = 63, CJARVINT_ORDER = 64, CJARVINT_ASC = 65, CJARVINT_DESC = 66,
    CJARVINT_NULLS = 67, CJARVINT_FIRST = 68, CJARVINT_LAST = 69, CJARVINT_LIMIT = 70, CJARVINT_OFFSET = 71
};

#ifdef __cplusplus
}
#endif

#endif
