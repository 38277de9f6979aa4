/*
 * Reads a command, given as tokens, and prints its reading as a tree and its canonical writing.
 *
 *     ask [-t NUMBERS] [-o TOKENS] [TOKEN ..]
 *
 * A token is KIND or KIND.TEXT: 52 17 is SELECT *, and 1.8 the name numbered 8. Without tokens each line of standard input is a
 * command. -t lends the first NUMBERS numbers of the node table alone, -o the first TOKENS tokens of the output lists.
 *
 * In the tree `-` is a part that is absent, #8 a text number, and (2) a detail; include/cjarvint.h says what details mean.
 */
#include <ctype.h>
#include <errno.h>
#include <stdio.h>
#include <stdlib.h>
#include <string.h>

#include "cjarvint.h"

/* One token more than a command may have, so that refusal 1 can be asked for. */
#define HELD (CJARVINT_TOKENS + 1)

static uint32_t kinds[HELD], texts[HELD];
static uint32_t nodes[CJARVINT_TABLE(CJARVINT_TOKENS)];
static uint32_t out_kinds[2 * CJARVINT_TOKENS], out_texts[2 * CJARVINT_TOKENS];
static size_t table = sizeof nodes / sizeof *nodes;
static size_t output = sizeof out_kinds / sizeof *out_kinds;

/* By kind; a token with a text of its own is shown by its text number. */
static const char *const spelt[] = {
    "?", "", "", "", "INDEXED", "", "", "", "", "", "", "NULL", "(", ")", ",", ".", ";", "*", "+", "-", "/", "%", "||", "&", "|", "<<",
    ">>", "~", "=", "<>", "<", "<=", ">", ">=", "AND", "OR", "NOT", "IS", "IN", "BETWEEN", "", "ISNULL", "NOTNULL", "COLLATE", "CASE",
    "WHEN", "THEN", "ELSE", "END", "CAST", "AS", "EXISTS", "SELECT", "VALUES", "DISTINCT", "ALL", "FROM", "JOIN", "ON", "USING",
    "WHERE", "GROUP", "BY", "HAVING", "ORDER", "ASC", "DESC", "NULLS", "FIRST", "LAST", "LIMIT", "OFFSET"};
static const char *const join_words[] = {"?", "CROSS", "FULL", "INNER", "LEFT", "NATURAL", "RIGHT", "OUTER"};
static const char *const like_words[] = {"?", "LIKE", "GLOB", "REGEXP"};
static const char *const join_flags[] = {"INNER", "CROSS", "NATURAL", "LEFT", "RIGHT", "OUTER"};

/* By code. */
static const char *const titles[] = {
    "-", "query", "select", "values", "list", "*", "name.*", "column", "FROM", "join", "ON", "USING", "table", "query in FROM", "sort",
    "?", "?", "?", "?", "?", "name", "name from STRING", "name from INDEXED", "name from JOIN_KW", "INTEGER", "FLOAT", "STRING", "BLOB",
    "VARIABLE", "CTIME_KW", "NULL", "names", "call", "parentheses", "subquery", "EXISTS", "CASE", "CAST", "prefix", "binary",
    "null test", "IN list", "IN query", "BETWEEN", "COLLATE"};

static const char *const refusals[] = {
    "accepted", "the lists differ in length, or are over 4,096 tokens", "no such token", "this token can't follow",
    "the command isn't finished", "an expression of level 65", "a 17th open query", "these join words don't go together",
    "a row of another length than the first", "the table is too small for so many records", "the output is too small for so many tokens"};

static void title(uint32_t code, uint32_t detail)
{
    size_t i;

    printf("%s", titles[code]);
    if (code >= CJARVINT_NODE_ID && code <= CJARVINT_NODE_CTIME)
        printf(" #%lu", (unsigned long)detail);
    else if (code == CJARVINT_NODE_JOIN && detail == 0)
        printf(" ,");
    else if (code == CJARVINT_NODE_JOIN) {
        for (i = 0; i < sizeof join_flags / sizeof *join_flags; i++)
            if (detail >> i & 1)
                printf(" %s", join_flags[i]);
    } else if (code == CJARVINT_NODE_BINARY && detail > 100)
        printf("%s %s", detail > 300 ? " NOT" : "", detail == 137 ? "IS NOT" : like_words[detail % 100]);
    else if (code == CJARVINT_NODE_BINARY || code == CJARVINT_NODE_PREFIX || code == CJARVINT_NODE_NULL_TEST)
        printf(" %s", spelt[detail]);
    else if (detail != 0)
        printf(" (%lu)", (unsigned long)detail);
    printf("\n");
}

/* Draws the node whose record is the one before `end`, after as many siblings as stand before it. */
static void draw(size_t end, uint32_t siblings, int depth)
{
    const uint32_t *record = nodes + CJARVINT_WIDTH * (end - 1);

    if (siblings > 0)
        draw(end - record[CJARVINT_SIZE], siblings - 1, depth);
    printf("%*s", 2 * depth, "");
    title(record[CJARVINT_CODE], record[CJARVINT_DETAIL]);
    if (record[CJARVINT_CHILDREN] > 0)
        draw(end - 1, record[CJARVINT_CHILDREN] - 1, depth + 1);
}

static void spell(uint32_t kind, uint32_t text)
{
    if (kind == CJARVINT_JOIN_KW)
        printf(" %s", join_words[text]);
    else if (kind == CJARVINT_LIKE_KW)
        printf(" %s", like_words[text]);
    else if (*spelt[kind] == '\0')
        printf(" #%lu", (unsigned long)text);
    else
        printf(" %s", spelt[kind]);
}

static void refused(cjarvint_answer answer)
{
    printf("refused by %lu at %lu: %s\n", (unsigned long)answer.number, (unsigned long)answer.place, refusals[answer.number]);
}

static void ask(size_t tokens)
{
    cjarvint_answer answer;
    size_t i;

    answer = cjarvint_read(kinds, tokens, texts, tokens, nodes, table);
    if (answer.number != CJARVINT_ACCEPTED) {
        refused(answer);
        return;
    }
    printf("accepted, %lu records\n", (unsigned long)answer.place);
    draw(answer.place, 0, 1);

    answer = cjarvint_write(kinds, tokens, texts, tokens, nodes, table, out_kinds, output, out_texts, output);
    if (answer.number != CJARVINT_ACCEPTED) {
        refused(answer);
        return;
    }
    printf("written, %lu tokens\n ", (unsigned long)answer.place);
    for (i = 0; i < answer.place; i++)
        spell(out_kinds[i], out_texts[i]);
    printf("\n ");
    for (i = 0; i < answer.place; i++) {
        printf(" %lu", (unsigned long)out_kinds[i]);
        if (out_texts[i] != 0)
            printf(".%lu", (unsigned long)out_texts[i]);
    }
    printf("\n");
}

/* The number that stands at *at, which is moved behind it; ends the program where none of at most `most` does. */
static unsigned long number(const char **at, unsigned long most)
{
    char *end;
    unsigned long n;

    errno = 0;
    n = strtoul(*at, &end, 10);
    if (!isdigit((unsigned char)**at) || errno != 0 || n > most) {
        fprintf(stderr, "ask: no number up to %lu: %.*s\n", most, (int)strcspn(*at, "\n"), *at);
        exit(2);
    }
    *at = end;
    return n;
}

/* Takes the tokens of a line in after those that are held, and answers how many there are. */
static size_t take(const char *line, size_t tokens)
{
    for (;;) {
        while (isspace((unsigned char)*line))
            line++;
        if (*line == '\0')
            return tokens;
        if (tokens == HELD) {
            fprintf(stderr, "ask: over %d tokens\n", HELD);
            exit(2);
        }
        kinds[tokens] = (uint32_t)number(&line, UINT32_MAX);
        texts[tokens] = 0;
        if (*line == '.') {
            line++;
            texts[tokens] = (uint32_t)number(&line, UINT32_MAX);
        }
        tokens++;
    }
}

int main(int argc, char **argv)
{
    static char line[1 << 16];
    size_t tokens = 0;
    int i = 1;

    for (; i + 1 < argc && argv[i][0] == '-'; i += 2) {
        const char *value = argv[i + 1];

        if (strcmp(argv[i], "-t") == 0)
            table = number(&value, sizeof nodes / sizeof *nodes);
        else if (strcmp(argv[i], "-o") == 0)
            output = number(&value, sizeof out_kinds / sizeof *out_kinds);
        else
            break;
    }
    if (i < argc) {
        for (; i < argc; i++)
            tokens = take(argv[i], tokens);
        ask(tokens);
        return 0;
    }
    while (fgets(line, sizeof line, stdin) != NULL) {
        if (strchr(line, '\n') == NULL && !feof(stdin)) {
            fprintf(stderr, "ask: a line over %lu bytes\n", (unsigned long)sizeof line - 2);
            return 2;
        }
        ask(take(line, 0));
        fflush(stdout);
    }
    return 0;
}
