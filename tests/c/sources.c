/* Grounds 9 to 12 past what one column's buffers say: ceilings, tables that are too short, and several sources. A line for each says how
 * many changes there were and how many answers differ; before it stands what differs.
 *     cc -I include tests/c/sources.c tests/c/column.c tests/c/lent.c -L target/staticlib -llafkuno -o sources
 *     ./sources | diff - tests/c/sources.out
 * Every slice is lent at its own size between guards; with --bare there are none, and valgrind sees every step outside. */
#include "column.h"
#include <string.h>

/* ---- ceilings and tables */

/* Nodes without rows: list-views, each in the one before; numbers; list-views of numbers; keys with their dictionary. */
static void lists(struct column *c, int n) {
    while (n--) node(c, "+vl", 1, 0, 0);
}

static void leaves(struct column *c, int n) {
    while (n--) node(c, "C", 0, 0, 0);
}

static void pairs(struct column *c, int n) {
    while (n--) {
        lists(c, 1);
        leaves(c, 1);
    }
}

static void keys(struct column *c, int n) {
    while (n--) {
        leaves(c, 2);
        c->schema[5 * (c->nodes - 2) + DICTIONARY] = 1;
    }
}

static void column_is(struct test *t, const char *what, const struct column *c, uint8_t ground) {
    lend_column(c);
    judge(t, what, ground, ground_of_lent(c->nodes));
}

/* List-views, each in the one before, and numbers and keys behind them. */
static void nested(struct test *t, const char *what, int of_lists, int of_numbers, int of_keys, uint8_t ground) {
    struct column c = no_column();
    lists(&c, of_lists);
    leaves(&c, of_numbers);
    keys(&c, of_keys);
    column_is(t, what, &c, ground);
}

/* A union of n fields: list-views of numbers, and numbers. */
static void wide(struct test *t, const char *what, uint32_t n, int of_lists, int of_numbers, uint8_t ground) {
    struct column c = no_column();
    node(&c, n == 16 ? "+us:0,1,2,3,4,5,6,7,8,9,10,11,12,13,14,15" : "+us:0,1,2,3,4,5,6,7,8,9,10,11,12,13,14,15,16", n, 0, 0);
    pairs(&c, of_lists);
    leaves(&c, of_numbers);
    column_is(t, what, &c, ground);
}

/* A view node without rows that has n empty data buffers, over no body. */
static struct column views(uint32_t n) {
    struct column c = {.ranges = n};
    node(&c, "vu", 0, 0, 0);
    c.places[DATA_COUNT] = n;
    return c;
}

static void buffers(struct test *t, const char *what, uint32_t n, uint8_t ground) {
    struct column c = views(n);
    column_is(t, what, &c, ground);
}

static void ceilings(void) {
    struct test t = {.depth = 1};
    buffers(&t, "sound", 0, FINE);
    nested(&t, "depth of 8", 7, 1, 0, FINE);
    nested(&t, "depth of 9", 8, 1, 0, CEILING);
    nested(&t, "dictionary at depth 7", 6, 0, 1, FINE);
    nested(&t, "dictionary at depth 8", 7, 0, 1, CEILING);
    wide(&t, "32 nodes and 16 fields", 16, 15, 1, FINE);
    wide(&t, "33 nodes", 16, 16, 0, CEILING);
    wide(&t, "17 fields", 17, 0, 8, CEILING);
    buffers(&t, "32 data buffers", 32, FINE);
    buffers(&t, "33 data buffers", 33, CEILING);
    nested(&t, "no node", 0, 0, 0, TYPE);
    nested(&t, "a child too few", 1, 0, 0, TYPE);
    nested(&t, "two roots", 0, 2, 0, TYPE);
    finish(&t, "", "ceilings");
}

/* One table without its last bytes. */
static void cut(struct test *t, const char *what, int k, size_t bytes, uint8_t ground) {
    lend_column(&t->c);
    slice_resize(&lent[k], lent[k].size - bytes);
    judge(t, what, ground, ground_of_lent(t->c.nodes));
}

static void short_tables(void) {
    struct test t = {.c = views(2), .depth = 1};
    cut(&t, "whole tables", FORMATS, 0, FINE);
    cut(&t, "formats too short", FORMATS, 1, TYPE);
    cut(&t, "schema too short", SCHEMA, 16, TYPE);
    cut(&t, "lengths too short", LENGTHS, 8, BAD);
    cut(&t, "places too short", PLACES, 8, BAD);
    cut(&t, "buffers too short", BUFFERS, 8, BAD);
    finish(&t, "", "tables");
}

/* ---- sources */

/* The ground of a join's sources. The plan is written exactly where there is none; else UINT8_MAX. */
static uint8_t sources_of(const struct column *c, const uint32_t *list, size_t n) {
    lend_column(c);
    lend(SOURCES, list, 8 * n);
    lend_answer(LAFKUNO_PLAN);
    uint8_t ground = lafkuno_plan_parts(WORDS(SOURCES), TABLES, 0, 0, LONGS(ANSWER));
    return answer_kept() == (ground != FINE) ? ground : UINT8_MAX;
}

/* n sources, each of them node 1 by itself. */
static void copies(struct test *t, const char *what, size_t n, uint8_t ground) {
    uint32_t list[34];
    for (size_t i = 0; i < 34; i++) list[i] = 1;
    judge(t, what, ground, sources_of(&t->c, list, n));
}

/* Two sources of two nodes. */
static void both(struct test *t, const char *what, struct column c, uint8_t ground) {
    static const uint32_t list[4] = {0, 2, 2, 2};
    judge(t, what, ground, sources_of(&c, list, 2));
}

static struct column with_letter(struct column c, uint32_t at, char letter) {
    c.formats[at] = (uint8_t)letter;
    return c;
}

static struct column with_flags(struct column c, uint32_t k, uint32_t flags) {
    c.schema[5 * k + FLAGS] = flags;
    return c;
}

/* Node k's first buffer is a byte short. */
static struct column with_less(struct column c, uint32_t k) {
    c.places[9 * k + BUFFER_1 + 1]--;
    return c;
}

/* A length or an offset of -1. */
static struct column with_negative(struct column c, uint32_t k, uint32_t i) {
    c.lengths[2 * k + i] = UINT64_MAX;
    return c;
}

/* A list-view, or a list, of one row of one row. */
static void one_row(struct column *c, int view) {
    static const uint8_t offsets[2] = {0, 1}, size[1] = {1}, number[1] = {7};
    node(c, view ? "+vl" : "+l", 1, 1, 0);
    numbers(c, BUFFER_1, 4, offsets, view ? 1 : 2);
    if (view) numbers(c, BUFFER_2, 4, size, 1);
    node(c, "C", 0, 1, 0);
    numbers(c, BUFFER_1, 1, number, 1);
}

static struct column two_rows(int view, int next_view) {
    struct column c = no_column();
    one_row(&c, view);
    one_row(&c, next_view);
    return c;
}

/* Types that differ. The formats are +vlC+vlC, and CCCC of the dictionaries. */
static void differing(struct test *t) {
    struct column c = t->c, d = no_column();
    keys(&d, 2);
    both(t, "root of 8 bytes", with_letter(c, 6, 'L'), DIFFER);
    both(t, "child of another format", with_letter(c, 7, 'c'), DIFFER);
    both(t, "root is not nullable", with_flags(c, 2, 0), FINE);
    both(t, "child is not nullable", with_flags(c, 3, 0), DIFFER);
    both(t, "child has other flags", with_flags(c, 3, 7), FINE);
    both(t, "dictionaries", d, FINE);
    both(t, "dictionary not nullable", with_flags(d, 3, 0), FINE);
    both(t, "other dictionary", with_letter(d, 3, 'c'), DIFFER);
}

/* Types of lists. The formats of two are +lC+lC. */
static void differing_lists(struct test *t) {
    struct column c = two_rows(0, 0);
    both(t, "lists", c, FINE);
    both(t, "list of 8 bytes", with_letter(c, 4, 'L'), DIFFER);
    both(t, "list's child of another format", with_letter(c, 5, 'c'), DIFFER);
    both(t, "list-view and list", two_rows(1, 0), DIFFER);
}

/* 9 comes before 10, 10 before 11, 11 before 12, whichever source has it. */
static void order(struct test *t) {
    struct column c = t->c, broken = with_less(c, 0), foreign = with_letter(c, 0, 'x'), other = with_letter(c, 3, 'c');
    both(t, "12 of source 0", broken, BAD);
    both(t, "12 of source 1", with_less(c, 2), BAD);
    both(t, "12 and 11", with_letter(broken, 7, 'c'), DIFFER);
    both(t, "12 and 10", with_letter(broken, 4, 'x'), TYPE);
    both(t, "12 and 9", with_negative(broken, 2, LENGTH), CEILING);
    both(t, "11 and 12", with_less(other, 2), DIFFER);
    both(t, "11 and 10", with_letter(other, 4, 'x'), TYPE);
    both(t, "10 and 12", with_less(foreign, 2), TYPE);
    both(t, "10 and 9", with_negative(foreign, 3, OFFSET), CEILING);
    both(t, "9 and 10", with_letter(with_negative(c, 0, LENGTH), 4, 'x'), CEILING);
}

static void several(void) {
    struct test t = {.c = two_rows(1, 1), .depth = 1};
    both(&t, "sound", t.c, FINE);
    copies(&t, "no source", 0, CEILING);
    copies(&t, "one source", 1, FINE);
    copies(&t, "16 sources", 16, FINE);
    copies(&t, "17 sources", 17, CEILING);
    differing(&t);
    differing_lists(&t);
    order(&t);
    finish(&t, "", "sources");
}

int main(int count, char **arguments) {
    lent_bare = count > 1 && strcmp(arguments[1], "--bare") == 0;
    ceilings();
    short_tables();
    several();
    return wrong_answers != 0;
}
