/* Exact sums (02, W8): formats, slices, nulls, edges of 64 bits, runs and two columns. A line has the ground, and the numbers of an answer.
 *     cc -I include tests/c/aggregates.c tests/c/column.c tests/c/lent.c -L target/staticlib -llafkuno -o aggregates
 *     ./aggregates | diff - tests/c/aggregates.out
 * Every slice is lent at its own size between guards; with --bare there are none, and valgrind sees every step outside. */
#include "column.h"
#include <stdio.h>
#include <string.h>

/* Rows start to end - 1 of the columns that are lent. */
static void show(const char *name, uint64_t start, uint64_t end, uint8_t ground) {
    int kept = answer_kept();
    printf("%s %llu..%llu: %d", name, (unsigned long long)start, (unsigned long long)end, ground);
    if (ground != FINE && !kept) fputs(" CHANGED", stdout);
    for (size_t i = 0; ground == FINE && i < lent[ANSWER].size / 8; i++)
        printf(" %llu", (unsigned long long)((uint64_t *)lent[ANSWER].start)[i]);
    putchar('\n');
}

static void mean(const char *name, const struct column *c, uint64_t start, uint64_t end) {
    lend_column(c);
    lend_answer(LAFKUNO_MEAN);
    show(name, start, end, lafkuno_mean(TABLES, 0, c->nodes, start, end, LONGS(ANSWER)));
}

/* In place of a byte of validity: none, so that the byte, which is 0, is not read. */
enum { NONE = -1 };

/* The next node, with a number for each of its rows and those before its offset: its validity is the first of 8 bytes of the body, and its
 * numbers stand behind them. */
static void add(struct column *c, const char *format, uint64_t length, uint64_t offset, int bits, const uint64_t *values) {
    const uint64_t word = bits == NONE ? 0 : (uint64_t)bits;
    uint64_t *places = c->places + 9 * c->nodes;
    node(c, format, 0, length, offset);
    wide_numbers(c, VALIDITY, 8, &word, 1);
    places[HAS_VALIDITY] = bits != NONE;
    places[VALIDITY + 1] = 1;
    wide_numbers(c, BUFFER_1, width(*format), values, (uint32_t)(length + offset));
}

/* The last node names the text of the node before it, which is the same. */
static void share_format(struct column *c) {
    uint32_t *schema = c->schema + 5 * (c->nodes - 1);
    c->chars -= schema[FORMAT_SIZE];
    schema[FORMAT_START] -= schema[FORMAT_SIZE];
}

/* ---- one column */

static const struct plain {
    const char *format;
    uint64_t length, offset;
    int bits;
    uint64_t values[5], start, end;
} plains[] = {
    {"c", 4, 1, 0x1b, {9, INT8_MIN, 0, INT8_MAX, 1}, 0, 4},
    {"C", 4, 1, 0x1b, {9, 0, 0, UINT8_MAX, 1}, 0, 4},
    {"s", 4, 1, 0x1b, {9, INT16_MIN, 0, INT16_MAX, 1}, 0, 4},
    {"S", 4, 1, 0x1b, {9, 0, 0, UINT16_MAX, 1}, 0, 4},
    {"i", 4, 1, 0x1b, {9, INT32_MIN, 0, INT32_MAX, 1}, 0, 4},
    {"I", 4, 1, 0x1b, {9, 0, 0, UINT32_MAX, 1}, 0, 4},
    {"l", 4, 1, 0x1b, {9, INT64_MIN + 5, 0, -3, 1}, 0, 4},
    {"L", 4, 1, 0x1b, {9, 7, 0, UINT64_C(1) << 62, 1}, 0, 4},
    {"l", 5, 0, NONE, {INT64_MAX, INT64_MAX, -INT64_MAX, -INT64_MAX, 7}, 0, 5},
    {"l", 5, 0, NONE, {INT64_MAX, INT64_MAX, -INT64_MAX, -INT64_MAX, 7}, 0, 2},
    {"l", 2, 0, NONE, {-INT64_MAX, -1}, 0, 2},
    {"l", 2, 0, NONE, {-INT64_MAX, -2}, 0, 2},
    {"L", 1, 0, NONE, {UINT64_C(1) << 63}, 0, 1},
    {"i", 2, 0, 0x00, {0, 0}, 0, 2},
    {"i", 1, 0, NONE, {3}, 1, 1},
    {"i", 2, 0, NONE, {-1, 1}, 0, 2},
    {"i", 1, 0, NONE, {3}, 0, 2},
    {"f", 1, 0, NONE, {0}, 0, 1},
    {"f", 1, 0, NONE, {0}, 0, 2},
};

static void plain(const struct plain *p) {
    struct column c = {0};
    add(&c, p->format, p->length, p->offset, p->bits, p->values);
    mean(p->format, &c, p->start, p->end);
}

/* Run ends and values of 8 bytes, none of them nullable. */
#define HALF (UINT64_C(1) << 62)
static const struct runs {
    uint64_t length, offset;
    uint32_t n;
    uint64_t ends[3], values[3], start, end;
} several_runs[] = {
    {HALF, 0, 1, {HALF}, {2}, 0, HALF},
    {HALF + 1, 0, 2, {HALF, HALF + 1}, {2, -1}, 0, HALF + 1},
    {HALF, 0, 1, {HALF}, {-2}, 0, HALF},
    {4, 3, 3, {4, 6, 7}, {10, -3, 5}, 0, 4},
    {4, 3, 3, {4, 6, 7}, {10, -3, 5}, 1, 3},
};

static void runs(const struct runs *r) {
    struct column c = {0};
    node(&c, "+r", 2, r->length, r->offset);
    node(&c, "l", 0, r->n, 0);
    wide_numbers(&c, BUFFER_1, 8, r->ends, r->n);
    node(&c, "l", 0, r->n, 0);
    wide_numbers(&c, BUFFER_1, 8, r->values, r->n);
    share_format(&c);
    for (uint32_t k = 0; k < c.nodes; k++) c.schema[5 * k + FLAGS] = 0;
    mean("runs", &c, r->start, r->end);
}

/* ---- two columns of i32 with validity, from row 0 on */

static const struct two {
    uint64_t length;
    uint8_t bits, next_bits;
    uint64_t values[4], next_values[4], end;
} pairs[] = {
    {4, 0x0d, 0x0b, {3, 0, 3, 4}, {-14, 5, 0, 8}, 3},
    {4, 0x0d, 0x0b, {3, 0, 3, 4}, {-14, 5, 0, 8}, 4},
    {2, 0x03, 0x03, {3, 1}, {2, -2}, 2},
    {2, 0x02, 0x01, {0, 1}, {2, 0}, 2},
    {2, 0x03, 0x03, {0, 0}, {2, 3}, 2},
};

static void two(const struct two *p) {
    struct column c = {0};
    add(&c, "i", p->length, 0, p->bits, p->values);
    add(&c, "i", p->length, 0, p->next_bits, p->next_values);
    share_format(&c);
    lend_column(&c);
    lend_answer(LAFKUNO_RATIO);
    show("two", 0, p->end, lafkuno_ratio(TABLES, 0, 1, 1, 1, 0, p->end, LONGS(ANSWER)));
}

#define EACH(list, show_one) \
    for (size_t i = 0; i < sizeof list / sizeof *list; i++) show_one(&list[i])

int main(int count, char **arguments) {
    lent_bare = count > 1 && strcmp(arguments[1], "--bare") == 0;
    EACH(plains, plain);
    EACH(several_runs, runs);
    EACH(pairs, two);
}
