/* Whether two rows read the same: formats, widths, floats by their bits, nulls, slices, runs, and the order of grounds. A line has the ground, and
 * the number of an answer.
 *     cc -I include tests/c/same.c tests/c/column.c tests/c/lent.c -L target/staticlib -llafkuno -o same
 *     ./same | diff - tests/c/same.out
 * Every slice is lent at its own size between guards; with --bare there are none, and valgrind sees every step outside. */
#include "column.h"
#include <stdio.h>
#include <string.h>

static void show(const char *name, uint8_t ground) {
    int kept = answer_kept();
    printf("%s: %d", name, ground);
    if (ground != FINE && !kept) fputs(" CHANGED", stdout);
    if (ground == FINE) printf(" %llu", (unsigned long long)*(uint64_t *)lent[ANSWER].start);
    putchar('\n');
}

/* A node of numbers, as many as its rows and those before its offset; `valid` has a bit for each. */
static void add(struct column *c, const char *format, uint64_t length, uint64_t offset, uint8_t valid, const uint64_t *values) {
    node(c, format, 0, length, offset);
    validity(c, valid, 0);
    wide_numbers(c, BUFFER_1, width(*format), values, (uint32_t)(length + offset));
}

#define NEGATIVE (UINT64_C(1) << 63)
#define NAN_64 (UINT64_C(0x7ff8) << 48)
#define NAN_32 UINT64_C(0x7fc00000)

/* Two nodes of numbers, the first at offset 2, the second at 1; a row of each. */
static const struct pair {
    const char *name, *format_a, *format_b;
    uint64_t a[4], b[4];
    uint8_t valid_a, valid_b;
    uint64_t row_a, row_b;
} pairs[] = {
    {"equal behind other offsets", "l", "l", {1, 2, 3, 4}, {1, 9, 3, 9}, 15, 15, 0, 1},
    {"what stands without the offset", "l", "l", {3, 2, 1, 4}, {9, 9, 3, 9}, 15, 15, 0, 1},
    {"5 in 4 bytes and in 8", "i", "l", {0, 0, 5}, {0, 5}, 15, 15, 0, 0},
    {"-1 in 1 byte and in 8", "c", "l", {0, 0, UINT64_MAX}, {0, UINT64_MAX}, 15, 15, 0, 0},
    {"-1 and 255", "c", "C", {0, 0, 255}, {0, 255}, 15, 15, 0, 0},
    {"-1 and 2^64 - 1", "l", "L", {0, 0, UINT64_MAX}, {0, UINT64_MAX}, 15, 15, 0, 0},
    {"2^63 - 1 of both signs", "l", "L", {0, 0, INT64_MAX}, {0, INT64_MAX}, 15, 15, 0, 0},
    {"NaNs of the same bits", "g", "g", {0, 0, NAN_64 + 1}, {0, NAN_64 + 1}, 15, 15, 0, 0},
    {"NaNs of other bits", "g", "g", {0, 0, NAN_64}, {0, NAN_64 + 1}, 15, 15, 0, 0},
    {"NaNs of other signs", "f", "f", {0, 0, NAN_32}, {0, NAN_32 | 1U << 31}, 15, 15, 0, 0},
    {"f32 NaNs of the same bits", "f", "f", {0, 0, NAN_32 + 7}, {0, NAN_32 + 7}, 15, 15, 0, 0},
    {"-0.0 and 0.0", "g", "g", {0, 0, NEGATIVE}, {0, 0}, 15, 15, 0, 0},
    {"-0.0 and -0.0", "g", "g", {0, 0, NEGATIVE}, {0, NEGATIVE}, 15, 15, 0, 0},
    {"0.0 of 4 bytes and of 8", "f", "g", {0}, {0}, 15, 15, 0, 0},
    {"0 and 0.0", "l", "g", {0}, {0}, 15, 15, 0, 0},
    {"null and null over other bytes", "l", "g", {0, 0, 7}, {0, 9}, 11, 13, 0, 0},
    {"null and 0", "l", "l", {0}, {0}, 11, 15, 0, 0},
    {"0 and null", "l", "l", {0}, {0}, 15, 13, 0, 0},
    {"null over 7 and 7", "l", "l", {0, 0, 7}, {0, 7}, 11, 15, 0, 0},
    {"no such row", "l", "l", {0}, {0}, 15, 15, 2, 0},
    {"no such second row", "l", "l", {0}, {0}, 15, 15, 0, 3},
    {"no row 2^64 - 1", "l", "l", {0}, {0}, 15, 15, 0, UINT64_MAX},
};

static void pair(const struct pair *p) {
    struct column c = no_column();
    add(&c, p->format_a, 2, 2, p->valid_a, p->a);
    add(&c, p->format_b, 3, 1, p->valid_b, p->b);
    lend_column(&c);
    lend_answer(LAFKUNO_SAME);
    show(p->name, lafkuno_same_row(TABLES, 0, 1, 1, 1, p->row_a, p->row_b, LONGS(ANSWER)));
}

/* Runs over rows 1 to 5 of values 10, null, 5, and plain rows of them behind; a row of each. */
static void runs(const char *name, uint64_t run_row, uint64_t row) {
    static const uint64_t ends[3] = {2, 4, 7}, values[3] = {10, 77, 5}, plain[4] = {5, 10, 3, 5};
    struct column c = no_column();
    node(&c, "+r", 2, 5, 1);
    node(&c, "s", 0, 3, 0);
    wide_numbers(&c, BUFFER_1, 2, ends, 3);
    add(&c, "i", 3, 0, 5, values);
    add(&c, "C", 4, 0, 7, plain);
    lend_column(&c);
    lend_answer(LAFKUNO_SAME);
    show(name, lafkuno_same_row(TABLES, 0, 3, 3, 1, run_row, row, LONGS(ANSWER)));
}

/* Two columns among numbers (node 0, of `rows` rows over 2 numbers), keys (1), strings (3) and a list (4), each by its first node and its count of
 * nodes; a row of each, and the numbers of the answer. */
static const struct other {
    const char *name;
    uint64_t rows;
    uint32_t a, n_a, b, n_b;
    uint64_t row_a, row_b;
    size_t answer;
} several[] = {
    {"a row and itself", 2, 0, 1, 0, 1, 1, 1, 1},
    {"numbers and keys", 2, 0, 1, 1, 2, 0, 0, 1},
    {"strings and numbers", 2, 3, 1, 0, 1, 0, 0, 1},
    {"numbers and a list", 2, 0, 1, 4, 2, 0, 0, 1},
    {"2 before 10", 2, 3, 1, 0, 1, 0, 2, 1},
    {"12 before 2 and 10", 9, 3, 1, 0, 1, 9, 9, 1},
    {"10 of the second before 12 of the first", 9, 0, 1, 3, 2, 0, 0, 1},
    {"9 of the second before 10 of the first", 2, 3, 2, 0, 33, 9, 9, 1},
    {"10 before 14", 2, 3, 1, 0, 1, 0, 0, 2},
    {"14", 2, 0, 1, 0, 1, 0, 0, 2},
    {"14 without a number", 2, 0, 1, 0, 1, 0, 0, 0},
};

static void other(const struct other *p) {
    static const uint64_t seven[2] = {7, 7}, offsets[3] = {0, 1, 2};
    struct column c = no_column();
    add(&c, "i", 2, 0, 3, seven);
    c.lengths[LENGTH] = p->rows;
    node(&c, "C", 0, 2, 0);
    c.schema[5 + DICTIONARY] = 1;
    wide_numbers(&c, BUFFER_1, 1, offsets, 2);
    add(&c, "i", 2, 0, 3, seven);
    node(&c, "u", 0, 2, 0);
    wide_numbers(&c, BUFFER_1, 4, offsets, 3);
    wide_numbers(&c, BUFFER_2, 1, seven, 2);
    node(&c, "+l", 1, 2, 0);
    wide_numbers(&c, BUFFER_1, 4, offsets, 3);
    add(&c, "i", 2, 0, 3, seven);
    lend_column(&c);
    lend_answer(p->answer);
    show(p->name, lafkuno_same_row(TABLES, p->a, p->n_a, p->b, p->n_b, p->row_a, p->row_b, LONGS(ANSWER)));
}

#define EACH(list, show_one) \
    for (size_t i = 0; i < sizeof list / sizeof *list; i++) show_one(&list[i])

int main(int count, char **arguments) {
    lent_bare = count > 1 && strcmp(arguments[1], "--bare") == 0;
    EACH(pairs, pair);
    runs("a run's value and the same", 0, 1);
    runs("a run's value and another", 0, 0);
    runs("a null run and a null", 1, 3);
    runs("the last run, in a byte", 4, 0);
    runs("no such row of runs", 5, 0);
    EACH(several, other);
}
