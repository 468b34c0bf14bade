/* Sparse and dense unions, and run ends. */
#include "damage.h"

/* ---- unions; the ids are 5 and 7 */

static void union_format(struct test *t, uint32_t k) {
    change_letter(t, "neither sparse nor dense", k, 2, 'x', TYPE);
    change_letter(t, "an id twice", k, 4, '7', TYPE);
    change_letter(t, "no comma", k, 5, ';', TYPE);
    change_letter(t, "one id of three digits", k, 5, '0', TYPE);
    change_letter(t, "no digit", k, 6, 'a', TYPE);
    change_schema(t, "one child", k, CHILDREN, 1, TYPE);
}

static void union_row(struct test *t, struct slots ids, uint32_t row) {
    change_number(t, "id is not declared", ids, row, 6, BAD);
    change_number(t, "id is negative", ids, row, 0x85, BAD);
}

static void lay_ids(struct test *t, const char *format) {
    static const uint8_t list[11] = {5, 7, 5, 7, 5, 7, 5, 7, 5, 7, 5};
    rows(t, format, 2);
    numbers(&t->c, BUFFER_1, 1, list, t->off + 9);
}

static void unions(struct test *t, uint32_t k) {
    struct slots ids = slots_of(&t->c, k, BUFFER_1, 1);
    any_node(t, k, t->off);
    no_mask(t, k);
    whole_buffer(t, k, BUFFER_1);
    union_format(t, k);
    union_row(t, ids, t->off);
    union_row(t, ids, t->off + 4);
    union_row(t, ids, t->off + 8);
    whole_buffer(t, k + 1, BUFFER_1);
    whole_buffer(t, k + 2, BUFFER_1);
    if (t->off != 0) change_number(t, "unknown id before the offset", ids, 0, 6, FINE);
}

/* Each child is as long as offset and length. */
void column_of_sparse(uint32_t depth, uint32_t off) {
    struct test t = above(depth, off);
    uint32_t k = t.c.nodes, n = off + 9;
    lay_ids(&t, "+us:5,7");
    node(&t.c, "C", 0, n, 2);
    numbers(&t.c, BUFFER_1, 1, NULL, n + 2);
    node(&t.c, "s", 0, n, 0);
    numbers(&t.c, BUFFER_1, 2, NULL, n);
    sound(&t);
    unions(&t, k);
    change_length(&t, "first child is a row short", k + 1, LENGTH, n - 1, BAD);
    change_length(&t, "second child is a row short", k + 2, LENGTH, n - 1, BAD);
    no_rows(&t);
    finish(&t, "", "+us:5,7");
}

static void dense_row(struct test *t, struct slots at, uint32_t row) {
    change_number(t, "position is the length", at, row, 6, BAD);
    change_number(t, "position is the last", at, row, 5, FINE);
    change_number(t, "position is negative", at, row, negative(4), BAD);
}

/* Each child has 6 rows. */
static void lay_dense(struct test *t) {
    static const uint8_t list[11] = {0, 0, 1, 1, 2, 2, 3, 3, 4, 4, 5};
    lay_ids(t, "+ud:5,7");
    numbers(&t->c, BUFFER_2, 4, list, t->off + 9);
    node(&t->c, "C", 0, 6, 1);
    numbers(&t->c, BUFFER_1, 1, NULL, 7);
    node(&t->c, "l", 0, 6, 0);
    numbers(&t->c, BUFFER_1, 8, NULL, 6);
}

void column_of_dense(uint32_t depth, uint32_t off) {
    struct test t = above(depth, off);
    uint32_t k = t.c.nodes;
    lay_dense(&t);
    struct slots at = slots_of(&t.c, k, BUFFER_2, 4);
    sound(&t);
    unions(&t, k);
    whole_buffer(&t, k, BUFFER_2);
    dense_row(&t, at, off);
    dense_row(&t, at, off + 4);
    dense_row(&t, at, off + 8);
    change_length(&t, "first child is too short", k + 1, LENGTH, 4, BAD);
    change_length(&t, "second child is too short", k + 2, LENGTH, 3, BAD);
    if (off != 0) change_number(&t, "negative before the offset", at, 0, negative(4), FINE);
    no_rows(&t);
    finish(&t, "", "+ud:5,7");
}

/* ---- run ends */

/* The run ends have an offset of 1 and are 2, 3, 5, 7, 11; their validity has its one zero before the offset. */
static void lay_runs(struct test *t, const char *format, uint32_t w) {
    static const uint8_t ends[6] = {99, 2, 3, 5, 7, 11};
    rows(t, "+r", 2);
    node(&t->c, format, 0, 5, 1);
    validity(&t->c, 0xfe, 0xff);
    numbers(&t->c, BUFFER_1, w, ends, 6);
    node(&t->c, "f", 0, 5, 0);
    numbers(&t->c, BUFFER_1, 4, NULL, 6);
}

static void run_numbers(struct test *t, struct slots s) {
    uint64_t low = negative(s.width);
    change_number(t, "first run end is 0", s, 1, 0, BAD);
    change_number(t, "first run end is 1", s, 1, 1, FINE);
    change_number(t, "first run end is negative", s, 1, low, BAD);
    change_number(t, "second run end is the first", s, 2, 2, BAD);
    change_number(t, "middle run end falls", s, 3, 2, BAD);
    change_number(t, "middle run end is negative", s, 3, low, BAD);
    change_number(t, "last run end is the one before", s, 4, 11, BAD);
    change_number(t, "last run end is negative", s, 5, low, BAD);
    change_number(t, "last run end is one short", s, 5, t->off + 8, BAD);
    change_number(t, "last run end is exact", s, 5, t->off + 9, FINE);
    change_number(t, "negative before the run ends' offset", s, 0, low, FINE);
}

static void run_nulls(struct test *t, uint32_t k) {
    struct slots bits = slots_of(&t->c, k, VALIDITY, 1);
    change_number(t, "first run end is null", bits, 0, 0xfd, BAD);
    change_number(t, "middle run end is null", bits, 0, 0xf7, BAD);
    change_number(t, "last run end is null", bits, 0, 0xdf, BAD);
    change_number(t, "null past the run ends", bits, 0, 0xbf, FINE);
    change_place(t, "no validity of run ends", k, HAS_VALIDITY, 0, FINE);
}

static void run_types(struct test *t, uint32_t k) {
    change_letter(t, "run ends of a byte", k, 0, 'c', TYPE);
    change_letter(t, "unsigned run ends", k, 0, 'L', TYPE);
    change_letter(t, "run ends of strings", k, 0, 'u', TYPE);
    change_schema(t, "run ends with a dictionary", k, DICTIONARY, 1, TYPE);
    change_length(t, "a run end too few", k, LENGTH, 4, BAD);
    change_length(t, "a value too few", k + 1, LENGTH, 4, BAD);
    change_length(t, "a value too many", k + 1, LENGTH, 6, BAD);
}

/* No run is needed where length and offset are 0. */
static void no_runs(struct test *t) {
    if (t->depth != 1) return;
    struct column whole = t->c;
    for (uint32_t k = 0; k < 3; k++) t->c.lengths[2 * k + LENGTH] = 0;
    change_length(t, "no rows and no runs", 0, OFFSET, 0, FINE);
    change_length(t, "no runs at offset 1", 0, OFFSET, 1, BAD);
    t->c = whole;
}

void column_of_runs(uint32_t depth, uint32_t off, const char *format, uint32_t w) {
    struct test t = above(depth, off);
    uint32_t k = t.c.nodes, ends = k + 1;
    lay_runs(&t, format, w);
    sound(&t);
    any_node(&t, k, off);
    no_mask(&t, k);
    any_node(&t, ends, 1);
    whole_buffer(&t, ends, BUFFER_1);
    mask(&t, ends, 0);
    run_numbers(&t, slots_of(&t.c, ends, BUFFER_1, w));
    run_nulls(&t, ends);
    run_types(&t, ends);
    no_runs(&t);
    finish(&t, "+r ", format);
}
