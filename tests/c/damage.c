/* Damaged descriptions: sound columns of each kind and format, with offset 0 and with offset 2, at the depths 1 to 3, and each with one
 * rule of 01 broken at a time. Every change has the ground that 01 names for it, 0 where 01 allows it. A line for each column says how
 * many changes there were and how many answers differ; before it stands what differs.
 *     cc -I include tests/c/damage*.c tests/c/column.c tests/c/lent.c -L target/staticlib -llafkuno -o damage && ./damage | diff - tests/c/damage.out
 * Every slice is lent at its own size between guards; with --bare there are none, and valgrind sees every step outside. */
#include "damage.h"
#include <string.h>

/* ---- numbers */

/* An entry for each of the 2 rows before the offset and the 9 rows of the column. */
static void column_of_numbers(uint32_t depth, uint32_t off, const char *format, uint32_t w) {
    static const uint8_t list[11] = {0, 1, 2, 3, 4, 5, 6, 7, 8, 9, 10};
    struct test t = above(depth, off);
    uint32_t k = t.c.nodes;
    rows(&t, format, 0);
    third_null(&t);
    numbers(&t.c, BUFFER_1, w, list, off + 9);
    sound(&t);
    any_node(&t, k, off);
    whole_buffer(&t, k, BUFFER_1);
    mask(&t, k, 1);
    no_rows(&t);
    finish(&t, "", format);
}

/* ---- dictionaries */

static void lay_keys(struct test *t, const char *format, uint32_t w) {
    static const uint8_t list[11] = {0, 1, 2, 0, 2, 2, 1, 1, 2, 0, 2};
    uint32_t k = t->c.nodes;
    rows(t, format, 0);
    third_null(t);
    numbers(&t->c, BUFFER_1, w, list, t->off + 9);
    t->c.schema[5 * k + DICTIONARY] = 1;
}

static void key_row(struct test *t, struct slots s, uint32_t row) {
    change_number(t, "key is the number of entries", s, row, 3, BAD);
    change_number(t, "key is -1, or the largest", s, row, UINT64_MAX, BAD);
}

static void keys(struct test *t, uint32_t k, uint32_t w) {
    struct slots s = slots_of(&t->c, k, BUFFER_1, w);
    any_node(t, k, t->off);
    whole_buffer(t, k, BUFFER_1);
    mask(t, k, 1);
    key_row(t, s, t->off);
    key_row(t, s, t->off + 4);
    key_row(t, s, t->off + 8);
    change_number(t, "key under a null", s, t->off + 2, UINT64_MAX, FINE);
    change_letter(t, "keys of floats", k, 0, 'f', TYPE);
    change_letter(t, "keys of strings", k, 0, 'u', TYPE);
    change_schema(t, "keys without a dictionary", k, DICTIONARY, 0, TYPE);
    change_length(t, "dictionary is an entry short", k + 1, LENGTH, 2, BAD);
    change_schema(t, "a dictionary of a dictionary", k + 1, DICTIONARY, 1, TYPE);
    if (t->off != 0) change_number(t, "key before the offset", s, 0, UINT64_MAX, FINE);
}

/* A dictionary of three numbers with an offset of 1. */
static void column_of_keys(uint32_t depth, uint32_t off, const char *format, uint32_t w) {
    struct test t = above(depth, off);
    uint32_t k = t.c.nodes;
    lay_keys(&t, format, w);
    node(&t.c, "s", 0, 3, 1);
    numbers(&t.c, BUFFER_1, 2, NULL, 4);
    sound(&t);
    keys(&t, k, w);
    whole_buffer(&t, k + 1, BUFFER_1);
    no_rows(&t);
    finish(&t, "dictionary ", format);
}

/* A dictionary of nine strings. */
static void column_of_words(uint32_t depth, uint32_t off, const char *format, uint32_t w) {
    struct test t = above(depth, off);
    uint32_t k = t.c.nodes + 1;
    lay_keys(&t, "C", 1);
    lay_strings(&t, format, w);
    sound(&t);
    strings(&t, k, w);
    finish(&t, "dictionary of ", format);
}

/* ---- all */

static void kinds(uint32_t depth, uint32_t off) {
    for (const char *f = "cCsSiIlLfg"; *f; f++) column_of_numbers(depth, off, (const char[2]){*f}, width(*f));
    column_of_strings(depth, off, "z", 4);
    column_of_strings(depth, off, "u", 4);
    column_of_strings(depth, off, "Z", 8);
    column_of_strings(depth, off, "U", 8);
    column_of_views(depth, off, "vz");
    column_of_views(depth, off, "vu");
    column_of_list_views(depth, off, "+vl", 4);
    column_of_list_views(depth, off, "+vL", 8);
    column_of_lists(depth, off, "+l", 4);
    column_of_lists(depth, off, "+L", 8);
    column_of_sparse(depth, off);
    column_of_dense(depth, off);
    for (const char *f = "sil"; *f; f++) column_of_runs(depth, off, (const char[2]){*f}, width(*f));
}

static void dictionaries(uint32_t depth, uint32_t off) {
    for (const char *f = "cCsSiIlL"; *f; f++) column_of_keys(depth, off, (const char[2]){*f}, width(*f));
    column_of_words(depth, off, "u", 4);
    column_of_words(depth, off, "Z", 8);
}

int main(int count, char **arguments) {
    lent_bare = count > 1 && strcmp(arguments[1], "--bare") == 0;
    for (uint32_t depth = 1; depth <= 3; depth++) {
        for (uint32_t off = 0; off <= 2; off += 2) {
            kinds(depth, off);
            dictionaries(depth, off);
        }
    }
    return wrong_answers != 0;
}
