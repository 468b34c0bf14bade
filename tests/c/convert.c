/* A list as a list-view and back (02, W4), and a column in other widths (02, W13: convert_widths.c): a sliced list first, null rows over stops, rows that overlap, children of every kind, sums one above the
 * limit, and grounds that meet. A line has what was asked, and the parts of the result with its rows, which are read again and are the column's; or
 * the ground.
 *     cc -I include tests/c/convert*.c tests/c/column.c tests/c/lent.c -L target/staticlib -llafkuno -llafkuno_anew -o convert
 *     ./convert | diff - tests/c/convert.out
 * Every slice is lent at its own size between guards; with --bare there are none, and valgrind sees every step outside. */
#include "convert.h"
#include <string.h>

/* Five numbers below a list, the fourth null. */
static void five(struct column *c) {
    node(c, "C", 0, 5, 0);
    const uint8_t bytes[5] = {10, 11, 12, 13, 14};
    numbers(c, BUFFER_1, 1, bytes, 5);
    validity(c, 0xf7, 0xff);
}

/* Five trips, cut behind the first: one stop, null over two, none, one. */
static struct column trips(const char *list, const char *view, uint32_t w) {
    const uint64_t offsets[6] = {0, 1, 2, 4, 4, 5};
    struct column c = no_column();
    node(&c, list, 1, 4, 1);
    wide_numbers(&c, BUFFER_1, w, offsets, 6);
    validity(&c, 0x1b, 0xff);
    five(&c);
    type(&c, view, 1);
    type(&c, "C", 0);
    return c;
}

/* The same trips as stretches that overlap; the second, null, and the third, empty, stand far behind. */
static struct column stretches(const char *view, const char *list, uint32_t w) {
    const uint64_t offsets[5] = {9, 1, 3, 5, 0}, sizes[5] = {9, 2, 2, 0, 3};
    struct column c = no_column();
    node(&c, view, 1, 4, 1);
    wide_numbers(&c, BUFFER_1, w, offsets, 5);
    wide_numbers(&c, BUFFER_2, w, sizes, 5);
    validity(&c, 0x1b, 0xff);
    five(&c);
    type(&c, list, 1);
    type(&c, "C", 0);
    return c;
}

static void sliced(void) {
    const struct pair p = {0, 2, 2, 2};
    struct column c = trips("+l", "+vl", 4);
    show("sliced list", &c, TO_LIST_VIEW, p);
    show_wrong("a byte short", &c, TO_LIST_VIEW, p, (struct wrong){1, 0, 0, 0});
    c = trips("+L", "+vL", 8);
    show("sliced large list", &c, TO_LIST_VIEW, p);
    c = stretches("+vl", "+l", 4);
    show("sliced list-view", &c, TO_LIST, p);
    show_wrong("a byte short", &c, TO_LIST, p, (struct wrong){1, 0, 0, 0});
    c = stretches("+vL", "+L", 8);
    show("sliced large list-view", &c, TO_LIST, p);
    c = trips("+l", "+vl", 4);
    c.lengths[LENGTH] = 0;
    show("no rows", &c, TO_LIST_VIEW, p);
    c.places[BUFFER_1 + 1] = 0;
    show("no rows and no offsets", &c, TO_LIST_VIEW, p);
    c = stretches("+vl", "+l", 4);
    c.lengths[LENGTH] = 0;
    show("no stretches", &c, TO_LIST, p);
    c = trips("+l", "+vl", 4);
    c.lengths[OFFSET] = 3;
    c.lengths[LENGTH] = 2;
    show("no null in the slice", &c, TO_LIST_VIEW, p);
    c.body[c.places[9 + VALIDITY]] = 0xff;
    show("and none below", &c, TO_LIST_VIEW, p);
}

/* Two rows over all five rows of a child, and over its rows 1 to 3, behind a root with an offset. */
static void over(struct column *c) {
    const uint64_t offsets[3] = {7, 0, 1}, sizes[3] = {7, 5, 3};
    node(c, "+vl", 1, 2, 1);
    wide_numbers(c, BUFFER_1, 4, offsets, 3);
    wide_numbers(c, BUFFER_2, 4, sizes, 3);
}

static void byte_strings(void) {
    const uint64_t offsets[7] = {9, 1, 3, 3, 4, 7, 8};
    const uint8_t text[8] = "-abcdefg";
    struct column c = no_column();
    over(&c);
    node(&c, "u", 0, 5, 1);
    wide_numbers(&c, BUFFER_1, 4, offsets, 7);
    numbers(&c, BUFFER_2, 1, text, 8);
    type(&c, "+l", 1);
    type(&c, "u", 0);
    show("byte strings", &c, TO_LIST, (struct pair){0, 2, 2, 2});
}

static void runs(void) {
    const uint64_t ends[3] = {2, 5, 9};
    const uint8_t values[3] = {65, 66, 67};
    struct column c = no_column();
    over(&c);
    node(&c, "+r", 2, 8, 1);
    node(&c, "s", 0, 3, 0);
    wide_numbers(&c, BUFFER_1, 2, ends, 3);
    node(&c, "C", 0, 3, 0);
    numbers(&c, BUFFER_1, 1, values, 3);
    type(&c, "+l", 1);
    type(&c, "+r", 2);
    type(&c, "s", 0);
    type(&c, "C", 0);
    show("runs are clipped, not joined", &c, TO_LIST, (struct pair){0, 4, 4, 4});
}

static void unions(void) {
    const uint8_t ids[5] = {7, 5, 7, 5, 7}, numbers_below[3] = {1, 2, 3};
    const uint64_t positions[5] = {0, 1, 2, 0, 1};
    struct column c = no_column();
    over(&c);
    node(&c, "+ud:5,7", 2, 5, 0);
    numbers(&c, BUFFER_1, 1, ids, 5);
    wide_numbers(&c, BUFFER_2, 4, positions, 5);
    node(&c, "C", 0, 2, 1);
    numbers(&c, BUFFER_1, 1, numbers_below, 3);
    node(&c, "c", 0, 3, 0);
    numbers(&c, BUFFER_1, 1, numbers_below, 3);
    validity(&c, 0x05, 0);
    type(&c, "+l", 1);
    type(&c, "+ud:5,7", 2);
    type(&c, "C", 0);
    type(&c, "c", 0);
    show("a dense union", &c, TO_LIST, (struct pair){0, 4, 4, 4});
}

/* Short views, one null over anything, and one of 13 bytes: data buffers are named, not copied. */
static void byte_views(void) {
    struct column c = no_column();
    over(&c);
    node(&c, "vu", 0, 5, 0);
    uint8_t views[80] = {2, 0, 0, 0, 'h', 'i', 0, 0, 0, 0, 0, 0, 0, 0, 0, 0, 13, 0, 0, 0, 'b', 'c', 'd', 'e', 0, 0, 0, 0, 1, 0, 0, 0};
    memset(views + 32, 0xee, 16);
    numbers(&c, BUFFER_1, 1, views, 80);
    validity(&c, 0xfb, 0xff);
    const uint64_t place = c.places[9 + BUFFER_1], bytes = c.places[9 + BUFFER_1 + 1];
    data(&c, 'a');
    c.places[9 + BUFFER_1] = place;
    c.places[9 + BUFFER_1 + 1] = bytes;
    type(&c, "+l", 1);
    type(&c, "vu", 0);
    show("byte views", &c, TO_LIST, (struct pair){0, 2, 2, 2});
    const uint64_t offsets[3] = {0, 2, 5};
    c = no_column();
    node(&c, "+l", 1, 2, 0);
    wide_numbers(&c, BUFFER_1, 4, offsets, 3);
    node(&c, "vu", 0, 5, 0);
    numbers(&c, BUFFER_1, 1, views, 80);
    validity(&c, 0xfb, 0xff);
    data(&c, 'a');
    type(&c, "+vl", 1);
    type(&c, "vu", 0);
    show("byte views that are kept", &c, TO_LIST_VIEW, (struct pair){0, 2, 2, 2});
}

/* 257 entries under keys of format C, which no opening takes. */
static void entries(void) {
    const uint8_t keys[5] = {255, 0, 3, 255, 9};
    struct column c = no_column();
    over(&c);
    node(&c, "C", 0, 5, 0);
    numbers(&c, BUFFER_1, 1, keys, 5);
    validity(&c, 0xef, 0xff);
    c.schema[5 + DICTIONARY] = 1;
    node(&c, "C", 0, 257, 0);
    uint8_t all[257];
    for (unsigned i = 0; i < 257; i++) all[i] = (uint8_t)(3 * i);
    numbers(&c, BUFFER_1, 1, all, 257);
    type(&c, "+l", 1);
    type(&c, "C", 0);
    c.schema[20 + DICTIONARY] = 1;
    type(&c, "C", 0);
    show("257 entries under C", &c, TO_LIST, (struct pair){0, 3, 3, 3});
}

/* Views of so many rows each over one run, with run ends of a format. */
static struct column long_runs(const char *view, const char *list, uint32_t w, const char *ends, uint64_t a, uint64_t b, uint64_t rows) {
    const uint64_t zeros[2] = {0, 0}, sizes[2] = {a, b};
    const uint8_t seven = 7;
    struct column c = no_column();
    node(&c, view, 1, 2, 0);
    wide_numbers(&c, BUFFER_1, w, zeros, 2);
    wide_numbers(&c, BUFFER_2, w, sizes, 2);
    node(&c, "+r", 2, rows, 0);
    node(&c, ends, 0, 1, 0);
    wide_numbers(&c, BUFFER_1, width(*ends), &rows, 1);
    node(&c, "C", 0, 1, 0);
    numbers(&c, BUFFER_1, 1, &seven, 1);
    type(&c, list, 1);
    type(&c, "+r", 2);
    type(&c, ends, 0);
    type(&c, "C", 0);
    return c;
}

static void limits(void) {
    const uint64_t half = (uint64_t)1 << 30;
    const struct pair p = {0, 4, 4, 4};
    struct column c = long_runs("+vl", "+l", 4, "l", half, half - 1, half);
    show_ground("2^31 - 1 rows", &c, TO_LIST, p);
    c = long_runs("+vl", "+l", 4, "l", half, half, half);
    show_ground("2^31 rows", &c, TO_LIST, p);
    c = long_runs("+vl", "+l", 4, "i", half, half, half);
    show_ground("6 before the child's 7", &c, TO_LIST, p);
    c = long_runs("+vL", "+L", 8, "i", half, half, half);
    show_ground("the child's 7", &c, TO_LIST, p);
    c = long_runs("+vL", "+L", 8, "s", 16384, 16383, 32767);
    show_ground("32767 rows of runs of s", &c, TO_LIST, p);
    c = long_runs("+vL", "+L", 8, "s", 16384, 16384, 32767);
    show_ground("32768 rows of runs of s", &c, TO_LIST, p);
    show_wrong("7 before 14", &c, TO_LIST, p, (struct wrong){0, 0, 1, 0});
}

/* Lists in lists down to depth 8, where the ninth level is one too many. */
static void deep(void) {
    for (uint32_t levels = 7; levels <= 8; levels++) {
        const uint64_t offsets[2] = {0, 1};
        const uint8_t one = 1;
        struct column c = no_column();
        for (uint32_t k = 0; k < levels; k++) {
            node(&c, "+l", 1, 1, 0);
            wide_numbers(&c, BUFFER_1, 4, offsets, 2);
        }
        node(&c, "C", 0, 1, 0);
        numbers(&c, BUFFER_1, 1, &one, 1);
        type(&c, "+vl", 1);
        for (uint32_t k = 1; k < levels; k++) type(&c, "+l", 1);
        type(&c, "C", 0);
        show(levels == 7 ? "depth 8" : "depth 9", &c, TO_LIST_VIEW, (struct pair){0, levels + 1, levels + 1, levels + 1});
    }
}

/* 9, 10 and 12 of the column, 10 of the target, 14, 13. */
static void grounds(void) {
    const struct pair p = {0, 2, 2, 2};
    struct column c = trips("+l", "+vl", 4), d = stretches("+vl", "+l", 4);
    show("a list to a list", &c, TO_LIST, p);
    show("a list-view to a list-view", &d, TO_LIST_VIEW, p);
    show("its own type", &c, TO_LIST_VIEW, (struct pair){0, 2, 0, 2});
    show("the numbers below", &c, TO_LIST_VIEW, (struct pair){1, 1, 3, 1});
    show("a target of one node", &c, TO_LIST_VIEW, (struct pair){0, 2, 2, 1});
    show("a target that is not there", &c, TO_LIST_VIEW, (struct pair){0, 2, 4, 2});
    show("a target at the last number", &c, TO_LIST_VIEW, (struct pair){0, 2, UINT32_MAX, 2});
    c = trips("+l", "+vL", 4);
    show("another width", &c, TO_LIST_VIEW, p);
    c = trips("+l", "+vl", 4);
    c.formats[c.chars - 1] = 'c';
    show("another child", &c, TO_LIST_VIEW, p);
    c.lengths[LENGTH] = 9;
    show("12 before 10", &c, TO_LIST_VIEW, p);
    c.lengths[OFFSET] = UINT64_MAX;
    show("9 before 12", &c, TO_LIST_VIEW, p);
    c = trips("+l", "+vl", 4);
    c.schema[15 + FLAGS] = 0;
    show("a child that is not nullable", &c, TO_LIST_VIEW, p);
    c.schema[15 + FLAGS] = 2;
    c.schema[10 + FLAGS] = 0;
    show("a root that is not nullable", &c, TO_LIST_VIEW, p);
    c = stretches("+vl", "+l", 4);
    show_wrong("a plan too short", &c, TO_LIST, p, (struct wrong){0, 0, 1, 0});
    show_wrong("a part too many", &c, TO_LIST, p, (struct wrong){0, 1, 0, 0});
    show_wrong("two parts that overlap", &c, TO_LIST, p, (struct wrong){0, 0, 0, 1});
    show_wrong("14 before 13", &c, TO_LIST, p, (struct wrong){1, 0, 0, 1});
}

int main(int count, char **arguments) {
    lent_bare = count > 1 && strcmp(arguments[1], "--bare") == 0;
    sliced();
    byte_strings();
    runs();
    unions();
    byte_views();
    entries();
    limits();
    deep();
    grounds();
    show_widths();
    return 0;
}
