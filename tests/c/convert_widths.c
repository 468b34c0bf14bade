/* A column in other widths (02, W13): each kind up and down, a sliced list first; spans that fit though the last offset does not, a null row with a
 * far offset, numbers one above each limit, sliced unions and runs, views through both steps, depth 8, and grounds that meet. */
#include "convert.h"
#include <string.h>

static const struct pair one = {0, 1, 1, 1}, two = {0, 2, 2, 2}, three = {0, 3, 3, 3}, four = {0, 4, 4, 4};

/* ---- each kind */

static void sliced_lists(const char *from, const char *to, uint32_t w) {
    const uint64_t offsets[5] = {1, 2, 4, 4, 6};
    const uint8_t stops[6] = {10, 11, 12, 13, 14, 15};
    struct column c = no_column();
    node(&c, from, 1, 3, 1);
    wide_numbers(&c, BUFFER_1, w, offsets, 5);
    validity(&c, 0x16, 0xff);
    node(&c, "C", 0, 6, 0);
    numbers(&c, BUFFER_1, 1, stops, 6);
    type(&c, to, 1);
    type(&c, "C", 0);
    show(from, &c, TO_WIDTHS, two);
}

/* Names from slot 1 on: two bytes, null over one, none, two. */
static void names(const char *from, const char *to, uint32_t w) {
    const uint64_t offsets[6] = {1, 2, 4, 5, 5, 7};
    const uint8_t bytes[7] = {'-', 'a', 'b', 'c', 'd', 'e', 'f'};
    struct column c = no_column();
    node(&c, from, 0, 4, 1);
    wide_numbers(&c, BUFFER_1, w, offsets, 6);
    numbers(&c, BUFFER_2, 1, bytes, 7);
    validity(&c, 0x1b, 0xff);
    type(&c, to, 0);
    show(from, &c, TO_WIDTHS, one);
    c.lengths[LENGTH] = 0;
    c.places[BUFFER_1 + 1] = 0;
    show("no rows and no offsets", &c, TO_WIDTHS, one);
}

/* Stops of two trips from slot 1 on, the first null over a stop; the child, from slot 1 on, keeps all of its rows. */
static void stretches(const char *from, const char *to, uint32_t w) {
    const uint64_t offsets[3] = {9, 3, 1}, sizes[3] = {9, 1, 2};
    const uint8_t stops[5] = {9, 10, 11, 12, 13};
    struct column c = no_column();
    node(&c, from, 1, 2, 1);
    wide_numbers(&c, BUFFER_1, w, offsets, 3);
    wide_numbers(&c, BUFFER_2, w, sizes, 3);
    validity(&c, 0x05, 0xff);
    node(&c, "C", 0, 4, 1);
    numbers(&c, BUFFER_1, 1, stops, 5);
    type(&c, to, 1);
    type(&c, "C", 0);
    show(from, &c, TO_WIDTHS, two);
}

/* 01's K1: run ends 2, 5, 9 over A B C, from slot 1 on; the values from slot 1 on, B null. */
static void runs(const char *from, const char *to, uint64_t length, uint64_t offset) {
    const uint64_t ends[3] = {2, 5, 9};
    const uint8_t values[4] = {9, 65, 66, 67};
    struct column c = no_column();
    node(&c, "+r", 2, length, offset);
    node(&c, from, 0, 3, 0);
    wide_numbers(&c, BUFFER_1, width(*from), ends, 3);
    node(&c, "C", 0, 3, 1);
    numbers(&c, BUFFER_1, 1, values, 4);
    validity(&c, 0x0b, 0xff);
    type(&c, "+r", 2);
    type(&c, to, 0);
    type(&c, "C", 0);
    show(from, &c, TO_WIDTHS, three);
}

/* Keys from slot 1 on, with ones under a null, over entries from slot 1 on, of which one is null. */
static void keys(const char *from, const char *to) {
    const uint64_t list[4] = {9, 2, UINT64_MAX, 1}, offsets[5] = {0, 1, 2, 4, 5};
    const uint8_t bytes[5] = {'-', 'a', 'b', 'c', 'd'};
    struct column c = no_column();
    node(&c, from, 0, 3, 1);
    wide_numbers(&c, BUFFER_1, width(*from), list, 4);
    validity(&c, 0x0a, 0xff);
    c.schema[DICTIONARY] = 1;
    node(&c, "u", 0, 3, 1);
    wide_numbers(&c, BUFFER_1, 4, offsets, 5);
    numbers(&c, BUFFER_2, 1, bytes, 5);
    validity(&c, 0x0b, 0xff);
    type(&c, to, 0);
    c.schema[10 + DICTIONARY] = 1;
    type(&c, "U", 0);
    show(to, &c, TO_WIDTHS, two);
}

static void kinds(void) {
    sliced_lists("+l", "+L", 4);
    sliced_lists("+L", "+l", 8);
    sliced_lists("+l", "+l", 4);
    names("u", "U", 4);
    names("Z", "z", 8);
    stretches("+vl", "+vL", 4);
    stretches("+vL", "+vl", 8);
    runs("l", "s", 8, 1);
    runs("s", "i", 3, 4);
    runs("i", "l", 0, 9);
    const char *formats[8] = {"c", "C", "s", "S", "i", "I", "l", "L"};
    for (int k = 0; k < 8; k++) keys(formats[(3 * k + 5) % 8], formats[k]);
}

/* ---- limits */

/* One list, or one stretch, over one run of so many rows, with other run ends. */
static struct column over_run(const char *from, const char *to, uint64_t a, uint64_t b, const char *ends, uint64_t rows) {
    const uint64_t pair[2] = {a, b};
    const uint8_t seven = 7;
    struct column c = no_column();
    node(&c, from, 1, 1, 0);
    if (from[1] == 'v') {
        wide_numbers(&c, BUFFER_1, 8, pair, 1);
        wide_numbers(&c, BUFFER_2, 8, pair + 1, 1);
        validity(&c, 0, 0);
    } else {
        wide_numbers(&c, BUFFER_1, 8, pair, 2);
    }
    node(&c, "+r", 2, rows, 0);
    node(&c, "l", 0, 1, 0);
    wide_numbers(&c, BUFFER_1, 8, &rows, 1);
    node(&c, "C", 0, 1, 0);
    numbers(&c, BUFFER_1, 1, &seven, 1);
    type(&c, to, 1);
    type(&c, "+r", 2);
    type(&c, ends, 0);
    type(&c, "C", 0);
    return c;
}

static void limits(void) {
    const uint64_t top = (uint64_t)1 << 31;
    struct column c = over_run("+L", "+l", 0, top - 1, "i", top);
    show_ground("a span of 2^31 - 1", &c, TO_WIDTHS, four);
    c = over_run("+L", "+l", 0, top, "s", top);
    show_ground("a span of 2^31, before 7", &c, TO_WIDTHS, four);
    c = over_run("+L", "+l", top, 2 * top - 1, "i", 2 * top);
    show_ground("a far span that fits", &c, TO_WIDTHS, four);
    c = over_run("+L", "+l", top, top + 32768, "s", 2 * top);
    show_ground("its runs do not", &c, TO_WIDTHS, four);
    c = over_run("+vL", "+vl", top - 1, 0, "l", 2 * top);
    show_ground("a null row's offset of 2^31 - 1", &c, TO_WIDTHS, four);
    c = over_run("+vL", "+vl", top, 0, "l", 2 * top);
    show_ground("a null row's offset of 2^31", &c, TO_WIDTHS, four);
    c = over_run("+vL", "+vl", 0, top, "l", 2 * top);
    show_ground("a null row's size of 2^31", &c, TO_WIDTHS, four);
    c = over_run("+vL", "+vl", 0, 0, "i", top - 1);
    show_ground("all rows of the child fit", &c, TO_WIDTHS, four);
    c = over_run("+vL", "+vl", 0, 0, "i", top);
    show_ground("one more does not", &c, TO_WIDTHS, four);
}

/* A key over so many entries of one byte. */
static struct column over_entries(const char *from, const char *to, uint32_t count) {
    const uint64_t key = 0;
    uint8_t all[257];
    struct column c = no_column();
    for (unsigned i = 0; i < 257; i++) all[i] = (uint8_t)(65 + i % 26);
    node(&c, from, 0, count != 0, 0);
    wide_numbers(&c, BUFFER_1, width(*from), &key, 1);
    c.schema[DICTIONARY] = 1;
    node(&c, "C", 0, count, 0);
    numbers(&c, BUFFER_1, 1, all, count);
    type(&c, to, 0);
    c.schema[10 + DICTIONARY] = 1;
    type(&c, "C", 0);
    return c;
}

static void entries(void) {
    static const struct {
        const char *what, *from, *to;
        uint32_t count;
    } cases[] = {{"256 entries under C", "s", "C", 256}, {"257 entries under C", "s", "C", 257}, {"their own type", "C", "C", 257},
                 {"wider", "C", "S", 257},               {"128 entries under c", "L", "c", 128}, {"129 entries under c", "L", "c", 129},
                 {"no entries", "i", "c", 0}};
    for (size_t k = 0; k < sizeof cases / sizeof *cases; k++) {
        struct column c = over_entries(cases[k].from, cases[k].to, cases[k].count);
        show(cases[k].what, &c, TO_WIDTHS, two);
    }
}

/* ---- nested */

/* Names and towns below a union, of which rows 1 and 2 are taken. */
static void unions(const char *format) {
    const uint8_t ids[4] = {3, 4, 4, 3}, bytes[8] = "abbcccdd";
    const uint64_t positions[4] = {3, 0, 2, 1}, offsets[5] = {0, 1, 3, 6, 8};
    struct column c = no_column();
    node(&c, format, 2, 2, 1);
    numbers(&c, BUFFER_1, 1, ids, 4);
    if (format[2] == 'd') wide_numbers(&c, BUFFER_2, 4, positions, 4);
    node(&c, "u", 0, 4, 0);
    wide_numbers(&c, BUFFER_1, 4, offsets, 5);
    numbers(&c, BUFFER_2, 1, bytes, 8);
    node(&c, "Z", 0, 4, 0);
    wide_numbers(&c, BUFFER_1, 8, offsets, 5);
    numbers(&c, BUFFER_2, 1, bytes, 8);
    validity(&c, 0x0d, 0);
    type(&c, format, 2);
    type(&c, "U", 0);
    type(&c, "z", 0);
    show(format, &c, TO_WIDTHS, three);
}

/* One short view and one of 13 bytes below a list; the result, with its view buffers in one body, is converted back. */
static void byte_views(void) {
    const uint8_t views[32] = {2, 0, 0, 0, 'h', 'i', 0, 0, 0, 0, 0, 0, 0, 0, 0, 0, 13, 0, 0, 0, 'b', 'c', 'd', 'e', 0, 0, 0, 0, 1, 0, 0, 0};
    const uint64_t offsets[3] = {0, 1, 2};
    struct column c = no_column();
    node(&c, "+l", 1, 2, 0);
    wide_numbers(&c, BUFFER_1, 4, offsets, 3);
    node(&c, "vu", 0, 2, 0);
    numbers(&c, BUFFER_1, 1, views, 32);
    data(&c, 'a');
    type(&c, "+L", 1);
    type(&c, "vu", 0);
    show("byte views", &c, TO_WIDTHS, two);
    show_back("byte views and back", &c, TO_WIDTHS, two);
}

static void deep(void) {
    const uint64_t offsets[2] = {0, 1};
    const uint8_t one_byte = 'x';
    struct column c = no_column();
    for (int k = 0; k < 7; k++) {
        node(&c, "+l", 1, 1, 0);
        wide_numbers(&c, BUFFER_1, 4, offsets, 2);
    }
    node(&c, "u", 0, 1, 0);
    wide_numbers(&c, BUFFER_1, 4, offsets, 2);
    numbers(&c, BUFFER_2, 1, &one_byte, 1);
    for (int k = 0; k < 7; k++) type(&c, "+L", 1);
    type(&c, "U", 0);
    show("depth 8", &c, TO_WIDTHS, (struct pair){0, 8, 8, 8});
}

/* ---- 9, 10 and 12 of the column, 10 of the target, 6, 7 or 8 in tree order, 14, 13 */

static void grounds(void) {
    struct column c = over_entries("s", "C", 257);
    show_wrong("8 before 14", &c, TO_WIDTHS, two, (struct wrong){0, 0, 1, 0});
    c.formats[c.chars - 1] = 'c';
    show("10 before 8", &c, TO_WIDTHS, two);
    c.lengths[LENGTH] = 2;
    show("12 before 10", &c, TO_WIDTHS, two);
    c.lengths[OFFSET] = UINT64_MAX;
    show("9 before 12", &c, TO_WIDTHS, two);
    c = over_entries("s", "C", 2);
    show("its own nodes as target", &c, TO_WIDTHS, (struct pair){0, 2, 0, 2});
    show("a target of one node", &c, TO_WIDTHS, (struct pair){0, 2, 2, 1});
    show("a target that is not there", &c, TO_WIDTHS, (struct pair){0, 2, 4, 2});
    show("a target at the last number", &c, TO_WIDTHS, (struct pair){0, 2, UINT32_MAX, 2});
    show("numbers have no widths", &c, TO_WIDTHS, (struct pair){1, 1, 0, 1});
    show_wrong("a byte short", &c, TO_WIDTHS, two, (struct wrong){1, 0, 0, 0});
    show_wrong("a plan too short", &c, TO_WIDTHS, two, (struct wrong){0, 0, 1, 0});
    show_wrong("a part too many", &c, TO_WIDTHS, two, (struct wrong){0, 1, 0, 0});
    show_wrong("14 before 13", &c, TO_WIDTHS, two, (struct wrong){1, 0, 0, 1});
    c.schema[15 + FLAGS] = 0;
    show("values that are not nullable", &c, TO_WIDTHS, two);
}

void show_widths(void) {
    kinds();
    limits();
    entries();
    unions("+us:3,4");
    unions("+ud:3,4");
    byte_views();
    deep();
    grounds();
}
