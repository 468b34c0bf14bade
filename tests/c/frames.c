/* The box around rows (02, W11): a sliced pair first, zeros of both signs, NaNs, infinities, nulls, and grounds that meet. A line has the
 * bits of the smallest and largest latitude and longitude, or the ground.
 *     cc -I include tests/c/frames.c tests/c/column.c tests/c/lent.c -L target/staticlib -llafkuno -o frames
 *     ./frames | diff - tests/c/frames.out
 * Every slice is lent at its own size between guards; with --bare there are none, and valgrind sees every step outside. */
#include "column.h"
#include <stdio.h>
#include <string.h>

enum { SLOTS = 6, SIDES = 4 };

/* The bits of an f64. */
static const uint64_t far = 0x40c3880000000000; /* 10000 */
static const uint64_t minus_zero = 0x8000000000000000;
static const uint64_t infinity = 0x7ff0000000000000, minus_infinity = 0xfff0000000000000;

/* A column of six slots of 8 bytes behind those that are there. */
static void add(struct column *c, const char *format, const uint64_t *values, uint8_t bits, uint64_t length, uint64_t offset) {
    node(c, format, 0, length, offset);
    wide_numbers(c, BUFFER_1, 8, values, SLOTS);
    validity(c, bits, 0xff);
}

/* Two columns of f64 with all of their slots. */
static struct column pair(const uint64_t *lat, uint8_t lat_bits, const uint64_t *lon, uint8_t lon_bits) {
    struct column c = no_column();
    add(&c, "g", lat, lat_bits, SLOTS, 0);
    add(&c, "g", lon, lon_bits, SLOTS, 0);
    return c;
}

/* Rows of the column at node 0 and the column at node 1. */
static void show(const char *what, const struct column *c, uint64_t start, uint64_t end) {
    lend_column(c);
    lend_answer(SIDES);
    uint8_t ground = lafkuno_frame(TABLES, 0, 1, 1, 1, start, end, (double *)lent[ANSWER].start, SIDES);
    int kept = answer_kept();
    printf("%s:", what);
    if (ground != FINE) printf(" %d%s", ground, kept ? "" : " CHANGED");
    for (int i = 0; ground == FINE && i < SIDES; i++) printf(" %016llx", (unsigned long long)((uint64_t *)lent[ANSWER].start)[i]);
    putchar('\n');
}

/* Rows 1 to 3 of the slice that begins at slot 2 of six: the slots 3 to 5. */
static void sliced(void) {
    const uint64_t lat[SLOTS] = {far, far, far, 0x404a000000000000, 0x404b800000000000, 0x4049800000000000}; /* 52, 55, 51 */
    const uint64_t lon[SLOTS] = {far, far, far, 0xc008000000000000, 0x4000000000000000, 0xc010000000000000}; /* -3, 2, -4 */
    struct column c = no_column();
    add(&c, "g", lat, 0xff, 4, 2);
    add(&c, "g", lon, 0xff, 4, 2);
    show("sliced 1..4", &c, 1, 4);
    show("sliced 1..3", &c, 1, 3);
    show("sliced 3..4", &c, 3, 4);
    show("sliced 0..4", &c, 0, 4);
    show("no rows", &c, 2, 2);
    show("past the slice", &c, 1, 5);
    show("end before start", &c, 3, 2);
}

/* Of equal values the first stays; zeros of both signs are equal. */
static void zeros(void) {
    const uint64_t lat[SLOTS] = {minus_zero, 0, minus_zero, 0, 0, 0};
    const uint64_t lon[SLOTS] = {0, minus_zero, 0, minus_zero, minus_zero, minus_zero};
    struct column c = pair(lat, 0xff, lon, 0xff);
    show("zeros 0..4", &c, 0, 4);
    show("zeros 1..4", &c, 1, 4);
}

/* NaNs of any payload and sign, infinities, and nulls over values that would count. */
static void numbers_and_others(void) {
    const uint64_t lat[SLOTS] = {infinity + 1, 0x3ff0000000000000, infinity, 0xfff8000000001234, minus_infinity, 0x4000000000000000};
    const uint64_t lon[SLOTS] = {0x4024000000000000, 0x7fffffffffffffff, 0x3ff0000000000000, 0, 0, 0x4008000000000000};
    struct column c = pair(lat, 0xff, lon, 0xff);
    show("NaNs only", &c, 0, 2);
    show("infinity and NaN", &c, 0, 4);
    show("both infinities", &c, 0, 6);
    c = pair(lat, 0xdf, lon, 0xef);
    show("a null on either side", &c, 0, 6);
    c = pair(lat, 0xff, lon, 0x00);
    show("all null", &c, 0, 6);
}

/* Two columns of zeros, the second of which has the offset 0. */
static struct column plain(const char *format, uint64_t offset, const char *next_format, uint64_t next_length) {
    static const uint64_t values[SLOTS];
    struct column c = no_column();
    add(&c, format, values, 0xff, SLOTS, offset);
    add(&c, next_format, values, 0xff, next_length, 0);
    return c;
}

/* 2 before 10, both asked of both columns. */
static void grounds(void) {
    struct column c = plain("g", 0, "l", 5);
    show("a range outside the second, of another format", &c, 0, 6);
    show("a second of another format", &c, 0, 5);
    c = plain("l", 0, "g", SLOTS);
    show("a first of another format", &c, 0, 6);
    c = plain("g", 1, "?", SLOTS);
    show("10 of the second before 12 of the first", &c, 0, 9);
    c = plain("g", 1, "g", SLOTS);
    show("12 of the first", &c, 0, 9);
}

int main(int count, char **arguments) {
    lent_bare = count > 1 && strcmp(arguments[1], "--bare") == 0;
    sliced();
    zeros();
    numbers_and_others();
    grounds();
}
