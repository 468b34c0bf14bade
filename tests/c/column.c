#include "column.h"
#include <stdio.h>
#include <stdlib.h>
#include <string.h>

struct slice lent[SLICES];
unsigned wrong_answers;

/* ---- laying */

static void ask_for(int fits) {
    if (fits) return;
    fputs("a column does not fit its tables\n", stderr);
    exit(2);
}

struct column no_column(void) {
    struct column c = {.used = 2};
    memset(c.body, 0xff, BODY);
    return c;
}

void node(struct column *c, const char *format, uint32_t children, uint64_t length, uint64_t offset) {
    uint32_t k = c->nodes++, size = (uint32_t)strlen(format);
    const uint32_t schema[5] = {c->chars, size, 2, children, 0};
    ask_for(k < NODES && c->chars + size <= CHARS);
    memcpy(c->formats + c->chars, format, size);
    c->chars += size;
    memcpy(c->schema + 5 * k, schema, sizeof schema);
    c->lengths[2 * k + LENGTH] = length;
    c->lengths[2 * k + OFFSET] = offset;
}

uint32_t width(char format) {
    return strchr("cC", format) ? 1 : strchr("sS", format) ? 2 : strchr("iIf", format) ? 4 : 8;
}

void put_number(struct column *c, uint32_t at, uint32_t w, uint64_t v) {
    ask_for(at + w <= BODY);
    memcpy(c->body + at, &v, w); /* the machine is little-endian */
}

/* The body's next bytes as a buffer of the last node, and where they begin. */
static uint32_t next_bytes(struct column *c, uint32_t buffer, uint32_t size) {
    uint64_t *place = c->places + 9 * (c->nodes - 1) + buffer;
    uint32_t at = c->used;
    place[0] = at;
    place[1] = size;
    c->used += size;
    ask_for(c->used <= BODY - 12);
    return at;
}

void numbers(struct column *c, uint32_t buffer, uint32_t w, const uint8_t *list, uint32_t n) {
    uint32_t at = next_bytes(c, buffer, w * n);
    for (uint32_t i = 0; list && i < n; i++) put_number(c, at + w * i, w, list[i]);
}

void wide_numbers(struct column *c, uint32_t buffer, uint32_t w, const uint64_t *list, uint32_t n) {
    uint32_t at = next_bytes(c, buffer, w * n);
    for (uint32_t i = 0; i < n; i++) put_number(c, at + w * i, w, list[i]);
}

void validity(struct column *c, uint8_t bits, uint8_t more) {
    const uint8_t both[2] = {bits, more};
    numbers(c, VALIDITY, 1, both, 2);
    c->places[9 * (c->nodes - 1) + HAS_VALIDITY] = 1;
}

void data(struct column *c, uint8_t first) {
    uint64_t *places = c->places + 9 * (c->nodes - 1);
    uint8_t bytes[20];
    ask_for(c->ranges < RANGES);
    for (uint8_t i = 0; i < 20; i++) bytes[i] = (uint8_t)(first + i);
    numbers(c, BUFFER_2, 1, bytes, 20);
    memcpy(c->buffers + 2 * c->ranges, places + BUFFER_2, 16);
    places[DATA_COUNT] = ++c->ranges;
}

/* ---- lending */

void lend(int k, const void *from, size_t size) {
    slice_resize(&lent[k], size);
    memcpy(lent[k].start, from, size);
}

static void lend_tables(const struct column *c, size_t nodes, size_t ranges, size_t chars, size_t bytes) {
    lend(FORMATS, c->formats, chars);
    lend(SCHEMA, c->schema, 20 * nodes);
    lend(LENGTHS, c->lengths, 16 * nodes);
    lend(PLACES, c->places, 72 * nodes);
    lend(BUFFERS, c->buffers, 16 * ranges);
    lend(BYTES_OF_BODY, c->body, bytes);
    slice_resize(&lent[SOURCES], 0);
}

void lend_column(const struct column *c) {
    lend_tables(c, c->nodes, c->ranges, c->chars, c->used);
}

void lend_whole(const struct column *c) {
    lend_tables(c, NODES, RANGES, CHARS, BODY);
}

void lend_answer(size_t n) {
    slice_resize(&lent[ANSWER], 8 * n);
    memset(lent[ANSWER].start, 0xa5, 8 * n);
    slices_keep(lent, SLICES);
}

int answer_kept(void) {
    return slices_kept(lent, SLICES, (uint32_t)1 << ANSWER);
}

/* ---- asking */

uint8_t ground_of_lent(uint32_t n) {
    lend_answer(LAFKUNO_TREE);
    uint8_t ground = lafkuno_column_ground(TABLES, 0, n);
    slices_kept(lent, SLICES, 0);
    uint8_t opened = lafkuno_open_column(TABLES, 0, n, LONGS(ANSWER));
    return answer_kept() == (ground != FINE) && opened == ground ? ground : UINT8_MAX;
}

void judge(struct test *t, const char *what, uint8_t ground, uint8_t answer) {
    t->changes++;
    if (answer == ground) return;
    printf("%s %d %d\n", what, ground, answer);
    t->wrong++;
    wrong_answers++;
}

void finish(const struct test *t, const char *prefix, const char *name) {
    printf("%s%s depth %u offset %u: %u changes, %u differ\n", prefix, name, t->depth, t->off, t->changes, t->wrong);
}
