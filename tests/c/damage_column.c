/* Nodes of nine rows with what stands above them, and changes of one number. */
#include "damage.h"

/* ---- laying */

void rows(struct test *t, const char *format, uint32_t children) {
    node(&t->c, format, children, 9, t->off);
}

void third_null(struct test *t) {
    validity(&t->c, t->off == 0 ? 0xfb : 0xef, 0xff);
}

struct test above(uint32_t depth, uint32_t off) {
    static const uint8_t offsets[4] = {99, 0, 4, 9}, sizes[4] = {99, 9, 2, 0}, ends[9] = {1, 2, 3, 4, 5, 6, 7, 8, 9};
    struct test t = {.c = no_column(), .depth = depth, .off = off};
    if (depth == 1) return t;
    node(&t.c, "+vl", 1, 3, 1);
    validity(&t.c, 0x0b, 0);
    numbers(&t.c, BUFFER_1, 4, offsets, 4);
    numbers(&t.c, BUFFER_2, 4, sizes, 4);
    if (depth == 2) return t;
    node(&t.c, "+r", 2, 9, 0);
    node(&t.c, "s", 0, 9, 0);
    numbers(&t.c, BUFFER_1, 2, ends, 9);
    return t;
}

struct slots slots_of(const struct column *c, uint32_t k, uint32_t buffer, uint32_t w) {
    return (struct slots){(uint32_t)c->places[9 * k + buffer], w};
}

uint64_t negative(uint32_t w) {
    return (uint64_t)1 << (8 * w - 1);
}

/* ---- changing */

static void ask(struct test *t, const char *what, uint8_t ground, const struct column *c) {
    lend_whole(c);
    judge(t, what, ground, ground_of_lent(c->nodes));
}

void sound(struct test *t) {
    ask(t, "sound", FINE, &t->c);
}

void change_schema(struct test *t, const char *what, uint32_t k, uint32_t i, uint32_t v, uint8_t ground) {
    struct column d = t->c;
    d.schema[5 * k + i] = v;
    ask(t, what, ground, &d);
}

void change_length(struct test *t, const char *what, uint32_t k, uint32_t i, uint64_t v, uint8_t ground) {
    struct column d = t->c;
    d.lengths[2 * k + i] = v;
    ask(t, what, ground, &d);
}

void change_place(struct test *t, const char *what, uint32_t k, uint32_t i, uint64_t v, uint8_t ground) {
    struct column d = t->c;
    d.places[9 * k + i] = v;
    ask(t, what, ground, &d);
}

void change_buffer(struct test *t, const char *what, uint32_t i, uint64_t v, uint8_t ground) {
    struct column d = t->c;
    d.buffers[i] = v;
    ask(t, what, ground, &d);
}

void change_number(struct test *t, const char *what, struct slots s, uint32_t row, uint64_t v, uint8_t ground) {
    struct column d = t->c;
    put_number(&d, s.start + s.width * row, s.width, v);
    ask(t, what, ground, &d);
}

void change_letter(struct test *t, const char *what, uint32_t k, uint32_t i, char letter, uint8_t ground) {
    struct column d = t->c;
    d.formats[d.schema[5 * k] + i] = (uint8_t)letter;
    ask(t, what, ground, &d);
}
