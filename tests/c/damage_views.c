/* Byte views. */
#include "damage.h"

/* Odd rows have 12 bytes, even ones 13 bytes from byte 6 on of the data buffers 0 and 1 in turn. */
static void add_view(struct column *c, uint32_t at, uint32_t i) {
    int odd = i % 2 == 1;
    put_number(c, at, 4, odd ? 12 : 13);
    put_number(c, at + 4, 4, odd ? 0 : i % 4 == 0 ? 0x6a696867 : 0x4a494847);
    put_number(c, at + 8, 4, odd || i % 4 == 0 ? 0 : 1);
    put_number(c, at + 12, 4, odd ? 0 : 6);
}

static void lay_views(struct test *t, const char *format) {
    uint32_t n = t->off + 9;
    rows(t, format, 0);
    third_null(t);
    uint32_t at = t->c.used;
    numbers(&t->c, BUFFER_1, 16, NULL, n);
    for (uint32_t i = 0; i < n; i++) add_view(&t->c, at + 16 * i, i);
    data(&t->c, 'a');
    data(&t->c, 'A');
}

/* The view of an even row: its four numbers of 4 bytes. */
static void view_row(struct test *t, struct slots s, uint32_t row) {
    uint32_t at = 4 * row;
    change_number(t, "length of 2^31", s, at, 0x80000000, BAD);
    change_number(t, "length of 2^31 - 1", s, at, 0x7fffffff, BAD);
    change_number(t, "range up to the buffer's end", s, at, 14, FINE);
    change_number(t, "range leaves the buffer by one", s, at, 15, BAD);
    change_number(t, "length of 12", s, at, 12, FINE);
    change_number(t, "range at 2^32 - 1", s, at + 3, UINT32_MAX, BAD);
    change_number(t, "third of two buffers", s, at + 2, 2, BAD);
    change_number(t, "buffer 2^32 - 1", s, at + 2, UINT32_MAX, BAD);
}

/* The first four bytes of an even row's view. */
static void view_prefix(struct test *t, struct slots s, uint32_t row) {
    struct slots bytes = {s.start, 1};
    uint32_t at = 16 * row;
    change_number(t, "first byte of the prefix", bytes, at + 4, 33, BAD);
    change_number(t, "second byte of the prefix", bytes, at + 5, 33, BAD);
    change_number(t, "third byte of the prefix", bytes, at + 6, 33, BAD);
    change_number(t, "fourth byte of the prefix", bytes, at + 7, 33, BAD);
}

/* What nobody asks of a view: under a null, before the offset, and behind the bytes of a short one. */
static void view_free(struct test *t, struct slots s) {
    uint32_t at = 4 * (t->off + 2), brief = 4 * (t->off + 1);
    change_number(t, "length of 2^31 under a null", s, at, 0x80000000, FINE);
    change_number(t, "unknown buffer under a null", s, at + 2, 9, FINE);
    change_number(t, "other prefix under a null", s, at + 1, 0, FINE);
    change_number(t, "rest of a short view", s, brief + 3, 0xffff, FINE);
    change_number(t, "short view of 13 bytes", s, brief, 13, BAD);
    if (t->off != 0) change_number(t, "2^31 before the offset", s, 0, 0x80000000, FINE);
}

static void view_buffers(struct test *t, uint32_t k) {
    change_place(t, "one data buffer", k, DATA_COUNT, 1, BAD);
    change_place(t, "33 data buffers", k, DATA_COUNT, 33, CEILING);
    change_place(t, "data buffers past the table", k, FIRST_DATA, RANGES - 1, BAD);
    change_place(t, "data buffers whose double wraps", k, FIRST_DATA, negative(8), BAD);
    change_place(t, "data buffers whose sum wraps", k, FIRST_DATA, UINT64_MAX, BAD);
    change_buffer(t, "first data buffer leaves the body", 0, BODY - 19, BAD);
    change_buffer(t, "second data buffer leaves the body", 2, BODY - 19, BAD);
    change_buffer(t, "second data buffer ends at 2^64", 2, UINT64_MAX - 19, BAD);
    change_buffer(t, "first data buffer of 2^64 - 1 bytes", 1, UINT64_MAX, BAD);
    change_buffer(t, "first data buffer is short", 1, 18, BAD);
    change_buffer(t, "second data buffer is short", 3, 18, BAD);
}

void column_of_views(uint32_t depth, uint32_t off, const char *format) {
    struct test t = above(depth, off);
    uint32_t k = t.c.nodes;
    lay_views(&t, format);
    struct slots s = slots_of(&t.c, k, BUFFER_1, 4);
    sound(&t);
    any_node(&t, k, off);
    whole_buffer(&t, k, BUFFER_1);
    mask(&t, k, 1);
    for (uint32_t row = off; row <= off + 8; row += 4) {
        view_row(&t, s, row);
        view_prefix(&t, s, row);
    }
    view_buffers(&t, k);
    view_free(&t, s);
    no_rows(&t);
    finish(&t, "", format);
}
