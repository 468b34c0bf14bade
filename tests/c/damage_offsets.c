/* Byte strings, lists and list-views. */
#include "damage.h"

/* ---- offsets */

/* Row r goes from 2r to 2r + 2. */
static void lay_offsets(struct test *t, const char *format, uint32_t children, uint32_t w) {
    static const uint8_t list[12] = {0, 2, 4, 6, 8, 10, 12, 14, 16, 18, 20, 22};
    rows(t, format, children);
    third_null(t);
    numbers(&t->c, BUFFER_1, w, list, t->off + 10);
}

static void offset_row(struct test *t, struct slots s, uint32_t row) {
    change_number(t, "offset is negative", s, row, negative(s.width), BAD);
    change_number(t, "offset is above the next", s, row, 2 * row + 3, BAD);
    change_number(t, "next offset past the last", s, row + 1, 23, BAD);
    change_number(t, "offset is the next one", s, row, 2 * row + 2, FINE);
}

/* The offsets obey in each row, null or not. */
static void offsets(struct test *t, uint32_t k, uint32_t w) {
    struct slots s = slots_of(&t->c, k, BUFFER_1, w);
    any_node(t, k, t->off);
    mask(t, k, 1);
    whole_buffer(t, k, BUFFER_1);
    change_place(t, "empty offsets buffer", k, BUFFER_1 + 1, 0, BAD);
    offset_row(t, s, t->off);
    offset_row(t, s, t->off + 2);
    offset_row(t, s, t->off + 4);
    offset_row(t, s, t->off + 8);
    if (t->off != 0) change_number(t, "negative before the offset", s, 0, negative(w), FINE);
}

/* A root without rows: the offsets buffer may be empty, and else has the offset of no row. */
static void no_offsets(struct test *t, uint32_t w) {
    uint32_t one = w * (t->off + 1);
    no_rows(t);
    if (t->depth != 1) return;
    struct column whole = t->c;
    t->c.lengths[LENGTH] = 0;
    change_place(t, "no rows and no offsets", 0, BUFFER_1 + 1, 0, FINE);
    change_place(t, "no rows and one offset", 0, BUFFER_1 + 1, one, FINE);
    change_place(t, "no rows and a byte less", 0, BUFFER_1 + 1, one - 1, BAD);
    change_number(t, "no rows and an offset past the last", slots_of(&t->c, 0, BUFFER_1, w), t->off, 23, BAD);
    t->c = whole;
}

/* Row r has the bytes 2r and 2r + 1. */
void lay_strings(struct test *t, const char *format, uint32_t w) {
    lay_offsets(t, format, 0, w);
    numbers(&t->c, BUFFER_2, 1, (const uint8_t *)"abcdefghijklmnopqrstuv", 2 * (t->off + 9));
}

void strings(struct test *t, uint32_t k, uint32_t w) {
    offsets(t, k, w);
    whole_buffer(t, k, BUFFER_2);
}

void column_of_strings(uint32_t depth, uint32_t off, const char *format, uint32_t w) {
    struct test t = above(depth, off);
    uint32_t k = t.c.nodes;
    lay_strings(&t, format, w);
    sound(&t);
    strings(&t, k, w);
    no_offsets(&t, w);
    finish(&t, "", format);
}

/* Row r has the child's rows 2r and 2r + 1. The child's buffer has as many bytes before its offset as the offset past its rows asks for. */
void column_of_lists(uint32_t depth, uint32_t off, const char *format, uint32_t w) {
    struct test t = above(depth, off);
    uint32_t k = t.c.nodes, n = 2 * (off + 9);
    lay_offsets(&t, format, 1, w);
    node(&t.c, "C", 0, n, 1);
    numbers(&t.c, BUFFER_1, 1, NULL, n + 1);
    sound(&t);
    offsets(&t, k, w);
    change_number(&t, "last offset is one past the child", slots_of(&t.c, k, BUFFER_1, w), off + 9, n + 1, BAD);
    change_length(&t, "child is one row shorter", k + 1, LENGTH, n - 1, BAD);
    whole_buffer(&t, k + 1, BUFFER_1);
    no_offsets(&t, w);
    finish(&t, "", format);
}

/* ---- list-views */

/* Row r begins at row r of the child and reaches up to its last one, row 10. */
static void list_view_row(struct test *t, struct slots at, struct slots size, uint32_t row) {
    uint64_t most = negative(at.width) - 1;
    change_number(t, "offset is negative", at, row, negative(at.width), BAD);
    change_number(t, "size is negative", size, row, negative(at.width), BAD);
    change_number(t, "size is one too large", size, row, 12 - row, BAD);
    change_number(t, "offset is one too large", at, row, row + 1, BAD);
    change_number(t, "offset is the largest", at, row, most, BAD);
    change_number(t, "size is the largest", size, row, most, BAD);
    change_number(t, "size is 0", size, row, 0, FINE);
}

static void lay_list_views(struct test *t, const char *format, uint32_t w) {
    static const uint8_t offsets[11] = {0, 1, 2, 3, 4, 5, 6, 7, 8, 9, 10}, sizes[11] = {11, 10, 9, 8, 7, 6, 5, 4, 3, 2, 1};
    rows(t, format, 1);
    third_null(t);
    numbers(&t->c, BUFFER_1, w, offsets, t->off + 9);
    numbers(&t->c, BUFFER_2, w, sizes, t->off + 9);
    node(&t->c, "C", 0, 11, 1);
    numbers(&t->c, BUFFER_1, 1, NULL, 12);
}

void column_of_list_views(uint32_t depth, uint32_t off, const char *format, uint32_t w) {
    struct test t = above(depth, off);
    uint32_t k = t.c.nodes;
    lay_list_views(&t, format, w);
    struct slots at = slots_of(&t.c, k, BUFFER_1, w), size = slots_of(&t.c, k, BUFFER_2, w);
    sound(&t);
    any_node(&t, k, off);
    mask(&t, k, 1);
    whole_buffer(&t, k, BUFFER_1);
    whole_buffer(&t, k, BUFFER_2);
    whole_buffer(&t, k + 1, BUFFER_1);
    list_view_row(&t, at, size, off);
    list_view_row(&t, at, size, off + 2);
    list_view_row(&t, at, size, off + 4);
    list_view_row(&t, at, size, off + 8);
    change_length(&t, "child is one row shorter", k + 1, LENGTH, 10, BAD);
    if (off != 0) change_number(&t, "negative before the offset", at, 0, negative(w), FINE);
    no_rows(&t);
    finish(&t, "", format);
}
