/* Rules that all kinds have. */
#include "damage.h"

void any_node(struct test *t, uint32_t k, uint32_t off) {
    change_length(t, "length of -1", k, LENGTH, UINT64_MAX, CEILING);
    change_length(t, "negative offset", k, OFFSET, negative(8), CEILING);
    change_length(t, "length and offset of 2^63", k, LENGTH, negative(8) - off, CEILING);
    change_length(t, "length and offset of 2^63 - 1", k, LENGTH, negative(8) - 1 - off, BAD);
    change_schema(t, "no format", k, FORMAT_SIZE, 0, TYPE);
    change_letter(t, "unknown format", k, 0, 'x', TYPE);
    change_schema(t, "seven children", k, CHILDREN, 7, TYPE);
    change_schema(t, "a dictionary's number of 2", k, DICTIONARY, 2, TYPE);
}

void whole_buffer(struct test *t, uint32_t k, uint32_t buffer) {
    uint64_t size = t->c.places[9 * k + buffer + 1];
    change_place(t, "buffer leaves the body by one", k, buffer, BODY + 1 - size, BAD);
    change_place(t, "buffer begins at 2^64 - 1", k, buffer, UINT64_MAX, BAD);
    change_place(t, "buffer ends at 2^64 + 2", k, buffer, 2 - size, BAD);
    change_place(t, "buffer of a byte less", k, buffer + 1, size - 1, BAD);
    change_place(t, "buffer of 2^64 - 1 bytes", k, buffer + 1, UINT64_MAX, BAD);
}

void mask(struct test *t, uint32_t k, uint32_t less) {
    change_place(t, "validity of a byte too few", k, VALIDITY + 1, less, BAD);
    change_place(t, "validity at the body's end", k, VALIDITY, BODY - 2, FINE);
    change_place(t, "validity leaves the body by one", k, VALIDITY, BODY - 1, BAD);
    change_place(t, "validity ends at 2^64", k, VALIDITY, UINT64_MAX - 1, BAD);
    change_place(t, "validity of 2^64 - 1 bytes", k, VALIDITY + 1, UINT64_MAX, BAD);
}

void no_mask(struct test *t, uint32_t k) {
    struct column whole = t->c;
    t->c.places[9 * k + VALIDITY + 1] = 2;
    change_place(t, "validity", k, HAS_VALIDITY, 1, BAD);
    t->c = whole;
}

void no_rows(struct test *t) {
    if (t->depth != 1) return;
    struct column whole = t->c;
    t->c.lengths[LENGTH] = 0;
    change_length(t, "no rows at the buffers' end", 0, OFFSET, t->off + 9, FINE);
    change_length(t, "no rows past the buffers' end", 0, OFFSET, t->off + 10, BAD);
    t->c = whole;
}
