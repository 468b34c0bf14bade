/* A small source of each kind. */
#include "large.h"

void lay_numbers(struct column *c, uint8_t b) {
    const uint8_t list[4] = {99, b, 0, (uint8_t)(b + 2)};
    node(c, "i", 0, 3, 1);
    validity(c, 0x0b, 0);
    numbers(c, BUFFER_1, 4, list, 4);
}

void lay_text(struct column *c, uint8_t b) {
    const uint8_t offsets[4] = {0, 2, 2, 5}, bytes[5] = {b, (uint8_t)(b + 1), b, b, b};
    node(c, "u", 0, 3, 0);
    validity(c, 0x05, 0);
    numbers(c, BUFFER_1, 4, offsets, 4);
    numbers(c, BUFFER_2, 1, bytes, 5);
}

/* 14 bytes from byte 3 on of the second data buffer, and 3 bytes in place. */
void lay_views(struct column *c, uint8_t b) {
    const uint8_t views[32] = {14, 0, 0, 0, b, (uint8_t)(b + 1), (uint8_t)(b + 2), (uint8_t)(b + 3), 1, 0, 0, 0, 3, 0, 0, 0, 3, 0, 0, 0, b, b, b};
    uint32_t first = c->ranges;
    node(c, "vu", 0, 2, 0);
    numbers(c, BUFFER_1, 1, views, 32);
    data(c, b);
    data(c, (uint8_t)(b - 3));
    c->places[9 * (c->nodes - 1) + FIRST_DATA] = first;
    c->places[9 * (c->nodes - 1) + DATA_COUNT] = 2;
}

void lay_list_views(struct column *c, uint8_t b) {
    const uint8_t offsets[3] = {1, 0, 0}, sizes[3] = {2, 1, 3};
    node(c, "+vl", 1, 3, 0);
    validity(c, 0x05, 0);
    numbers(c, BUFFER_1, 4, offsets, 3);
    numbers(c, BUFFER_2, 4, sizes, 3);
    lay_text(c, b);
}

void lay_lists(struct column *c, uint8_t b) {
    const uint8_t offsets[3] = {0, 1, 3}, items[3] = {b, 7, b};
    node(c, "+l", 1, 2, 0);
    numbers(c, BUFFER_1, 4, offsets, 3);
    node(c, "s", 0, 3, 0);
    numbers(c, BUFFER_1, 2, items, 3);
}

void lay_sparse(struct column *c, uint8_t b) {
    const uint8_t ids[3] = {7, 5, 7}, items[3] = {b, 8, b};
    node(c, "+us:5,7", 2, 3, 0);
    numbers(c, BUFFER_1, 1, ids, 3);
    node(c, "C", 0, 3, 0);
    numbers(c, BUFFER_1, 1, items, 3);
    lay_text(c, b);
}

void lay_dense(struct column *c, uint8_t b) {
    const uint8_t ids[3] = {7, 5, 7}, positions[3] = {2, 0, 0}, items[1] = {b};
    node(c, "+ud:5,7", 2, 3, 0);
    numbers(c, BUFFER_1, 1, ids, 3);
    numbers(c, BUFFER_2, 4, positions, 3);
    node(c, "C", 0, 1, 0);
    numbers(c, BUFFER_1, 1, items, 1);
    lay_text(c, b);
}

void lay_runs(struct column *c, uint8_t b) {
    const uint8_t ends[3] = {2, 3, 7};
    node(c, "+r", 2, 5, 1);
    node(c, "i", 0, 3, 0);
    numbers(c, BUFFER_1, 4, ends, 3);
    lay_text(c, b);
}

void lay_keys(struct column *c, uint8_t b) {
    const uint8_t keys[4] = {2, 0, 2, 0};
    node(c, "C", 0, 4, 0);
    c->schema[5 * (c->nodes - 1) + DICTIONARY] = 1;
    numbers(c, BUFFER_1, 1, keys, 4);
    lay_text(c, b);
}
