/* Sound columns of each kind, changes of one number, and the ground that each change must have. */
#ifndef DAMAGE_H
#define DAMAGE_H

#include "column.h"

/* Where a buffer begins, and how many bytes an entry of it has. */
struct slots {
    uint32_t start, width;
};

/* ---- laying a column */

/* What stands above a node of nine rows: nothing at depth 1, a list-view at depth 2, a list-view of runs at depth 3. */
struct test above(uint32_t depth, uint32_t off);
/* A node of nine rows. */
void rows(struct test *t, const char *format, uint32_t children);
/* The third row of the last node is null. */
void third_null(struct test *t);
struct slots slots_of(const struct column *c, uint32_t k, uint32_t buffer, uint32_t w);
/* The least number of w bytes whose sign is negative. */
uint64_t negative(uint32_t w);

/* ---- one change: the ground that it must have, all tables and the body being lent whole */

void sound(struct test *t);
void change_schema(struct test *t, const char *what, uint32_t k, uint32_t i, uint32_t v, uint8_t ground);
void change_length(struct test *t, const char *what, uint32_t k, uint32_t i, uint64_t v, uint8_t ground);
void change_place(struct test *t, const char *what, uint32_t k, uint32_t i, uint64_t v, uint8_t ground);
void change_buffer(struct test *t, const char *what, uint32_t i, uint64_t v, uint8_t ground);
void change_number(struct test *t, const char *what, struct slots s, uint32_t row, uint64_t v, uint8_t ground);
/* Character i of node k's format. */
void change_letter(struct test *t, const char *what, uint32_t k, uint32_t i, char letter, uint8_t ground);

/* ---- rules that all kinds have */

/* Length, offset and type of node k, whose offset is `off`. */
void any_node(struct test *t, uint32_t k, uint32_t off);
/* A buffer of node k whose bytes are all needed. */
void whole_buffer(struct test *t, uint32_t k, uint32_t buffer);
/* Node k's validity, for which `less` bytes are one too few; the body ends with ones. */
void mask(struct test *t, uint32_t k, uint32_t less);
/* Validity without a zero bit, where there may be none. */
void no_mask(struct test *t, uint32_t k);
/* A root without rows: its buffers still hold as many entries as its offset says. */
void no_rows(struct test *t);

/* ---- kinds */

void lay_strings(struct test *t, const char *format, uint32_t w);
void strings(struct test *t, uint32_t k, uint32_t w);
void column_of_strings(uint32_t depth, uint32_t off, const char *format, uint32_t w);
void column_of_lists(uint32_t depth, uint32_t off, const char *format, uint32_t w);
void column_of_list_views(uint32_t depth, uint32_t off, const char *format, uint32_t w);
void column_of_sparse(uint32_t depth, uint32_t off);
void column_of_dense(uint32_t depth, uint32_t off);
void column_of_runs(uint32_t depth, uint32_t off, const char *format, uint32_t w);
void column_of_views(uint32_t depth, uint32_t off, const char *format);

#endif
