/* Joins told by a text (tests/joins/README.md): what a join is lent, its calls, and how a finished array is shown. */
#ifndef VECTORS_H
#define VECTORS_H

#include "lent.h"
#include <lafkuno.h>

/* What is lent, in slices of their own. */
enum {
    SOURCES, PARTS, SCHEMA, PLACES, BUFFERS, LENGTHS, FORMATS, BODY, PLAN, COUNTERS, ROOM,
    NEW_LENGTHS, NEW_NULLS, NEW_PLACES, NEW_BUFFERS, TREE, ANSWER, SLICES
};

struct join {
    struct slice lent[SLICES];
    uint32_t first, nodes; /* the finished array in the tables */
};

/* A slice and its length, as calls take them. */
#define BYTES(k) j->lent[k].start, j->lent[k].size
#define WORDS(k) (uint32_t *)j->lent[k].start, j->lent[k].size / 4
#define LONGS(k) (uint64_t *)j->lent[k].start, j->lent[k].size / 8

/* Number i of a slice; 0 past its end. */
uint32_t word_at(const struct join *j, int k, size_t i);
uint64_t long_at(const struct join *j, int k, size_t i);

/* The caller's choices, as bits of one number: nulls are kept, one run for gaps. */
enum { KEEP = 1, GAPS = 2 };

/* The calls; each prints its answer, and behind a refusal whether all stayed as it was. */
void ask_parts(struct join *j, uint64_t choices);
void open_join(struct join *j, uint64_t choices);
void copy_rows(struct join *j, uint32_t source, uint64_t start, uint64_t end);
void add_nulls(struct join *j, uint64_t n);
/* Finishes into tables that are `more` nodes too long, with a base `beyond` behind the body's end. Where that is 0, the finished array is
 * shown, and stands behind the tables and the room behind the body. */
void finish_join(struct join *j, uint64_t more, uint64_t beyond);
/* Makes the finished array the only source. */
void lend_again(struct join *j);

/* The running null count, the nodes of the finished array with their buffers, and the room. */
void show_finished(struct join *j);
/* The rows of the finished array, at most 12 of a list. */
void show_rows(struct join *j);

#endif
