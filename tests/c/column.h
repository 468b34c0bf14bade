/* Columns that are laid in code, the slices in which they are lent, and the ground that a call must answer. */
#ifndef COLUMN_H
#define COLUMN_H

#include "lent.h"
#include <lafkuno.h>

enum { NODES = 34, CHARS = 128, RANGES = 33, BODY = 512 };
/* Numbers of a node's schema, places and lengths (docs/FORMAT.md); a buffer's size stands behind its start. */
enum { FORMAT_START = 0, FORMAT_SIZE = 1, FLAGS = 2, CHILDREN = 3, DICTIONARY = 4 };
enum { HAS_VALIDITY = 0, VALIDITY = 1, BUFFER_1 = 3, BUFFER_2 = 5, FIRST_DATA = 7, DATA_COUNT = 8 };
enum { LENGTH = 0, OFFSET = 1 };
/* The grounds, in short. */
enum { FINE = LAFKUNO_DONE, CEILING = LAFKUNO_CEILING_PASSED, TYPE = LAFKUNO_UNKNOWN_TYPE, DIFFER = LAFKUNO_TYPES_DIFFER, BAD = LAFKUNO_BAD_SOURCE };

/* A column in the tables of docs/FORMAT.md, and how much of each is used. */
struct column {
    uint32_t schema[5 * NODES];
    uint64_t lengths[2 * NODES], places[9 * NODES], buffers[2 * RANGES];
    uint8_t formats[CHARS], body[BODY];
    uint32_t nodes, chars, ranges, used;
};

/* A sound column, the depth and the offset of the node that is changed; how many changes there were, and how many answers differ. */
struct test {
    struct column c;
    uint32_t depth, off;
    unsigned changes, wrong;
};

/* ---- laying a column */

/* No node yet, and a body of ones, whose first two bytes are of no buffer. */
struct column no_column(void);
/* The next node, nullable and with no buffers yet. */
void node(struct column *c, const char *format, uint32_t children, uint64_t length, uint64_t offset);
/* The first n numbers of a list, each in w bytes, as a buffer of the last node; the body's bytes as they are where there is no list. */
void numbers(struct column *c, uint32_t buffer, uint32_t w, const uint8_t *list, uint32_t n);
/* The same of a list of wide numbers, which there is. */
void wide_numbers(struct column *c, uint32_t buffer, uint32_t w, const uint64_t *list, uint32_t n);
/* Two bytes of validity for the last node. */
void validity(struct column *c, uint8_t bits, uint8_t more);
/* The next data buffer: 20 bytes from `first` on, each one more than the one before. */
void data(struct column *c, uint8_t first);
/* How many bytes a number of a format has. */
uint32_t width(char format);
/* The number of w bytes at `at` of the body. */
void put_number(struct column *c, uint32_t at, uint32_t w, uint64_t v);

/* ---- lending it */

/* What is lent: the tables, the sources of a join, and what a call writes. */
enum { FORMATS, SCHEMA, LENGTHS, PLACES, BUFFERS, BYTES_OF_BODY, SOURCES, ANSWER, SLICES };
extern struct slice lent[SLICES];

/* A slice and its length, as calls take them; the tables of a column. */
#define BYTES(k) lent[k].start, lent[k].size
#define WORDS(k) (uint32_t *)lent[k].start, lent[k].size / 4
#define LONGS(k) (uint64_t *)lent[k].start, lent[k].size / 8
#define TABLES BYTES(FORMATS), WORDS(SCHEMA), LONGS(LENGTHS), LONGS(PLACES), LONGS(BUFFERS), BYTES(BYTES_OF_BODY)

/* The column as far as it is used, and no sources. */
void lend_column(const struct column *c);
/* All of its tables and body. */
void lend_whole(const struct column *c);
/* Slice k alone. */
void lend(int k, const void *from, size_t size);
/* Last before a call: n numbers of 8 bytes for it to write. */
void lend_answer(size_t n);
/* After a call: whether it wrote none of them. */
int answer_kept(void);

/* ---- the ground that it must have */

/* Of the column of n nodes that is lent. Opening it must answer the same, and write no number of the tree where it is refused;
 * else UINT8_MAX. */
uint8_t ground_of_lent(uint32_t n);
/* Counts an answer, and prints both where it is not `ground`. */
void judge(struct test *t, const char *what, uint8_t ground, uint8_t answer);
/* Prints how many changes there were and how many answers differ. */
void finish(const struct test *t, const char *prefix, const char *name);

/* How many answers differed in all. */
extern unsigned wrong_answers;

#endif
