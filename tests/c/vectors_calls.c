#include "vectors.h"
#include <stdio.h>
#include <stdlib.h>
#include <string.h>

enum { NODES_AT = 865, MOST_NODES = 32, MOST_NAMES = 128 };

#define SET(k) ((uint32_t)1 << (k))
#define TABLES WORDS(SOURCES), BYTES(FORMATS), WORDS(SCHEMA), LONGS(LENGTHS), LONGS(PLACES), LONGS(BUFFERS), BYTES(BODY)

uint32_t word_at(const struct join *j, int k, size_t i) {
    return i < j->lent[k].size / 4 ? ((uint32_t *)j->lent[k].start)[i] : 0;
}

uint64_t long_at(const struct join *j, int k, size_t i) {
    return i < j->lent[k].size / 8 ? ((uint64_t *)j->lent[k].start)[i] : 0;
}

static void keep_all(struct join *j) {
    slices_keep(j->lent, SLICES);
}

/* A call that may write the slices of a set, and its answer. */
static void answered(struct join *j, const char *what, uint8_t ground, uint32_t written) {
    int kept = slices_kept(j->lent, SLICES, written);
    printf(" %s %d", what, ground);
    if (ground != LAFKUNO_DONE) fputs(kept ? " kept" : " CHANGED", stdout);
}

/* What stops an order, which is asked before it is given; it must have the order's ground, and zeros where that is 0. */
static void told(uint8_t ground, const uint64_t *why) {
    int some = (why[1] | why[2] | why[3] | why[4]) != 0;
    if (why[0] != ground || (some && ground == LAFKUNO_DONE)) fputs(" WHY", stdout);
    else if (some)
        printf(" why %llu %llu %llu %llu", (unsigned long long)why[1], (unsigned long long)why[2], (unsigned long long)why[3],
               (unsigned long long)why[4]);
}

static void show_parts(struct join *j) {
    keep_all(j);
    uint32_t n = lafkuno_part_count(LONGS(PLAN));
    fputs(" (", stdout);
    for (uint32_t p = 0; p < n; p++)
        printf(" %llu.%llu", (unsigned long long)lafkuno_part_node(LONGS(PLAN), p), (unsigned long long)lafkuno_part_buffer(LONGS(PLAN), p));
    fputs(" )", stdout);
    slices_kept(j->lent, SLICES, 0);
}

void ask_parts(struct join *j, uint64_t choices) {
    keep_all(j);
    uint8_t g = lafkuno_plan_parts(TABLES, choices & KEEP, choices & GAPS, LONGS(PLAN));
    answered(j, "parts", g, SET(PLAN));
    if (g == LAFKUNO_DONE) show_parts(j);
}

void open_join(struct join *j, uint64_t choices) {
    keep_all(j);
    uint8_t g = lafkuno_open(TABLES, choices & KEEP, choices & GAPS, LONGS(PARTS), LONGS(PLAN), LONGS(COUNTERS), BYTES(ROOM));
    answered(j, "open", g, SET(PLAN) | SET(COUNTERS) | SET(ROOM));
}

void copy_rows(struct join *j, uint32_t source, uint64_t start, uint64_t end) {
    uint64_t why[LAFKUNO_WHY];
    keep_all(j);
    lafkuno_why_copy(LONGS(PLAN), LONGS(PARTS), WORDS(SOURCES), LONGS(LENGTHS), LONGS(PLACES), BYTES(BODY), LONGS(COUNTERS), j->lent[ROOM].size,
                     source, start, end, why, LAFKUNO_WHY);
    slices_kept(j->lent, SLICES, 0);
    uint8_t g = lafkuno_copy(LONGS(PLAN), LONGS(PARTS), WORDS(SOURCES), LONGS(LENGTHS), LONGS(PLACES), BYTES(BODY), LONGS(COUNTERS), BYTES(ROOM),
                             source, start, end);
    answered(j, "copy", g, SET(COUNTERS) | SET(ROOM));
    told(g, why);
}

void add_nulls(struct join *j, uint64_t n) {
    uint64_t why[LAFKUNO_WHY];
    keep_all(j);
    lafkuno_why_nulls(LONGS(PLAN), LONGS(PARTS), LONGS(COUNTERS), j->lent[ROOM].size, n, why, LAFKUNO_WHY);
    slices_kept(j->lent, SLICES, 0);
    uint8_t g = lafkuno_nulls(LONGS(PLAN), LONGS(PARTS), LONGS(COUNTERS), BYTES(ROOM), n);
    answered(j, "nulls", g, SET(COUNTERS) | SET(ROOM));
    told(g, why);
}

/* ---- finishing */

/* A slice of n bytes that no call has written. */
static void lend_blank(struct join *j, int k, size_t n) {
    slice_resize(&j->lent[k], n);
    memset(j->lent[k].start, 0xa5, n);
}

/* New tables of n nodes, and of as many data buffers as the finished array names. */
static void lend_new(struct join *j, size_t n) {
    keep_all(j);
    uint64_t names = lafkuno_buffer_total(LONGS(PLAN), WORDS(SOURCES), LONGS(PLACES));
    slices_kept(j->lent, SLICES, 0);
    if (names > MOST_NAMES) names = MOST_NAMES;
    lend_blank(j, NEW_LENGTHS, 16 * n);
    lend_blank(j, NEW_NULLS, 8 * n);
    lend_blank(j, NEW_PLACES, 72 * n);
    lend_blank(j, NEW_BUFFERS, 16 * (size_t)names);
}

/* n bytes of slice `from`, from byte `at` on, behind slice `to`. */
static void append(struct join *j, int to, int from, size_t at, size_t n) {
    size_t end = j->lent[to].size;
    if (j->lent[from].size < at || j->lent[from].size - at < n) {
        fputs("the finished array has more than there is\n", stderr);
        exit(1);
    }
    slice_resize(&j->lent[to], end + n);
    memcpy(j->lent[to].start + end, j->lent[from].start + at, n);
}

/* The finished array behind the tables, with source 0's type, and the room behind the body. */
static void add_finished(struct join *j) {
    size_t n = j->lent[NEW_NULLS].size / 8, places = j->lent[PLACES].size / 8;
    uint64_t names = j->lent[BUFFERS].size / 16;
    j->first = (uint32_t)(j->lent[LENGTHS].size / 16);
    j->nodes = (uint32_t)n;
    append(j, SCHEMA, SCHEMA, 20 * (size_t)word_at(j, SOURCES, 0), 20 * n);
    append(j, LENGTHS, NEW_LENGTHS, 0, 16 * n);
    append(j, PLACES, NEW_PLACES, 0, 72 * n);
    append(j, BUFFERS, NEW_BUFFERS, 0, j->lent[NEW_BUFFERS].size);
    append(j, BODY, ROOM, 0, j->lent[ROOM].size);
    for (size_t i = 0; i < n; i++) ((uint64_t *)j->lent[PLACES].start)[places + 9 * i + 7] += names;
}

void finish_join(struct join *j, uint64_t more, uint64_t beyond) {
    uint64_t nodes = long_at(j, PLAN, NODES_AT);
    uint64_t base = j->lent[BODY].size + beyond;
    lend_new(j, (size_t)((nodes < MOST_NODES ? nodes : MOST_NODES) + more));
    keep_all(j);
    uint8_t g = lafkuno_finish(LONGS(PLAN), LONGS(PARTS), WORDS(SOURCES), LONGS(LENGTHS), LONGS(PLACES), LONGS(BUFFERS), BYTES(BODY),
                               LONGS(COUNTERS), BYTES(ROOM), base, LONGS(NEW_LENGTHS), LONGS(NEW_NULLS), LONGS(NEW_PLACES), LONGS(NEW_BUFFERS));
    answered(j, "finish", g, SET(NEW_LENGTHS) | SET(NEW_NULLS) | SET(NEW_PLACES) | SET(NEW_BUFFERS));
    if (g != LAFKUNO_DONE || beyond != 0) return;
    add_finished(j);
    show_finished(j);
}

void lend_again(struct join *j) {
    slice_resize(&j->lent[SOURCES], 8);
    memcpy(j->lent[SOURCES].start, &j->first, 4);
    memcpy(j->lent[SOURCES].start + 4, &j->nodes, 4);
    fputs(" again", stdout);
}
