#include "convert.h"
#include <stdio.h>
#include <stdlib.h>
#include <string.h>

enum { PARTS, PLAN, COUNTERS, ROOM, NEW_LENGTHS, NEW_NULLS, NEW_PLACES, NEW_BUFFERS, OWN };
enum { MARK = 0xaa, TEXT = 4096, MOST_DIGITS = 128 };

/* What a call writes or is told of parts, each between guards like the tables. */
static struct slice own[OWN];

#define OWN_LONGS(k) (uint64_t *)own[k].start, own[k].size / 8
#define OWN_BYTES(k) own[k].start, own[k].size

typedef uint8_t asks(const uint8_t *, size_t, const uint32_t *, size_t, const uint64_t *, size_t, const uint64_t *, size_t, const uint64_t *, size_t,
                     const uint8_t *, size_t, uint32_t, uint32_t, uint32_t, uint32_t, uint64_t *, size_t, uint64_t *, size_t);
typedef uint8_t does(const uint8_t *, size_t, const uint32_t *, size_t, const uint64_t *, size_t, const uint64_t *, size_t, const uint64_t *, size_t,
                     const uint8_t *, size_t, uint32_t, uint32_t, uint32_t, uint32_t, const uint64_t *, size_t, uint64_t *, size_t, uint64_t *,
                     size_t, uint8_t *, size_t);

static asks *const ask_calls[] = {lafkuno_plan_list, lafkuno_plan_list_view, lafkuno_plan_convert};
static does *const write_calls[] = {lafkuno_list, lafkuno_list_view, lafkuno_convert};

void type(struct column *c, const char *format, uint32_t children) { node(c, format, children, 0, 0); }

/* Sizes of its own, filled with marks. */
static void fresh(int k, size_t size) {
    slice_resize(&own[k], 0);
    slice_resize(&own[k], size);
    memset(own[k].start, MARK, size);
}

static void keep_all(void) {
    slices_keep(lent, SLICES);
    slices_keep(own, OWN);
}

/* After a call: the tables are as they were, and what is not of the set `written` too; nothing is written where the call is refused. */
static void kept_all(uint8_t ground, uint32_t written) {
    slices_kept(lent, SLICES, 0);
    if (!slices_kept(own, OWN, written) && ground != FINE) {
        printf("REFUSED AND WROTE\n");
        exit(1);
    }
}

static uint64_t *own_longs(int k) { return (uint64_t *)own[k].start; }

static uint8_t asked(enum way way, struct pair p, unsigned short_plan) {
    for (int k = 0; k < OWN; k++) fresh(k, 0);
    fresh(PLAN, 8 * (LAFKUNO_PLAN - short_plan));
    fresh(COUNTERS, 8 * LAFKUNO_COUNTERS);
    keep_all();
    uint8_t ground = ask_calls[way](TABLES, p.first, p.n, p.target, p.target_n, OWN_LONGS(PLAN), OWN_LONGS(COUNTERS));
    kept_all(ground, 1 << PLAN | 1 << COUNTERS);
    return ground;
}

/* The parts that the plan asks for, with a byte of nothing before each, and a room for them. */
static void lend_parts(struct wrong w) {
    uint32_t count = lafkuno_part_count(OWN_LONGS(PLAN));
    uint64_t end = 3;
    fresh(PARTS, 16 * (count + w.more_parts));
    for (uint32_t p = 0; p < count; p++) {
        own_longs(PARTS)[2 * p] = end;
        own_longs(PARTS)[2 * p + 1] = lafkuno_needed_bytes(OWN_LONGS(PLAN), OWN_LONGS(COUNTERS), p);
        end += own_longs(PARTS)[2 * p + 1] + 1;
    }
    for (uint32_t p = count; p < count + w.more_parts; p++) own_longs(PARTS)[2 * p] = own_longs(PARTS)[2 * p + 1] = 0;
    if (count) own_longs(PARTS)[2 * count - 1] -= w.less;
    if (w.overlap && 1 < count) own_longs(PARTS)[2 * count - 2] = own_longs(PARTS)[2 * count - 4];
    fresh(ROOM, end + 2);
}

/* The call itself, which trusts nothing of plan and counters. */
static uint8_t written(enum way way, struct pair p) {
    memset(own[PLAN].start, MARK, own[PLAN].size);
    memset(own[COUNTERS].start, MARK, own[COUNTERS].size);
    keep_all();
    uint8_t ground = write_calls[way](TABLES, p.first, p.n, p.target, p.target_n, OWN_LONGS(PARTS), OWN_LONGS(PLAN), OWN_LONGS(COUNTERS), OWN_BYTES(ROOM));
    kept_all(ground, 1 << PLAN | 1 << COUNTERS | 1 << ROOM);
    return ground;
}

static void show_parts(void) {
    for (uint32_t p = 0; p < own[PARTS].size / 16; p++) {
        uint64_t at = own_longs(PARTS)[2 * p], n = own_longs(PARTS)[2 * p + 1];
        printf(" %llu.%llu=", (unsigned long long)lafkuno_part_node(OWN_LONGS(PLAN), p), (unsigned long long)lafkuno_part_buffer(OWN_LONGS(PLAN), p));
        for (uint64_t i = 0; i < n && n <= MOST_DIGITS; i++) printf("%02x", own[ROOM].start[at + i]);
        if (MOST_DIGITS < n) printf("(%llu bytes)", (unsigned long long)n);
        if (own[ROOM].start[at - 1] != MARK || own[ROOM].start[at + n] != MARK) fputs(" WROTE BESIDE", stdout);
    }
}

/* ---- the result, lent again */

static void append(int k, const void *from, size_t size) {
    size_t old = lent[k].size;
    slice_resize(&lent[k], old + size);
    if (size) memcpy(lent[k].start + old, from, size);
}

/* Finishes the result, and puts it where its type stands: its numbers at the target's nodes, its data buffers behind the others, the room behind the
 * body. Of a list-view the root alone is finished; the nodes below it are named as the column has them, over its own data buffers. */
static uint8_t finish_and_lend(enum way way, struct pair p) {
    const uint32_t sources[2] = {p.first, p.n};
    size_t nodes = way == TO_LIST_VIEW ? 1 : p.target_n, old = lent[BUFFERS].size / 16;
    uint64_t named = lafkuno_buffer_total(OWN_LONGS(PLAN), sources, 2, LONGS(PLACES));
    fresh(NEW_LENGTHS, 16 * p.target_n);
    fresh(NEW_NULLS, 8 * p.target_n);
    fresh(NEW_PLACES, 72 * p.target_n);
    fresh(NEW_BUFFERS, 16 * named);
    keep_all();
    uint8_t ground = lafkuno_finish(OWN_LONGS(PLAN), OWN_LONGS(PARTS), sources, 2, LONGS(LENGTHS), LONGS(PLACES), LONGS(BUFFERS), BYTES(BYTES_OF_BODY),
                                    OWN_LONGS(COUNTERS), OWN_BYTES(ROOM), lent[BYTES_OF_BODY].size, own_longs(NEW_LENGTHS), 2 * nodes,
                                    own_longs(NEW_NULLS), nodes, own_longs(NEW_PLACES), 9 * nodes, OWN_LONGS(NEW_BUFFERS));
    kept_all(ground, 15 << NEW_LENGTHS);
    if (ground != FINE) return ground;
    for (size_t i = 0; i < nodes; i++) own_longs(NEW_PLACES)[9 * i + FIRST_DATA] += old;
    if (way == TO_LIST_VIEW) {
        keep_all();
        ground = lafkuno_list_view_child(TABLES, p.first, p.n, OWN_LONGS(NEW_LENGTHS), OWN_LONGS(NEW_NULLS), OWN_LONGS(NEW_PLACES));
        kept_all(ground, 7 << NEW_LENGTHS);
        if (ground != FINE) return ground;
    }
    memcpy(lent[LENGTHS].start + 16 * p.target, own[NEW_LENGTHS].start, own[NEW_LENGTHS].size);
    memcpy(lent[PLACES].start + 72 * p.target, own[NEW_PLACES].start, own[NEW_PLACES].size);
    append(BUFFERS, own[NEW_BUFFERS].start, own[NEW_BUFFERS].size);
    append(BYTES_OF_BODY, own[ROOM].start, own[ROOM].size);
    return lafkuno_column_ground(TABLES, p.target, p.target_n);
}

/* ---- rows as text */

/* How many nodes stand in the subtree of a node. */
static uint32_t subtree(uint32_t k) {
    const uint32_t *schema = (uint32_t *)lent[SCHEMA].start + 5 * k;
    uint32_t end = k + 1;
    for (uint32_t i = 0; i < schema[CHILDREN] + schema[DICTIONARY]; i++) end += subtree(end);
    return end - k;
}

/* n bytes of the body: as text, or by their digits. */
static char *put_bytes(char *out, uint64_t at, uint64_t n) {
    const uint8_t *s = lent[BYTES_OF_BODY].start + at;
    int text = 1;
    for (uint64_t i = 0; i < n; i++) text &= 32 <= s[i] && s[i] <= 126;
    if (text) return out + sprintf(out, "'%.*s'", (int)n, (const char *)s);
    *out++ = 'x';
    for (uint64_t i = 0; i < n; i++) out += sprintf(out, "%02x", s[i]);
    return out;
}

static char *put_row(char *out, uint32_t first, uint64_t row) {
    uint64_t tree[LAFKUNO_TREE], a[LAFKUNO_ANSWER];
    if (lafkuno_open_column(TABLES, first, subtree(first), tree, LAFKUNO_TREE) != FINE) return out + sprintf(out, "NO COLUMN");
    uint8_t kind = lafkuno_read_row(tree, LAFKUNO_TREE, LONGS(LENGTHS), LONGS(PLACES), LONGS(BUFFERS), BYTES(BYTES_OF_BODY), first, row, a, LAFKUNO_ANSWER);
    for (uint64_t k = 0; k < a[3] && k < 8; k++) out += sprintf(out, "%llu:", (unsigned long long)a[4 + k]);
    switch (kind) {
    case LAFKUNO_NULL: return out + sprintf(out, "null");
    case LAFKUNO_SIGNED: return out + sprintf(out, "%lld", (long long)a[0]);
    case LAFKUNO_UNSIGNED: return out + sprintf(out, "%llu", (unsigned long long)a[0]);
    case LAFKUNO_BYTES: return put_bytes(out, a[0], a[1]);
    case LAFKUNO_LIST:
        *out++ = '[';
        for (uint64_t i = 0; i < a[2]; i++) {
            if (i) *out++ = ' ';
            out = put_row(out, first + (uint32_t)a[0], a[1] + i);
        }
        *out++ = ']';
        *out = 0;
        return out;
    default: return out + sprintf(out, "UNREAD");
    }
}

static void put_rows(char *out, uint32_t first) {
    uint64_t rows = ((uint64_t *)lent[LENGTHS].start)[2 * first];
    *out = 0;
    for (uint64_t i = 0; i < rows; i++) {
        *out++ = ' ';
        out = put_row(out, first, i);
    }
}

/* The null count of each node of the result. */
static void show_nulls(struct pair p) {
    fputs(" | nulls", stdout);
    for (uint32_t i = 0; i < p.target_n; i++) printf(" %llu", (unsigned long long)own_longs(NEW_NULLS)[i]);
}

/* ---- one line */

static uint8_t made(const char *what, const struct column *c, enum way way, struct pair p, struct wrong w) {
    lend_column(c);
    slice_resize(&lent[ANSWER], 0);
    printf("%s:", what);
    uint8_t ground = asked(way, p, w.short_plan);
    if (ground == FINE) {
        lend_parts(w);
        ground = written(way, p);
    }
    if (ground != FINE) printf(" %d\n", ground);
    return ground;
}

void show_wrong(const char *what, const struct column *c, enum way way, struct pair p, struct wrong w) {
    static char before[TEXT], after[TEXT];
    if (made(what, c, way, p, w) != FINE) return;
    show_parts();
    put_rows(before, p.first);
    uint8_t ground = finish_and_lend(way, p);
    put_rows(after, p.target);
    if (ground != FINE) printf(" LENT AGAIN %d", ground);
    show_nulls(p);
    printf(" |%s%s\n", after, strcmp(before, after) ? " READS OTHERWISE" : "");
}

void show(const char *what, const struct column *c, enum way way, struct pair p) { show_wrong(what, c, way, p, (struct wrong){0, 0, 0, 0}); }

void show_back(const char *what, const struct column *c, enum way way, struct pair p) {
    static char before[TEXT], after[TEXT];
    const struct pair back = {p.target, p.target_n, p.first, p.n};
    if (made(what, c, way, p, (struct wrong){0, 0, 0, 0}) != FINE) return;
    put_rows(before, p.first);
    uint8_t ground = finish_and_lend(way, p);
    if (ground == FINE) ground = asked(way, back, 0);
    if (ground == FINE) {
        lend_parts((struct wrong){0, 0, 0, 0});
        ground = written(way, back);
    }
    if (ground == FINE) {
        show_parts();
        ground = finish_and_lend(way, back);
    }
    put_rows(after, back.target);
    printf(" %d |%s%s\n", ground, after, strcmp(before, after) ? " READS OTHERWISE" : "");
}

void show_ground(const char *what, const struct column *c, enum way way, struct pair p) {
    if (made(what, c, way, p, (struct wrong){0, 0, 0, 0}) != FINE) return;
    show_parts();
    uint8_t ground = finish_and_lend(way, p);
    printf(" %d, %llu rows\n", ground, (unsigned long long)((uint64_t *)lent[LENGTHS].start)[2 * (p.target + 1)]);
}
