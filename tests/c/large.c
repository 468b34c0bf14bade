/* Joins over a body and a room of 5 GiB each, of which only the bytes of a few columns are ever touched. Each join is made twice: over a small
 * body and room, and with one source's buffers above 4.5 GiB, the other's across 4 GiB, and the parts above 4 GiB in the room. Answers, counters,
 * null counts, finished buffers and rows must be the same, and the rows are those that stand here.
 *     cc -I include tests/c/large*.c tests/c/column.c tests/c/lent.c -L target/staticlib -llafkuno -o large && ./large
 * Where the machine does not map 10 GiB without reserving them, it says so and nothing is tried. */
#define _DEFAULT_SOURCE
#include "large.h"
#include <stdio.h>
#include <stdlib.h>
#include <string.h>
#include <sys/mman.h>

#define GIB ((uint64_t)1 << 30)
#define FIVE (5 * GIB)
enum { SMALL = 4096, TEXT = 1 << 16, MOST_PARTS = 96 };

/* A body with the room behind it, where each of two sources is laid, and where the parts begin in the room. */
struct ground {
    uint8_t *all;
    uint64_t body, room, source[2], parts;
};

/* A column of two sources of `each` nodes, laid in a ground, with its join. */
struct join {
    struct ground g;
    struct column c;
    uint32_t each, sources[4], count;
    uint64_t plan[LAFKUNO_PLAN], counters[LAFKUNO_COUNTERS], parts[2 * MOST_PARTS];
    char text[TEXT]; /* what became of it */
    size_t told;
};

static int failed;

static void expect(const char *what, uint64_t got, uint64_t wanted) {
    if (got == wanted) return;
    printf("%s: %llu, not %llu\n", what, (unsigned long long)got, (unsigned long long)wanted);
    failed = 1;
}

static void tell(struct join *j, const char *what, uint64_t n) {
    j->told += (size_t)snprintf(j->text + j->told, TEXT - j->told, "%s%llu", what, (unsigned long long)n);
    if (j->told >= TEXT) exit(2);
}

static void tell_bytes(struct join *j, uint64_t at, uint64_t n) {
    for (uint64_t i = 0; i < n; i++) tell(j, i ? " " : " =", j->g.all[at + i]);
}

/* ---- laying */

/* Moves the buffers of nodes from .. to - 1 to the place of source s, and lays the bytes there. */
static void move(struct join *j, uint32_t from, uint32_t to, int s) {
    uint64_t by = j->g.source[s];
    memcpy(j->g.all + by, j->c.body, BODY);
    for (uint32_t k = from; k < to; k++) {
        uint64_t *p = j->c.places + 9 * k;
        p[VALIDITY] += by, p[BUFFER_1] += by, p[BUFFER_2] += by;
        for (uint64_t b = 0; b < p[DATA_COUNT]; b++) j->c.buffers[2 * (p[FIRST_DATA] + b)] += by;
    }
}

#define NODES_OF(j) ((size_t)(j)->c.nodes)
#define PLAN_OF(j) (j)->plan, LAFKUNO_PLAN
#define COUNTERS_OF(j) (j)->counters, LAFKUNO_COUNTERS
#define PARTS_OF(j) (j)->parts, 2 * (size_t)(j)->count
#define ROOM_OF(j) (j)->g.all + (j)->g.body, (j)->g.room
#define ROWS_OF(j) (j)->sources, 4, (j)->c.lengths, 2 * NODES_OF(j), (j)->c.places, 9 * NODES_OF(j)
#define COLUMN_OF(j)                                                                                                                        \
    (j)->c.formats, (j)->c.chars, (j)->c.schema, 5 * NODES_OF(j), (j)->c.lengths, 2 * NODES_OF(j), (j)->c.places, 9 * NODES_OF(j),          \
        (j)->c.buffers, 2 * (size_t)(j)->c.ranges, (j)->g.all, (j)->g.body
#define TABLES_OF(j) (j)->sources, 4, COLUMN_OF(j)

static void begin(struct join *j, const struct column *c, struct ground g) {
    memset(j, 0, sizeof *j);
    j->g = g, j->c = *c, j->each = c->nodes / 2;
    move(j, 0, j->each, 0);
    move(j, j->each, c->nodes, 1);
    j->sources[1] = j->sources[2] = j->sources[3] = j->each;
}

/* ---- joining */

static void lay_parts(struct join *j) {
    uint64_t at = j->g.parts;
    j->count = lafkuno_part_count(PLAN_OF(j));
    for (uint32_t p = 0; p < j->count; p++) {
        j->parts[2 * p] = at;
        j->parts[2 * p + 1] = lafkuno_needed_bytes(PLAN_OF(j), COUNTERS_OF(j), p);
        tell(j, " part ", j->parts[2 * p + 1]);
        at += j->parts[2 * p + 1];
    }
    /* the last part ends with the room; one byte further it does not lie in it */
    if (j->count) j->parts[2 * (j->count - 1)] = j->g.room - j->parts[2 * j->count - 1];
}

/* All rows of source 0, two nulls, all rows of source 1. */
static void order(struct join *j) {
    uint64_t first = j->c.lengths[0], second = j->c.lengths[2 * j->each];
    tell(j, "plan ", lafkuno_plan_parts(TABLES_OF(j), 1, 0, PLAN_OF(j)));
    tell(j, " ask ", lafkuno_measure_open(PLAN_OF(j), ROWS_OF(j), j->g.all, j->g.body, COUNTERS_OF(j)));
    tell(j, " ", lafkuno_measure_copy(PLAN_OF(j), ROWS_OF(j), j->g.all, j->g.body, COUNTERS_OF(j), 0, 0, first));
    tell(j, " ", lafkuno_measure_nulls(PLAN_OF(j), COUNTERS_OF(j), 2));
    tell(j, " ", lafkuno_measure_copy(PLAN_OF(j), ROWS_OF(j), j->g.all, j->g.body, COUNTERS_OF(j), 1, 0, second));
    lay_parts(j);
    if (!j->count) return;
    j->parts[2 * (j->count - 1)]++;
    tell(j, " outside ", lafkuno_open(TABLES_OF(j), 1, 0, PARTS_OF(j), PLAN_OF(j), COUNTERS_OF(j), ROOM_OF(j)));
    j->parts[2 * (j->count - 1)]--;
    tell(j, " open ", lafkuno_open(TABLES_OF(j), 1, 0, PARTS_OF(j), PLAN_OF(j), COUNTERS_OF(j), ROOM_OF(j)));
    tell(j, " copy ", lafkuno_copy(PLAN_OF(j), PARTS_OF(j), ROWS_OF(j), j->g.all, j->g.body, COUNTERS_OF(j), ROOM_OF(j), 0, 0, first));
    tell(j, " nulls ", lafkuno_nulls(PLAN_OF(j), PARTS_OF(j), COUNTERS_OF(j), ROOM_OF(j), 2));
    tell(j, " copy ", lafkuno_copy(PLAN_OF(j), PARTS_OF(j), ROWS_OF(j), j->g.all, j->g.body, COUNTERS_OF(j), ROOM_OF(j), 1, 0, second));
    for (int i = 0; i < LAFKUNO_COUNTERS; i++) tell(j, i ? " " : " counters ", j->counters[i]);
}

/* ---- the finished array, over the body with the room behind it */

static uint32_t nodes_below(const struct column *c, uint32_t k) {
    uint32_t below = c->schema[5 * k + DICTIONARY] ? 1 : c->schema[5 * k + CHILDREN], n = 1;
    while (below-- > 0) n += nodes_below(c, k + n);
    return n;
}

static void tell_row(struct join *j, const struct column *c, uint32_t first, uint64_t row) {
    uint64_t tree[LAFKUNO_TREE], a[LAFKUNO_ANSWER];
    size_t n = c->nodes, buffers = 2 * (size_t)c->ranges, all = j->g.body + j->g.room;
    tell(j, " ground ", lafkuno_open_column(c->formats, c->chars, c->schema, 5 * n, c->lengths, 2 * n, c->places, 9 * n, c->buffers, buffers, j->g.all,
                                            all, first, nodes_below(c, first), tree, LAFKUNO_TREE));
    uint8_t kind = lafkuno_read_row(tree, LAFKUNO_TREE, c->lengths, 2 * n, c->places, 9 * n, c->buffers, buffers, j->g.all, all, first, row, a,
                                    LAFKUNO_ANSWER);
    tell(j, " kind ", kind);
    for (uint64_t u = 0; u < a[3] && kind < LAFKUNO_REFUSED; u++) tell(j, " id ", a[4 + u]);
    if (kind == LAFKUNO_BYTES) tell_bytes(j, a[0], a[1]);
    else if (kind == LAFKUNO_LIST)
        for (uint64_t r = 0; r < a[2]; r++) tell_row(j, c, first + (uint32_t)a[0], a[1] + r);
    else if (kind != LAFKUNO_NULL && kind < LAFKUNO_REFUSED) tell(j, " ", a[0]);
}

/* Answers how many rows the finished array has. */
static uint64_t finish_join(struct join *j, struct column *f) {
    uint64_t nulls[NODES], names = lafkuno_buffer_total(PLAN_OF(j), j->sources, 4, j->c.places, 9 * NODES_OF(j));
    size_t n = j->each;
    *f = j->c;
    f->nodes = j->each, f->ranges = (uint32_t)names;
    tell(j, " finish ", lafkuno_finish(PLAN_OF(j), PARTS_OF(j), ROWS_OF(j), j->c.buffers, 2 * (size_t)j->c.ranges, j->g.all, j->g.body, COUNTERS_OF(j),
                                       ROOM_OF(j), j->g.body, f->lengths, 2 * n, nulls, n, f->places, 9 * n, f->buffers, 2 * names));
    for (uint32_t k = 0; k < n; k++) {
        const uint64_t *p = f->places + 9 * k;
        tell(j, " | ", f->lengths[2 * k]), tell(j, "+", f->lengths[2 * k + 1]), tell(j, " ", nulls[k]);
        for (int b = VALIDITY; b <= BUFFER_2; b += 2) tell(j, " ", p[b + 1]), tell_bytes(j, p[b], p[b + 1] < BODY ? p[b + 1] : 0);
        for (uint64_t d = 0; d < p[DATA_COUNT]; d++) tell(j, " data ", f->buffers[2 * (p[FIRST_DATA] + d) + 1]);
    }
    for (uint64_t r = 0; r < f->lengths[LENGTH]; r++) tell_row(j, f, 0, r);
    return f->lengths[LENGTH];
}

/* ---- the same join twice */

static struct join once, twice;
static struct ground small, large;

static void run(struct join *j, const struct column *c, struct ground g, struct column *f) {
    memset(g.all + g.body + g.parts, 0xee, SMALL / 2);
    memset(g.all + g.body + g.room - SMALL / 2, 0xee, SMALL / 2);
    begin(j, c, g);
    order(j);
    finish_join(j, f);
}

/* Row r of the finished array f, which must be these bytes, or null. */
static void row_is(const char *what, struct join *j, const struct column *f, uint64_t r, const char *bytes) {
    j->told = 0;
    tell_row(j, f, 0, r);
    char *due = malloc(TEXT), *end = due;
    if (!due) exit(2);
    end += sprintf(end, " ground 0 kind %d", bytes ? LAFKUNO_BYTES : LAFKUNO_NULL);
    for (size_t i = 0; bytes && bytes[i]; i++) end += sprintf(end, "%s%d", i ? " " : " =", bytes[i]);
    if (strcmp(j->text, due) != 0) {
        printf("%s, row %llu:%s, not%s\n", what, (unsigned long long)r, j->text, due);
        failed = 1;
    }
    free(due);
}

static void both(const char *what, lay_source *lay, int shared, struct column *f) {
    struct column c = no_column(), ignored;
    struct ground at[2] = {small, large};
    lay(&c, 'a');
    lay(&c, shared ? 'a' : 'A');
    if (shared) {
        memcpy(c.places + 9 * 3, c.places + 9, 9 * 8);
        for (int k = 0; k < 2; k++) at[k].source[1] = at[k].source[0];
    }
    run(&once, &c, at[0], &ignored);
    run(&twice, &c, at[1], f);
    if (strcmp(once.text, twice.text) != 0) {
        printf("%s:\n  %s\nnot\n  %s\n", what, twice.text, once.text);
        failed = 1;
    }
    expect(what, strstr(twice.text, " outside 14 open 0 copy 0 nulls 0 copy 0 ") != NULL, 1);
    expect(what, strstr(twice.text, " finish 0 ") != NULL, 1);
    expect(what, twice.parts[0] > 4 * GIB, 1);
}

static void kinds(void) {
    struct column f;
    both("i", lay_numbers, 0, &f);
    expect("i, where its rows begin", f.places[BUFFER_1] > 9 * GIB, 1);
    both("u", lay_text, 0, &f);
    const char *const text[8] = {"ab", NULL, "aaa", NULL, NULL, "AB", NULL, "AAA"};
    for (uint64_t r = 0; r < 8; r++) row_is("u", &twice, &f, r, text[r]);
    both("vu", lay_views, 0, &f);
    const char *const views[6] = {"abcdefghijklmn", "aaa", NULL, NULL, "ABCDEFGHIJKLMN", "AAA"};
    for (uint64_t r = 0; r < 6; r++) row_is("vu", &twice, &f, r, views[r]);
    expect("vu, its data stays where it was", f.buffers[0] > 9 * GIB / 2, 1);
    both("+vl", lay_list_views, 0, &f);
    both("+l", lay_lists, 0, &f);
    both("+us", lay_sparse, 0, &f);
    both("+ud", lay_dense, 0, &f);
    both("+r", lay_runs, 0, &f);
    both("dictionaries that are joined", lay_keys, 0, &f);
    both("a dictionary that is shared", lay_keys, 1, &f);
    expect("its entries stay where they were", f.places[9 + BUFFER_2] > 9 * GIB / 2 && f.places[9 + BUFFER_2] < FIVE, 1);
}

/* ---- numbers above 2^32 in the columns themselves */

/* Two sources of one row each, described by places that are not moved, joined as ever. */
static void far(const char *what, const struct column *c, const char *first, const char *second) {
    struct ground g = large;
    struct column f;
    g.source[0] = g.source[1] = 0;
    run(&twice, c, g, &f);
    expect(what, strstr(twice.text, " finish 0 ") != NULL, 1);
    row_is(what, &twice, &f, 0, first);
    row_is(what, &twice, &f, 3, second);
}

/* A view's 13 bytes 20 before the end of what its offset reaches, in a data buffer of 4.3 GiB. */
static void far_views(void) {
    struct column c = no_column();
    const uint64_t start = 300 << 20, offset = UINT32_MAX - 20;
    const char *const rows[2] = {"thirteen byte", "another thing"};
    for (int s = 0; s < 2; s++) {
        uint8_t view[16] = {13};
        uint64_t at = offset - 13 * (uint64_t)s;
        memcpy(view + 4, rows[s], 4);
        memcpy(view + 12, &at, 4);
        memcpy(large.all + start + at, rows[s], 13);
        node(&c, "vu", 0, 1, 0);
        numbers(&c, BUFFER_1, 1, view, 16);
        c.places[9 * s + FIRST_DATA] = (uint64_t)s;
        c.places[9 * s + DATA_COUNT] = 1;
        c.buffers[2 * s] = start;
        c.buffers[2 * s + 1] = 4 * GIB + (300 << 20);
    }
    c.ranges = 2;
    far("a view's offset above 4 GiB", &c, rows[0], rows[1]);
}

/* Byte strings whose offsets of eight bytes are above 4 GiB, in a buffer that is the whole body. */
static void far_text(void) {
    struct column c = no_column();
    const char *const rows[2] = {"hello", "depot"};
    for (uint64_t s = 0; s < 2; s++) {
        const uint64_t start = 4 * GIB + 700 * (s + 1), offsets[2] = {start, start + 5};
        memcpy(large.all + start, rows[s], 5);
        node(&c, "U", 0, 1, 0);
        wide_numbers(&c, BUFFER_1, 8, offsets, 2);
        c.places[9 * s + BUFFER_2 + 1] = FIVE;
    }
    far("an offset above 4 GiB", &c, rows[0], rows[1]);
}

/* Large lists whose rows stand above 4 GiB in a child of more than 2^32 rows. */
static void far_lists(void) {
    struct column c = no_column(), f;
    struct ground g = large;
    for (uint64_t s = 0; s < 2; s++) {
        const uint64_t start = 4 * GIB + 900 * (s + 1), offsets[2] = {start, start + 2};
        memcpy(large.all + start, "xyz" + s, 2);
        node(&c, "+L", 1, 1, 0);
        wide_numbers(&c, BUFFER_1, 8, offsets, 2);
        node(&c, "C", 0, FIVE, 0);
        c.places[9 * (c.nodes - 1) + BUFFER_1 + 1] = FIVE;
    }
    g.source[0] = g.source[1] = 0;
    run(&twice, &c, g, &f);
    expect("lists above 4 GiB", strstr(twice.text, " kind 6 ground 0 kind 2 120 ground 0 kind 2 121 ground 0 kind 0 ") != NULL, 1);
    expect("lists above 4 GiB", strstr(twice.text, " kind 6 ground 0 kind 2 121 ground 0 kind 2 122") != NULL, 1);
}

/* Where a buffer ends with the body, or one byte further; what 2^33 nulls need. */
static void edges(void) {
    struct column c = no_column();
    node(&c, "C", 0, 1, 0);
    numbers(&c, BUFFER_1, 1, NULL, 1);
    node(&c, "C", 0, 1, 0);
    numbers(&c, BUFFER_1, 1, NULL, 1);
    begin(&twice, &c, large);
    const struct { uint64_t at, size, length; uint8_t ground; } list[] = {
        {FIVE - 1, 1, 1, FINE}, {FIVE, 1, 1, BAD}, {FIVE, 0, 0, FINE}, {FIVE + 1, 0, 0, BAD}, {4 * GIB, GIB, GIB, FINE}, {4 * GIB, GIB + 1, GIB, BAD},
        {4 * GIB, GIB, GIB + 1, BAD}, {0, FIVE, FIVE, FINE}, {8 * GIB, 1, 1, BAD}, {0, 8 * GIB, 1, BAD}, {UINT64_MAX, 1, 1, BAD}, {1, UINT64_MAX, 1, BAD},
    };
    for (size_t k = 0; k < sizeof list / sizeof *list; k++) {
        twice.c.places[BUFFER_1] = list[k].at;
        twice.c.places[BUFFER_1 + 1] = list[k].size;
        twice.c.lengths[LENGTH] = list[k].length;
        expect("an edge of the body", lafkuno_column_ground(COLUMN_OF(&twice), 0, 1), list[k].ground);
    }
    twice.c.lengths[LENGTH] = 0;
    twice.c.places[BUFFER_1 + 1] = twice.c.places[BUFFER_1] = 0;
    expect("2^33 nulls", lafkuno_plan_parts(TABLES_OF(&twice), 1, 0, PLAN_OF(&twice)), FINE);
    expect("2^33 nulls", lafkuno_measure_nulls(PLAN_OF(&twice), COUNTERS_OF(&twice), 8 * GIB), FINE);
    expect("2^33 nulls, their validity", lafkuno_needed_bytes(PLAN_OF(&twice), COUNTERS_OF(&twice), 0), GIB);
    expect("2^33 nulls, their values", lafkuno_needed_bytes(PLAN_OF(&twice), COUNTERS_OF(&twice), 1), 8 * GIB);
}

int main(void) {
    static uint8_t little[2 * SMALL];
    void *all = mmap(NULL, 2 * FIVE, PROT_READ | PROT_WRITE, MAP_PRIVATE | MAP_ANONYMOUS | MAP_NORESERVE, -1, 0);
    if (all == MAP_FAILED) {
        puts("skipped: the machine does not map 10 GiB, so that no body above 4 GiB was tried");
        return 0;
    }
    small = (struct ground){little, SMALL, SMALL, {8, 2000}, 16};
    large = (struct ground){all, FIVE, FIVE, {4 * GIB + GIB / 2, 4 * GIB - 20}, 4 * GIB + 5};
    kinds();
    far_views();
    far_text();
    far_lists();
    edges();
    if (!failed) puts("bodies and rooms of 5 GiB: as small ones");
    munmap(all, 2 * FIVE);
    return failed;
}
