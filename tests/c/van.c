/* One van, one stop, two kilometres: a box sends a batch of eight rows that begins in the yard, and the trip is its last four. Each column
 * is joined (two rows, a null, two rows), finished and read back row by row; refused orders must change nothing.
 *     gcc -Wall -Wextra -I include tests/c/van.c -L target/staticlib -llafkuno -o van && ./van
 * Every slice is allocated at its own size, so that valgrind sees a step outside. */
#include <lafkuno.h>
#include <stdio.h>
#include <stdlib.h>
#include <string.h>
#include <time.h>

/* A column and the tables that describe it (docs/FORMAT.md); the body is at most 512 bytes. */
struct column {
    uint8_t formats[32];
    uint32_t formats_len, nodes, body_len;
    uint32_t schema[5 * 4];
    uint64_t lengths[2 * 4], places[9 * 4];
    uint8_t body[512];
};

/* What a row must read as. */
struct row {
    uint8_t kind;
    int id; /* of the union on the way, or -1 */
    int64_t number;
    const char *text;
};

static const uint64_t no_buffers[1];
static int failed;

static void expect(const char *what, uint64_t got, uint64_t wanted) {
    if (got != wanted) {
        fprintf(stderr, "%s: %llu, not %llu\n", what, (unsigned long long)got, (unsigned long long)wanted);
        failed = 1;
    }
}

/* A copy that is as large as it must be. */
static void *lend(const void *from, size_t size) {
    void *to = malloc(size ? size : 1);
    if (!to) exit(2);
    if (from) memcpy(to, from, size);
    else memset(to, 0xa5, size);
    return to;
}

/* A nullable node behind the others. */
static uint32_t node(struct column *c, const char *format, uint32_t children, uint64_t length, uint64_t offset) {
    uint32_t i = c->nodes++, len = (uint32_t)strlen(format);
    const uint32_t schema[5] = {c->formats_len, len, 2, children, 0};
    memcpy(c->formats + c->formats_len, format, len);
    c->formats_len += len;
    memcpy(c->schema + 5 * i, schema, sizeof schema);
    c->lengths[2 * i] = length;
    c->lengths[2 * i + 1] = offset;
    return i;
}

/* Buffer b of node i; 0 is the validity. */
static void buffer(struct column *c, uint32_t i, uint32_t b, const void *bytes, uint32_t size) {
    if (b == 0) c->places[9 * i] = 1;
    c->places[9 * i + 1 + 2 * b] = c->body_len;
    c->places[9 * i + 2 + 2 * b] = size;
    memcpy(c->body + c->body_len, bytes, size);
    c->body_len += size;
}

/* Row r of the opened column against what it must be. */
static void expect_row(const char *name, const struct column *c, const uint64_t *tree, uint32_t first, uint64_t r, struct row wanted) {
    char what[64];
    uint64_t *answer = lend(NULL, 8 * LAFKUNO_ANSWER);
    uint8_t kind = lafkuno_read_row(tree, LAFKUNO_TREE, c->lengths, 2 * c->nodes, c->places, 9 * c->nodes, no_buffers, 0, c->body,
                                    c->body_len, first, r, answer, LAFKUNO_ANSWER);
    snprintf(what, sizeof what, "%s, row %d", name, (int)r);
    expect(what, kind, wanted.kind);
    if (LAFKUNO_REFUSED <= wanted.kind) {
        free(answer);
        return;
    }
    expect(what, answer[3], wanted.id < 0 ? 0 : 1);
    expect(what, answer[4], wanted.id < 0 ? 0 : (uint64_t)wanted.id);
    if (wanted.text) {
        expect(what, answer[1], strlen(wanted.text));
        expect(what, memcmp(c->body + answer[0], wanted.text, strlen(wanted.text)) == 0, 1);
    } else {
        expect(what, answer[0], (uint64_t)wanted.number);
    }
    for (int k = 5; k < LAFKUNO_ANSWER; k++) expect(what, answer[k], 0);
    free(answer);
}

#define TABLES sources, 2, formats, c->formats_len, schema, 5 * n, lengths, 2 * n, places, 9 * n, buffers, 0, body, c->body_len
#define SOURCES sources, 2, lengths, 2 * n, places, 9 * n, body, c->body_len
#define PLAN plan, LAFKUNO_PLAN
#define COUNTERS counters, LAFKUNO_COUNTERS
#define PARTS parts, 2 * count
#define ROOM room, size

/* Rows 0 and 1, a null, rows 2 and 3 of the column as the finished array, over a body that has the room behind the old body. */
static struct column join(const char *name, const struct column *c, uint64_t nulls) {
    const uint32_t n = c->nodes, one[2] = {0, n};
    uint32_t *sources = lend(one, sizeof one), *schema = lend(c->schema, 20 * n);
    uint64_t *places = lend(c->places, 72 * n), *buffers = lend(NULL, 0);
    uint8_t *formats = lend(c->formats, c->formats_len), *body = lend(c->body, c->body_len);
    uint64_t *lengths = lend(c->lengths, 16 * n), *plan = lend(NULL, 8 * LAFKUNO_PLAN), *counters = lend(NULL, 8 * LAFKUNO_COUNTERS);

    /* the parts, each as large as the orders need */
    expect(name, lafkuno_plan_parts(TABLES, 1, 0, plan, LAFKUNO_PLAN - 1), LAFKUNO_BAD_PARTS);
    expect(name, lafkuno_plan_parts(TABLES, 1, 0, PLAN), LAFKUNO_DONE);
    expect(name, lafkuno_measure_open(PLAN, SOURCES, COUNTERS), LAFKUNO_DONE);
    expect(name, lafkuno_measure_copy(PLAN, SOURCES, COUNTERS, 0, 0, 2), LAFKUNO_DONE);
    expect(name, lafkuno_measure_nulls(PLAN, COUNTERS, 1), LAFKUNO_DONE);
    expect(name, lafkuno_measure_copy(PLAN, SOURCES, COUNTERS, 0, 2, 4), LAFKUNO_DONE);
    uint32_t count = lafkuno_part_count(PLAN), size = 0;
    uint64_t *parts = lend(NULL, 16 * count);
    for (uint32_t p = 0; p < count; p++) {
        parts[2 * p] = size;
        size += (uint32_t)(parts[2 * p + 1] = lafkuno_needed_bytes(PLAN, COUNTERS, p));
        expect(name, lafkuno_part_node(PLAN, p) < n, 1);
        expect(name, lafkuno_part_buffer(PLAN, p) < 3, 1);
    }
    expect(name, lafkuno_part_node(PLAN, count), UINT64_MAX);
    uint8_t *room = lend(NULL, size);

    /* the orders, refused ones among them */
    expect(name, lafkuno_open(TABLES, 1, 0, parts, 2 * count - 2, PLAN, COUNTERS, ROOM), LAFKUNO_BAD_PARTS);
    expect(name, lafkuno_open(TABLES, 1, 0, PARTS, PLAN, COUNTERS, ROOM), LAFKUNO_DONE);
    expect(name, lafkuno_copy(PLAN, PARTS, SOURCES, COUNTERS, ROOM, 0, 0, 2), LAFKUNO_DONE);
    expect(name, lafkuno_nulls(PLAN, PARTS, COUNTERS, ROOM, 1), LAFKUNO_DONE);
    uint64_t *counters_before = lend(counters, 8 * LAFKUNO_COUNTERS);
    uint8_t *room_before = lend(room, size);
    expect(name, lafkuno_copy(PLAN, PARTS, SOURCES, COUNTERS, ROOM, 1, 0, 2), LAFKUNO_NO_SUCH_SOURCE);
    expect(name, lafkuno_copy(PLAN, PARTS, SOURCES, COUNTERS, ROOM, 0, 2, 5), LAFKUNO_NO_SUCH_ROWS);
    expect(name, lafkuno_nulls(PLAN, PARTS, COUNTERS, ROOM, 9), LAFKUNO_ROOM_TOO_SMALL);
    expect(name, memcmp(counters, counters_before, 8 * LAFKUNO_COUNTERS) == 0 && memcmp(room, room_before, size) == 0, 1);
    expect(name, lafkuno_copy(PLAN, PARTS, SOURCES, COUNTERS, ROOM, 0, 2, 4), LAFKUNO_DONE);
    expect(name, lafkuno_running_nulls(COUNTERS), nulls);

    /* the finished array */
    struct column out = *c;
    uint64_t *new_lengths = lend(NULL, 16 * n), *new_nulls = lend(NULL, 8 * n);
    uint64_t *new_places = lend(NULL, 72 * n), *new_buffers = lend(NULL, 0);
    expect(name, lafkuno_buffer_total(PLAN, sources, 2, places, 9 * n), 0);
    expect(name, lafkuno_finish(PLAN, PARTS, sources, 2, lengths, 2 * n, places, 9 * n, buffers, 0, body, c->body_len, COUNTERS, ROOM, c->body_len,
                                new_lengths, 2 * n, new_nulls, n, new_places, 9 * n, new_buffers, 0), LAFKUNO_DONE);
    memcpy(out.lengths, new_lengths, 16 * n);
    memcpy(out.places, new_places, 72 * n);
    memcpy(out.body + c->body_len, room, size);
    out.body_len += size;
    expect(name, out.lengths[0], 5);
    expect(name, out.lengths[1], 0);
    void *lent[] = {sources, schema, places, buffers, formats, body, lengths, plan, counters, parts, room,
                    counters_before, room_before, new_lengths, new_nulls, new_places, new_buffers};
    for (size_t k = 0; k < sizeof lent / sizeof *lent; k++) free(lent[k]);
    return out;
}

/* The tree of the column of n nodes from node `first` on. */
static void open_column(const char *name, const struct column *c, uint32_t first, uint32_t n, uint64_t *tree) {
    expect(name, lafkuno_open_column(c->formats, c->formats_len, c->schema, 5 * c->nodes, c->lengths, 2 * c->nodes, c->places, 9 * c->nodes,
                                     no_buffers, 0, c->body, c->body_len, first, n, tree, LAFKUNO_TREE), LAFKUNO_DONE);
}

static void expect_rows(const char *name, const struct column *c, const struct row wanted[5]) {
    uint64_t *tree = lend(NULL, 8 * LAFKUNO_TREE), answer[LAFKUNO_ANSWER] = {7};
    const struct row none = {LAFKUNO_REFUSED + LAFKUNO_NO_SUCH_ROWS, -1, 0, NULL};
    open_column(name, c, 0, c->nodes, tree);
    for (uint64_t r = 0; r < 5; r++) expect_row(name, c, tree, 0, r, wanted[r]);
    expect_row(name, c, tree, 0, 5, none);
    expect(name, lafkuno_read_row(tree, LAFKUNO_TREE, c->lengths, 2 * c->nodes, c->places, 9 * c->nodes, no_buffers, 0, c->body, c->body_len,
                                  0, 0, answer, LAFKUNO_ANSWER - 1), LAFKUNO_REFUSED + LAFKUNO_BAD_PARTS);
    expect(name, lafkuno_read_row(tree, LAFKUNO_TREE, c->lengths, 2 * c->nodes, c->places, 9 * c->nodes, no_buffers, 0, c->body, c->body_len,
                                  0, 5, answer, LAFKUNO_ANSWER - 1), LAFKUNO_REFUSED + LAFKUNO_NO_SUCH_ROWS);
    expect(name, answer[0], 7);
    expect(name, lafkuno_open_column(c->formats, c->formats_len, c->schema, 5 * c->nodes, c->lengths, 2 * c->nodes, c->places, 9 * c->nodes,
                                     no_buffers, 0, c->body, c->body_len, 0, c->nodes, answer, LAFKUNO_ANSWER), LAFKUNO_BAD_PARTS);
    expect(name, lafkuno_open_column(c->formats, c->formats_len, c->schema, 5 * c->nodes, c->lengths, 2 * c->nodes, c->places, 9 * c->nodes,
                                     no_buffers, 0, c->body, 0, 0, c->nodes, answer, LAFKUNO_ANSWER), LAFKUNO_BAD_SOURCE);
    expect(name, answer[0], 7);
    free(tree);
}

/* Metres since the last row: 50 in the yard, then two kilometres with a row that the box lost. */
static void metres(void) {
    struct column c = {0};
    const int32_t values[8] = {10, 20, 15, 5, 800, -1, 700, 500};
    const uint8_t valid = 0xdf;
    uint32_t i = node(&c, "i", 0, 4, 4);
    buffer(&c, i, 0, &valid, 1);
    buffer(&c, i, 1, values, sizeof values);
    const struct row wanted[5] = {{LAFKUNO_SIGNED, -1, 800, NULL}, {0, -1, 0, NULL}, {0, -1, 0, NULL},
                                  {LAFKUNO_SIGNED, -1, 700, NULL}, {LAFKUNO_SIGNED, -1, 500, NULL}};
    struct column out = join("metres", &c, 2);
    expect_rows("metres", &out, wanted);
    int64_t sum = 0;
    for (int r = 0; r < 5; r++) sum += wanted[r].number;
    expect("two kilometres", (uint64_t)sum, 2000);
}

/* Where the van is: byte strings. */
static void names(void) {
    struct column c = {0};
    const int32_t offsets[9] = {0, 4, 8, 12, 16, 21, 25, 25, 30};
    uint32_t i = node(&c, "u", 0, 4, 4);
    buffer(&c, i, 1, offsets, sizeof offsets);
    buffer(&c, i, 2, "yardyardyardyarddepotstopdepot", 30);
    const struct row wanted[5] = {{LAFKUNO_BYTES, -1, 0, "depot"}, {LAFKUNO_BYTES, -1, 0, "stop"}, {0, -1, 0, NULL},
                                  {LAFKUNO_BYTES, -1, 0, ""}, {LAFKUNO_BYTES, -1, 0, "depot"}};
    struct column out = join("names", &c, 1);
    expect_rows("names", &out, wanted);
}

/* Events: a dense union of speeds (id 5) and texts (id 7). */
static void events(void) {
    struct column c = {0};
    const uint8_t ids[8] = {7, 7, 7, 7, 5, 7, 5, 7};
    const int32_t positions[8] = {0, 0, 0, 0, 0, 1, 1, 2}, offsets[4] = {0, 4, 8, 13};
    const float speeds[2] = {50.5f, -0.0f};
    uint32_t i = node(&c, "+ud:5,7", 2, 4, 4), a = node(&c, "f", 0, 2, 0), b = node(&c, "u", 0, 3, 0);
    buffer(&c, i, 1, ids, sizeof ids);
    buffer(&c, i, 2, positions, sizeof positions);
    buffer(&c, a, 1, speeds, sizeof speeds);
    buffer(&c, b, 1, offsets, sizeof offsets);
    buffer(&c, b, 2, "yardstopdepot", 13);
    const struct row wanted[5] = {{LAFKUNO_SINGLE, 5, 0x424a0000, NULL}, {LAFKUNO_BYTES, 7, 0, "stop"}, {0, 5, 0, NULL},
                                  {LAFKUNO_SINGLE, 5, 0x80000000, NULL}, {LAFKUNO_BYTES, 7, 0, "depot"}};
    struct column out = join("events", &c, 1);
    expect_rows("events", &out, wanted);
}

/* Five rows of lists of numbers, the third null: how many each has, where it begins unless that is left out, and all numbers row by row. */
static void expect_lists(const char *name, struct column *out, uint32_t child, const uint64_t many[5], const uint64_t starts[5], const uint64_t *numbers) {
    uint64_t *tree = lend(NULL, 8 * LAFKUNO_TREE), *below = lend(NULL, 8 * LAFKUNO_TREE), answer[LAFKUNO_ANSWER];
    open_column(name, out, 0, 2, tree);
    open_column(name, out, 1, 1, below);
    for (uint64_t r = 0; r < 5; r++) {
        expect(name, lafkuno_read_row(tree, LAFKUNO_TREE, out->lengths, 4, out->places, 18, no_buffers, 0, out->body, out->body_len, 0, r,
                                      answer, LAFKUNO_ANSWER), r == 2 ? LAFKUNO_NULL : LAFKUNO_LIST);
        if (r == 2) continue;
        expect(name, answer[0], child);
        if (starts) expect(name, answer[1], starts[r]);
        expect(name, answer[2], many[r]);
        for (uint64_t k = 0; k < many[r]; k++) {
            const struct row one = {LAFKUNO_UNSIGNED, -1, (int64_t)*numbers++, NULL};
            expect_row(name, out, below, child, answer[1] + k, one);
        }
    }
    free(tree);
    free(below);
}

/* Parcels of each stop: list-views of numbers. */
static void parcels(void) {
    struct column c = {0};
    const int32_t offsets[8] = {0, 0, 0, 0, 3, 0, 1, 0}, sizes[8] = {0, 0, 0, 0, 2, 1, 0, 3};
    const uint64_t parcels[5] = {11, 12, 13, 14, UINT64_MAX};
    uint32_t i = node(&c, "+vl", 1, 4, 4), a = node(&c, "L", 0, 5, 0);
    buffer(&c, i, 1, offsets, sizeof offsets);
    buffer(&c, i, 2, sizes, sizeof sizes);
    buffer(&c, a, 1, parcels, sizeof parcels);
    struct column out = join("parcels", &c, 1);
    const uint64_t many[5] = {2, 1, 0, 0, 3}, wanted[6] = {14, UINT64_MAX, 11, 11, 12, 13};
    expect_lists("parcels", &out, a, many, NULL, wanted);
}

/* Stops of each trip: lists of numbers over a child that begins in its middle. */
static void stops(void) {
    struct column c = {0};
    const int32_t offsets[9] = {9, 9, 9, 9, 1, 3, 4, 4, 6};
    const uint64_t stops[7] = {0, 10, 11, 12, 13, 14, 15};
    uint32_t i = node(&c, "+l", 1, 4, 4), a = node(&c, "L", 0, 6, 1);
    buffer(&c, i, 1, offsets, sizeof offsets);
    buffer(&c, a, 1, stops, sizeof stops);
    struct column out = join("stops", &c, 1);
    const uint64_t many[5] = {2, 1, 0, 0, 2}, starts[5] = {0, 2, 0, 3, 3}, wanted[5] = {11, 12, 13, 14, 15};
    expect_lists("stops", &out, a, many, starts, wanted);
}

/* A plan that no opening wrote: a copy that could not be made in the lent room is refused, and one over a plan whose subtrees fall back ends at once. */
static void foreign(void) {
    struct column k = {0}, *c = &k;
    const int32_t values[3] = {1, 2, 3};
    buffer(c, node(c, "i", 0, 3, 0), 1, values, sizeof values);
    const uint32_t n = 1, sources[2] = {0, 1}, count = 1, *schema = c->schema;
    const uint8_t *body = c->body;
    const uint64_t *lengths = c->lengths, *places = c->places, *buffers = no_buffers, parts[2] = {0, 12};
    const uint8_t *formats = c->formats;
    uint8_t *room = lend(NULL, 12);
    uint64_t *plan = lend(NULL, 8 * LAFKUNO_PLAN), *counters = lend(NULL, 8 * LAFKUNO_COUNTERS);
    expect("foreign", lafkuno_open(TABLES, 0, 0, PARTS, PLAN, COUNTERS, room, 12), LAFKUNO_DONE);
    plan[865] = 0; /* no node, so no part to ask */
    expect("no node", lafkuno_copy(PLAN, PARTS, SOURCES, COUNTERS, room, 0, 0, 0, 3), LAFKUNO_BAD_PARTS);
    expect("no node", lafkuno_measure_copy(PLAN, SOURCES, COUNTERS, 0, 0, 3), LAFKUNO_BAD_PARTS);
    expect("no node", counters[0], 0);
    memset(plan, 0, 8 * LAFKUNO_PLAN);
    plan[864] = 1;
    plan[865] = 32;
    plan[5] = 1;
    enum { NUMBERS = 1, SPARSE = 21 }; /* codes of formats in a plan */
    for (int i = 0; i < 32; i++) { /* sparse unions, one in the other; the child behind node k ends where k begins, so that k comes again */
        plan[8 * i] = i < 7 ? SPARSE : NUMBERS;
        plan[8 * i + 2] = i == 7 ? 7 : (uint64_t)(32 - i);
        plan[8 * i + 4] = 1;
    }
    clock_t begun = clock();
    expect("fallen", lafkuno_copy(PLAN, PARTS, SOURCES, COUNTERS, room, 12, 0, 0, 1), LAFKUNO_BAD_PARTS);
    expect("fallen", lafkuno_nulls(PLAN, PARTS, COUNTERS, room, 12, 1), LAFKUNO_BAD_PARTS);
    expect("fallen", lafkuno_measure_copy(PLAN, SOURCES, COUNTERS, 0, 0, 1), LAFKUNO_BAD_PARTS);
    expect("at once", clock() - begun < CLOCKS_PER_SEC, 1);
    free(room);
    free(plan);
    free(counters);
}

/* K3 followed by 2 nulls: with one run for gaps the last run grows, and needs no more room. */
static void gaps(void) {
    const int32_t ends[3] = {2, 5, 9}, each[6] = {3, 4, 7, 8, 13, 15}, one[5] = {3, 4, 7, 8, 15};
    for (uint8_t chosen = 0; chosen < 2; chosen++) {
        struct column k = {0}, *c = &k;
        node(c, "+r", 2, 8, 1);
        buffer(c, node(c, "i", 0, 3, 0), 1, ends, sizeof ends);
        buffer(c, node(c, "C", 0, 3, 0), 1, "ABC", 3);
        const uint32_t n = 3, sources[2] = {0, 3}, count = 3, runs = chosen ? 5 : 6, *schema = c->schema;
        const uint64_t *lengths = c->lengths, *places = c->places, *buffers = no_buffers, parts[6] = {0, 4 * runs, 24, 1, 25, runs};
        const uint8_t *body = c->body, *formats = c->formats;
        uint8_t *room = lend(NULL, 31);
        uint64_t *plan = lend(NULL, 8 * LAFKUNO_PLAN), *counters = lend(NULL, 8 * LAFKUNO_COUNTERS);
        expect("gaps", lafkuno_plan_parts(TABLES, 1, chosen, PLAN), LAFKUNO_DONE);
        expect("gaps, the plan's word", plan[867], chosen);
        expect("gaps", lafkuno_open(TABLES, 1, chosen, PARTS, PLAN, COUNTERS, room, 31), LAFKUNO_DONE);
        expect("gaps, at the opening", counters[2], chosen);
        for (int twice = 0; twice < 2; twice++)
            expect("gaps", lafkuno_copy(PLAN, PARTS, SOURCES, COUNTERS, room, 31, 0, 1, 5), LAFKUNO_DONE);
        expect("gaps, after copies", counters[2], chosen);
        expect("gaps", lafkuno_nulls(PLAN, PARTS, COUNTERS, room, 31, 5), LAFKUNO_DONE);
        expect("gaps, after nulls", counters[2], 2 * chosen);
        expect("gaps", lafkuno_nulls(PLAN, PARTS, COUNTERS, room, 31, 2), LAFKUNO_DONE);
        expect("gaps, rows", counters[0], 15);
        expect("gaps, runs", counters[3], runs);
        expect("gaps, running nulls", lafkuno_running_nulls(COUNTERS), 7);
        expect("gaps, the values' nulls", counters[7], chosen ? 1 : 2);
        expect("gaps, run ends", memcmp(room, chosen ? one : each, 4 * runs), 0);
        expect("gaps, too far", lafkuno_nulls(PLAN, PARTS, COUNTERS, room, 31, 2147483633), LAFKUNO_RUN_END_TOO_LARGE);
        expect("gaps, the last row", lafkuno_nulls(PLAN, PARTS, COUNTERS, room, 31, 2147483632), chosen ? LAFKUNO_DONE : LAFKUNO_ROOM_TOO_SMALL);
        free(room);
        free(plan);
        free(counters);
    }
}

/* The ground of the box around rows of both columns; the room must be left as it was where it is refused. */
static uint8_t frame(const struct column *c, uint64_t start, uint64_t end, double *room) {
    const double before = room[0];
    uint8_t ground = lafkuno_frame(c->formats, c->formats_len, c->schema, 5 * c->nodes, c->lengths, 2 * c->nodes, c->places, 9 * c->nodes,
                                   no_buffers, 0, c->body, c->body_len, 0, 1, 1, 1, start, end, room, 4);
    if (ground) expect("frame, refused", room[0] == before, 1);
    return ground;
}

/* Where the van was: the yard's places, of the rows before the slice, are in no box. */
static void places(void) {
    struct column c = {0};
    const double latitudes[8] = {0, 0, 0, 0, 55.95, 55.97, 12.5, 55.94}, longitudes[8] = {0, 0, 0, 0, -3.19, -3.2, -9, -3.17};
    const uint8_t bits = 0xbf;
    uint32_t a = node(&c, "g", 0, 4, 4), b = node(&c, "g", 0, 4, 4);
    buffer(&c, a, 1, latitudes, sizeof latitudes);
    buffer(&c, b, 1, longitudes, sizeof longitudes);
    buffer(&c, b, 0, &bits, 1);
    double *left = lend(latitudes, 32), *right = lend(latitudes, 32), *both = lend(latitudes, 32), *joined = lend(latitudes, 32);
    expect("frame", frame(&c, 0, 2, left), LAFKUNO_DONE);
    expect("frame", frame(&c, 2, 4, right), LAFKUNO_DONE);
    expect("frame", frame(&c, 0, 4, both), LAFKUNO_DONE);
    expect("frames joined", lafkuno_join_frames(left, 4, right, 4, joined, 4), LAFKUNO_DONE);
    expect("frames joined", memcmp(both, joined, 32), 0);
    expect("south", both[0] == 55.94, 1);
    expect("north", both[1] == 55.97, 1);
    expect("west", both[2] == -3.2, 1);
    expect("east", both[3] == -3.17, 1);
    expect("frame, null", frame(&c, 2, 3, both), LAFKUNO_NOTHING_COUNTED);
    expect("frame, past the slice", frame(&c, 2, 5, both), LAFKUNO_NO_SUCH_ROWS);
    expect("frames joined, three numbers", lafkuno_join_frames(left, 3, right, 4, joined, 4), LAFKUNO_BAD_PARTS);
    free(left);
    free(right);
    free(both);
    free(joined);
}

int main(void) {
    places();
    metres();
    names();
    events();
    stops();
    parcels();
    foreign();
    gaps();
    puts(failed ? "not as ordered" : "one van, one stop, two kilometres: as ordered");
    return failed;
}
