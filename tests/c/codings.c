/* A fixed-width column into runs and back (02, W1): a sliced column first, equal and different neighbours, nulls beside equal bytes, floats
 * by their bits, the largest run end, and grounds that meet. A line has the run ends, the values and the values' validity, or the ground.
 *     cc -I include tests/c/codings.c tests/c/column.c tests/c/lent.c -L target/staticlib -llafkuno -llafkuno_anew -o codings
 *     ./codings | diff - tests/c/codings.out
 * Every slice is lent at its own size between guards; with --bare there are none, and valgrind sees every step outside. */
#include "column.h"
#include <stdio.h>
#include <string.h>

enum { ROOM = 256, MOST_PARTS = 4 };

static uint64_t plan[LAFKUNO_PLAN], counters[LAFKUNO_COUNTERS], parts[2 * MOST_PARTS];
static uint64_t asked_plan[LAFKUNO_PLAN], asked_counters[LAFKUNO_COUNTERS];
static uint8_t room[ROOM];

/* What a call takes: the column's first node and its nodes, the first node of the result's type, and the rows. */
struct range {
    uint32_t first, n, target;
    uint64_t start, end;
};

typedef uint8_t asks(const uint8_t *, size_t, const uint32_t *, size_t, const uint64_t *, size_t, const uint64_t *, size_t, const uint64_t *, size_t,
                     const uint8_t *, size_t, uint32_t, uint32_t, uint32_t, uint64_t, uint64_t, uint64_t *, size_t, uint64_t *, size_t);
typedef uint8_t does(const uint8_t *, size_t, const uint32_t *, size_t, const uint64_t *, size_t, const uint64_t *, size_t, const uint64_t *, size_t,
                     const uint8_t *, size_t, uint32_t, uint32_t, uint32_t, uint64_t, uint64_t, const uint64_t *, size_t, uint64_t *, size_t,
                     uint64_t *, size_t, uint8_t *, size_t);

/* Asks what the parts need and lends exactly that, `slack` bytes more each or, where it is negative, fewer of the last one; then writes. The
 * ground. */
static uint8_t run(asks *ask, does *call, struct range r, int slack, uint32_t *count) {
    memset(room, 0xaa, sizeof room);
    uint8_t ground = ask(TABLES, r.first, r.n, r.target, r.start, r.end, plan, LAFKUNO_PLAN, counters, LAFKUNO_COUNTERS);
    if (ground != FINE) return ground;
    *count = lafkuno_part_count(plan, LAFKUNO_PLAN);
    uint64_t at = 3;
    for (uint32_t p = 0; p < *count; p++) {
        parts[2 * p] = at;
        parts[2 * p + 1] = lafkuno_needed_bytes(plan, LAFKUNO_PLAN, counters, LAFKUNO_COUNTERS, p);
        if (slack > 0) parts[2 * p + 1] += (uint64_t)slack;
        at += parts[2 * p + 1] + 2;
    }
    if (slack < 0 && *count) parts[2 * *count - 1] -= (uint64_t)-slack;
    memcpy(asked_plan, plan, sizeof plan);
    memcpy(asked_counters, counters, sizeof counters);
    memset(plan, 0, sizeof plan);
    memset(counters, 0, sizeof counters);
    return call(TABLES, r.first, r.n, r.target, r.start, r.end, parts, 2 * *count, plan, LAFKUNO_PLAN, counters, LAFKUNO_COUNTERS, room, ROOM);
}

/* Whether no byte beside the parts was written. */
static int kept(uint32_t count) {
    for (unsigned i = 0; i < ROOM; i++) {
        int inside = 0;
        for (uint32_t p = 0; p < count; p++) inside |= parts[2 * p] <= i && i < parts[2 * p] + parts[2 * p + 1];
        if (!inside && room[i] != 0xaa) return 0;
    }
    return 1;
}

static void show(const char *what, const struct column *c, asks *ask, does *call, struct range r, int slack) {
    uint32_t count = 0;
    lend_column(c);
    uint8_t ground = run(ask, call, r, slack, &count);
    printf("%s:", what);
    if (ground != FINE) printf(" %d", ground);
    for (uint32_t p = 0; ground == FINE && p < count; p++) {
        printf(" %llu.%llu", (unsigned long long)lafkuno_part_node(plan, LAFKUNO_PLAN, p), (unsigned long long)lafkuno_part_buffer(plan, LAFKUNO_PLAN, p));
        for (uint64_t i = 0; i < parts[2 * p + 1]; i++) printf("%c%02x", i ? ' ' : '=', room[parts[2 * p] + i]);
    }
    if (ground == FINE && (memcmp(asked_plan, plan, sizeof plan) || memcmp(asked_counters, counters, sizeof counters))) printf(" NOT AS ASKED");
    puts(ground == FINE ? kept(count) ? "" : " WROTE BESIDE" : "");
}

static void encodes(const char *what, const struct column *c, struct range r) { show(what, c, lafkuno_plan_encode, lafkuno_encode, r, 0); }
static void expands(const char *what, const struct column *c, struct range r) { show(what, c, lafkuno_plan_expand, lafkuno_expand, r, 0); }

/* The type of runs of a format, behind the nodes that are there. */
static void target(struct column *c, const char *ends, const char *format) {
    node(c, "+r", 2, 0, 0);
    node(c, ends, 0, 0, 0);
    node(c, format, 0, 0, 0);
}

/* An ignition state, sliced from slot 3 on: 1 1 0 null null 0 1, one null over its neighbours' byte. */
static struct column ignition(void) {
    const uint8_t slots[] = {9, 9, 9, 1, 1, 0, 0, 7, 0, 1};
    struct column c = no_column();
    node(&c, "C", 0, 7, 3);
    numbers(&c, BUFFER_1, 1, slots, sizeof slots);
    validity(&c, 0x3a, 0x03);
    target(&c, "s", "C");
    return c;
}

static void sliced(void) {
    struct column c = ignition();
    encodes("sliced 0..7", &c, (struct range){0, 1, 1, 0, 7});
    encodes("sliced 1..3", &c, (struct range){0, 1, 1, 1, 3});
    encodes("sliced 4..5, a null", &c, (struct range){0, 1, 1, 4, 5});
    encodes("no rows", &c, (struct range){0, 1, 1, 7, 7});
    show("a byte too few", &c, lafkuno_plan_encode, lafkuno_encode, (struct range){0, 1, 1, 0, 7}, -1);
    show("room for a run a row", &c, lafkuno_plan_encode, lafkuno_encode, (struct range){0, 1, 1, 0, 7}, 4);
    show("room for all but one", &c, lafkuno_plan_encode, lafkuno_encode, (struct range){0, 1, 1, 0, 7}, 3);
    encodes("past the slice", &c, (struct range){0, 1, 1, 1, 8});
    encodes("end before start", &c, (struct range){0, 1, 1, 3, 2});
    encodes("no runs as target", &c, (struct range){0, 1, 0, 0, 7});
    encodes("10 before 2", &c, (struct range){0, 1, 0, 1, 8});
    expands("no runs to expand", &c, (struct range){0, 1, 0, 0, 7});
}

/* NaNs of the same bits and of others, zeros of both signs; then all rows equal. */
static void by_bits(void) {
    const uint64_t floats[] = {0x7fc00000, 0x7fc00000, 0x7fc00001, 0x80000000, 0}, same[] = {5, 5, 5, 5};
    struct column c = no_column();
    node(&c, "f", 0, 5, 0);
    wide_numbers(&c, BUFFER_1, 4, floats, 5);
    target(&c, "i", "f");
    encodes("floats", &c, (struct range){0, 1, 1, 0, 5});
    c = no_column();
    node(&c, "l", 0, 4, 0);
    wide_numbers(&c, BUFFER_1, 8, same, 4);
    target(&c, "l", "l");
    encodes("all equal", &c, (struct range){0, 1, 1, 0, 4});
    c = no_column();
    node(&c, "l", 0, 4, 0);
    wide_numbers(&c, BUFFER_1, 8, same, 4);
    target(&c, "l", "L");
    encodes("another format", &c, (struct range){0, 1, 1, 0, 4});
}

/* 01's K1: run ends 2, 5, 9 over A B C, offset 1, length 8; the run ends from entry 2 on, the values from slot 1 on, B null or not. */
static struct column abc(uint8_t bits) {
    const uint64_t ends[] = {7, 7, 2, 5, 9};
    const uint8_t values[] = {9, 65, 66, 67};
    struct column c = no_column();
    node(&c, "+r", 2, 8, 1);
    node(&c, "s", 0, 3, 2);
    wide_numbers(&c, BUFFER_1, 2, ends, 5);
    node(&c, "C", 0, 3, 1);
    numbers(&c, BUFFER_1, 1, values, sizeof values);
    validity(&c, bits, 0xff);
    return c;
}

static void back(void) {
    struct column c = abc(0xff);
    expands("all of K1", &c, (struct range){0, 3, 2, 0, 8});
    expands("K1's range", &c, (struct range){0, 3, 2, 1, 5});
    expands("its last run", &c, (struct range){0, 3, 2, 5, 7});
    expands("no rows of it", &c, (struct range){0, 3, 2, 8, 8});
    expands("past it", &c, (struct range){0, 3, 2, 1, 9});
    show("a byte too few", &c, lafkuno_plan_expand, lafkuno_expand, (struct range){0, 3, 2, 0, 8}, -1);
    encodes("runs into runs", &c, (struct range){0, 3, 0, 0, 8});
    c = abc(0x0b);
    expands("B null", &c, (struct range){0, 3, 2, 1, 5});
}

/* 32767 rows of one value are a run of s, and one more is not. */
static void longest(void) {
    enum { MOST = 32767 };
    static uint8_t ones[MOST + 1];
    struct column c = no_column();
    node(&c, "C", 0, MOST + 1, 0);
    c.places[BUFFER_1] = 0;
    c.places[BUFFER_1 + 1] = sizeof ones;
    target(&c, "s", "C");
    memset(ones, 1, sizeof ones);
    for (uint64_t rows = MOST; rows <= MOST + 1; rows++) {
        lend_column(&c);
        lend(BYTES_OF_BODY, ones, sizeof ones);
        uint32_t count = 0;
        uint8_t ground = run(lafkuno_plan_encode, lafkuno_encode, (struct range){0, 1, 1, 0, rows}, 0, &count);
        printf("%llu rows: %d", (unsigned long long)rows, ground);
        if (ground == FINE) printf(" %02x%02x", room[parts[0] + 1], room[parts[0]]);
        putchar('\n');
    }
}

int main(int count, char **arguments) {
    lent_bare = count > 1 && strcmp(arguments[1], "--bare") == 0;
    sliced();
    by_bits();
    back();
    longest();
}
