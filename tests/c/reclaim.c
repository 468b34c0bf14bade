/* Reclaiming unused dictionary entries (02, W9): sliced keys and a sliced dictionary first, keys under nulls, signed keys, byte strings, null
 * entries, a second time, and grounds that meet. A line has what was asked and the new keys, validity and entries, or the ground.
 *     cc -I include tests/c/reclaim.c tests/c/column.c tests/c/lent.c -L target/staticlib -llafkuno -llafkuno_anew -o reclaim
 *     ./reclaim | diff - tests/c/reclaim.out
 * Every slice is lent at its own size between guards; with --bare there are none, and valgrind sees every step outside. */
#include "column.h"
#include <stdio.h>
#include <string.h>

enum { NODES_OF_KEYS = 2, ROOM = 256, MOST_PARTS = 5 };

/* Keys of one byte over the numbers of 4 bytes of a dictionary, each with its length, offset and validity bits (0: none). */
static struct column keyed(const char *keys, const uint8_t *list, uint32_t slots, uint64_t length, uint64_t offset, uint8_t bits,
                           const uint64_t *entries, uint32_t all, uint64_t count, uint64_t skip, uint8_t entry_bits) {
    struct column c = no_column();
    node(&c, keys, 0, length, offset);
    numbers(&c, BUFFER_1, 1, list, slots);
    if (bits) validity(&c, bits, 0xff);
    c.schema[DICTIONARY] = 1;
    node(&c, "i", 0, count, skip);
    wide_numbers(&c, BUFFER_1, 4, entries, all);
    if (entry_bits) validity(&c, entry_bits, 0xff);
    return c;
}

/* The part of a node's buffer as hexadecimal, or -. */
static void show_part(const uint64_t *plan, const uint64_t *parts, const uint8_t *room, uint64_t node_of, uint64_t buffer) {
    for (uint32_t p = 0; p < lafkuno_part_count(plan, LAFKUNO_PLAN); p++) {
        if (lafkuno_part_node(plan, LAFKUNO_PLAN, p) != node_of || lafkuno_part_buffer(plan, LAFKUNO_PLAN, p) != buffer) continue;
        putchar(' ');
        for (uint64_t i = 0; i < parts[2 * p + 1]; i++) printf("%02x", room[parts[2 * p] + i]);
        if (parts[2 * p + 1] == 0) putchar('.');
        return;
    }
    fputs(" -", stdout);
}

/* Asks, lends parts of the needed bytes less `short_by` of the last, and writes: the ground, or keys, validity, entries, their validity and bytes. */
static void show(const char *what, const struct column *c, uint32_t n, uint64_t short_by) {
    static uint64_t plan[LAFKUNO_PLAN], counters[LAFKUNO_COUNTERS], parts[2 * MOST_PARTS];
    static uint8_t room[ROOM], before[ROOM];
    lend_column(c);
    printf("%s:", what);
    uint8_t ground = lafkuno_plan_reclaim(TABLES, 0, n, plan, LAFKUNO_PLAN, counters, LAFKUNO_COUNTERS);
    if (ground != FINE) {
        printf(" %d\n", ground);
        return;
    }
    uint32_t count = lafkuno_part_count(plan, LAFKUNO_PLAN);
    uint64_t end = 3;
    for (uint32_t p = 0; p < count; p++) {
        parts[2 * p] = end;
        parts[2 * p + 1] = lafkuno_needed_bytes(plan, LAFKUNO_PLAN, counters, LAFKUNO_COUNTERS, p);
        end += parts[2 * p + 1] + 1;
    }
    parts[2 * count - 1] -= short_by;
    memset(room, 0xaa, ROOM);
    memcpy(before, room, ROOM);
    ground = lafkuno_reclaim(TABLES, 0, n, parts, 2 * count, plan, LAFKUNO_PLAN, counters, LAFKUNO_COUNTERS, room, ROOM);
    if (ground != FINE) {
        printf(" %d%s\n", ground, memcmp(room, before, ROOM) ? " CHANGED" : "");
        return;
    }
    printf(" %u parts,", count);
    show_part(plan, parts, room, 0, 1);
    show_part(plan, parts, room, 0, 0);
    show_part(plan, parts, room, 1, 1);
    show_part(plan, parts, room, 1, 0);
    show_part(plan, parts, room, 1, 2);
    for (uint32_t p = 0; p < count; p++)
        if (room[parts[2 * p] - 1] != 0xaa || room[parts[2 * p] + parts[2 * p + 1]] != 0xaa) fputs(" OUTSIDE", stdout);
    putchar('\n');
}

static const uint64_t drivers[8] = {10, 11, 12, 13, 14, 15, 16, 17};

/* Slots 2 to 5 of eight; entries 1 to 5 of eight. */
static void sliced(void) {
    const uint8_t keys[8] = {0, 1, 4, 2, 4, 2, 3, 0};
    struct column c = keyed("C", keys, 8, 4, 2, 0, drivers, 8, 5, 1, 0);
    show("sliced", &c, 2, 0);
    c = keyed("C", keys, 8, 0, 8, 0, drivers, 8, 5, 1, 0);
    show("no rows", &c, 2, 0);
    c = keyed("C", keys, 8, 8, 0, 0, drivers, 8, 5, 1, 0);
    show("all in use", &c, 2, 0);
}

/* A key under a null may be anything; only rows of the slice count. */
static void nulls(void) {
    const uint8_t keys[8] = {7, 255, 6, 200, 6, 2, 9, 7};
    struct column c = keyed("c", keys, 8, 6, 0, 0xf5, drivers, 8, 8, 0, 0);
    show("under nulls", &c, 2, 0);
    c = keyed("c", keys, 8, 5, 1, 0xf5, drivers, 8, 8, 0, 0);
    show("sliced under nulls", &c, 2, 0);
    c = keyed("c", keys, 8, 2, 3, 0xe7, drivers, 8, 8, 0, 0);
    show("all keys null", &c, 2, 0);
    /* entry 2 is null and named, entry 6 is not named */
    const uint8_t some[4] = {2, 5, 2, 4};
    c = keyed("C", some, 4, 4, 0, 0, drivers, 8, 8, 0, 0xbb);
    show("a null entry", &c, 2, 0);
    c = keyed("C", some, 4, 4, 0, 0, drivers, 8, 8, 0, 0xbf);
    show("null entries that go", &c, 2, 0);
}

/* Byte strings, of which a sliced dictionary is taken. */
static void strings(void) {
    const uint8_t keys[5] = {3, 0, 3, 9, 1};
    const uint64_t offsets[6] = {2, 4, 4, 9, 12, 13};
    struct column c = no_column();
    node(&c, "S", 0, 4, 1);
    numbers(&c, BUFFER_1, 2, keys, 5);
    validity(&c, 0x17, 0xff);
    c.schema[DICTIONARY] = 1;
    node(&c, "u", 0, 4, 1);
    wide_numbers(&c, BUFFER_1, 4, offsets, 6);
    const uint8_t text[13] = "--ab12345xyz!";
    numbers(&c, BUFFER_2, 1, text, 13);
    show("byte strings", &c, 2, 0);
    show("a byte short", &c, 2, 1);
}

/* 9, 10 and 12 before 10 of its own. */
static void grounds(void) {
    const uint8_t keys[4] = {1, 0, 1, 8};
    struct column c = keyed("C", keys, 4, 4, 0, 0, drivers, 8, 8, 0, 0);
    show("a key too large", &c, 2, 0);
    c.lengths[LENGTH] = 3;
    show("and not", &c, 2, 0);
    show("one node", &c, 1, 0);
    struct column plain = no_column();
    node(&plain, "i", 0, 2, 0);
    wide_numbers(&plain, BUFFER_1, 4, drivers, 2);
    show("no dictionary", &plain, 1, 0);
    plain.lengths[LENGTH] = 3;
    show("no dictionary, malformed", &plain, 1, 0);
    show("no nodes", &plain, 0, 0);
}

int main(int count, char **arguments) {
    lent_bare = count > 1 && strcmp(arguments[1], "--bare") == 0;
    sliced();
    nulls();
    strings();
    grounds();
    return 0;
}
