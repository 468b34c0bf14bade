/* Orders of i32, or of a list-view of i32, with validity or without, for counting instructions:
 *   tools/staticlib lafkuno && cc -O1 -Iinclude bench/validity.c target/staticlib/liblafkuno.a -o target/validity
 *   valgrind --tool=callgrind --callgrind-out-file=/dev/null --toggle-collect=lafkuno_copy target/validity 1 64 64 0
 * Arguments: whether the numbers have validity, the rows of an order, how many orders, whether they stand below a list-view (2 items a row).
 * The source has 4,096 rows from offset 8. Prints rows and nulls, of the child too, and the nulls that were measured. */
#include <stdint.h>
#include <stdio.h>
#include <stdlib.h>
#include <string.h>
#include "lafkuno.h"

enum { OFFSET = 8, ROWS = 4096, SLOTS = OFFSET + ROWS, BITS = SLOTS / 8 };

static uint64_t random_state = 88172645463325252u;

static uint64_t random_number(void) {
    random_state ^= random_state << 13;
    random_state ^= random_state >> 7;
    return random_state ^= random_state << 17;
}

static void must(const char *call, uint8_t ground) {
    if (ground == 0) return;
    printf("%s is refused with %d\n", call, ground);
    exit(1);
}

int main(int argc, char **argv) {
    if (argc != 5) return 1;
    uint32_t valid = atoi(argv[1]), list = atoi(argv[4]);
    uint64_t rows = strtoull(argv[2], 0, 10), orders = strtoull(argv[3], 0, 10);

    /* the validity and the numbers, then offsets and sizes */
    size_t size = BITS + 12 * SLOTS, nodes = list ? 2 : 1;
    uint8_t *body = malloc(size);
    for (size_t k = 0; k < size; k++) body[k] = (uint8_t)random_number();
    for (uint32_t k = 0; k < SLOTS; k++) {
        uint32_t offset = k * 7 % 4000, items = 2;
        memcpy(body + BITS + 4 * SLOTS + 4 * k, &offset, 4);
        memcpy(body + BITS + 8 * SLOTS + 4 * k, &items, 4);
    }
    const uint8_t *formats = (const uint8_t *)"+vli";
    uint32_t sources[2] = {0, (uint32_t)nodes};
    uint32_t both[10] = {0, 3, 2, 1, 0, 3, 1, 2, 0, 0};
    uint64_t lengths[4] = {ROWS, OFFSET, SLOTS, 0};
    uint64_t places[18] = {0, 0, 0, BITS + 4 * SLOTS, 4 * SLOTS, BITS + 8 * SLOTS, 4 * SLOTS, 0, 0, valid, 0, BITS, BITS, 4 * SLOTS};
    const uint32_t *schema = list ? both : both + 5;
    const uint64_t *placed = list ? places : places + 9;

    uint64_t plan[LAFKUNO_PLAN], counters[LAFKUNO_COUNTERS] = {0};
    must("plan_parts", lafkuno_plan_parts(sources, 2, formats, 4, schema, 5 * nodes, lengths, 2 * nodes, placed, 9 * nodes, 0, 0, body, size, 0, 0, plan, LAFKUNO_PLAN));
    for (uint64_t k = 0; k < orders; k++)
        must("measure_copy", lafkuno_measure_copy(plan, LAFKUNO_PLAN, sources, 2, lengths, 2 * nodes, placed, 9 * nodes, body, size, counters, LAFKUNO_COUNTERS, 0, 0, rows));
    uint64_t measured = counters[1], room_size = 0;
    uint64_t parts[2 * 96];
    uint32_t count = lafkuno_part_count(plan, LAFKUNO_PLAN);
    for (uint32_t p = 0; p < count; p++) {
        parts[2 * p] = room_size;
        parts[2 * p + 1] = lafkuno_needed_bytes(plan, LAFKUNO_PLAN, counters, LAFKUNO_COUNTERS, p);
        room_size += parts[2 * p + 1];
    }
    uint8_t *room = malloc(room_size + 1);
    must("open", lafkuno_open(sources, 2, formats, 4, schema, 5 * nodes, lengths, 2 * nodes, placed, 9 * nodes, 0, 0, body, size, 0, 0, parts, 2 * count, plan, LAFKUNO_PLAN, counters, LAFKUNO_COUNTERS, room, room_size));
    for (uint64_t k = 0; k < orders; k++)
        must("copy", lafkuno_copy(plan, LAFKUNO_PLAN, parts, 2 * count, sources, 2, lengths, 2 * nodes, placed, 9 * nodes, body, size, counters, LAFKUNO_COUNTERS, room, room_size, 0, 0, rows));
    printf("rows %llu nulls %llu of the child %llu measured %llu\n", (unsigned long long)counters[0], (unsigned long long)counters[1], (unsigned long long)counters[4], (unsigned long long)measured);
    return 0;
}
