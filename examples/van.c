/* From a batch to a finished array in C: the fuel of one trip, which begins in the middle of a batch.
 *     cc -I include examples/van.c -L target/staticlib -llafkuno -o van && ./van */
#include <lafkuno.h>
#include <stdio.h>
#include <stdlib.h>
#include <string.h>

#define SOURCES sources, 2, lengths, 2, places, 9, body, sizeof body
#define TABLES sources, 2, formats, 1, schema, 5, lengths, 2, places, 9, buffers, 0, body, sizeof body
#define PLAN plan, LAFKUNO_PLAN
#define COUNTERS counters, LAFKUNO_COUNTERS
#define PARTS parts, 2 * count
#define ROOM room, size

static void check(const char *what, uint8_t ground) {
    if (ground != LAFKUNO_DONE) {
        fprintf(stderr, "%s: refused, ground %d\n", what, ground);
        exit(1);
    }
}

int main(void) {
    /* one source of one node: millilitres a minute since the box was powered up, of which rows 4 to 7 are the trip */
    const int32_t batch[8] = {310, 305, 300, 298, 95, 102, 12, 61};
    uint8_t body[sizeof batch];
    memcpy(body, batch, sizeof batch);
    const uint8_t formats[] = "i";
    const uint32_t sources[] = {0, 1}, schema[] = {0, 1, 2, 0, 0};
    const uint64_t lengths[] = {4, 4}; /* length and offset of the slice */
    const uint64_t places[] = {0, 0, 0, 0, sizeof body, 0, 0, 0, 0}, buffers[] = {0};

    /* what the orders need: 4 rows and a null */
    uint64_t plan[LAFKUNO_PLAN], counters[LAFKUNO_COUNTERS];
    check("plan", lafkuno_plan_parts(TABLES, 1, 0, PLAN));
    check("measure", lafkuno_measure_open(PLAN, SOURCES, COUNTERS));
    check("measure", lafkuno_measure_copy(PLAN, SOURCES, COUNTERS, 0, 0, 4));
    check("measure", lafkuno_measure_nulls(PLAN, COUNTERS, 1));
    uint64_t parts[2 * 96], size = 0;
    uint32_t count = lafkuno_part_count(PLAN);
    for (uint32_t p = 0; p < count; p++) {
        parts[2 * p] = size;
        size += parts[2 * p + 1] = lafkuno_needed_bytes(PLAN, COUNTERS, p);
    }
    uint8_t *room = malloc(size);

    /* the join: rows 0 to 2, a null, row 3 */
    check("open", lafkuno_open(TABLES, 1, 0, PARTS, PLAN, COUNTERS, ROOM));
    check("copy", lafkuno_copy(PLAN, PARTS, SOURCES, COUNTERS, ROOM, 0, 0, 3));
    check("nulls", lafkuno_nulls(PLAN, PARTS, COUNTERS, ROOM, 1));
    check("copy", lafkuno_copy(PLAN, PARTS, SOURCES, COUNTERS, ROOM, 0, 3, 4));

    /* the finished array; with base 0 the new places are places in the room */
    uint64_t new_lengths[2], new_nulls[1], new_places[9], new_buffers[1];
    check("finish", lafkuno_finish(PLAN, PARTS, sources, 2, lengths, 2, places, 9, buffers, 0, body, sizeof body, COUNTERS, ROOM, 0,
                                   new_lengths, 2, new_nulls, 1, new_places, 9, new_buffers, 0));
    printf("%d rows, %d null\n", (int)new_lengths[0], (int)new_nulls[0]);
    for (uint64_t row = 0; row < new_lengths[0]; row++) {
        int32_t value;
        memcpy(&value, room + new_places[3] + 4 * row, sizeof value);
        if (new_places[0] && !(room[new_places[1] + row / 8] >> row % 8 & 1))
            printf("null\n");
        else
            printf("%d ml\n", value);
    }
    free(room);
    return 0;
}
