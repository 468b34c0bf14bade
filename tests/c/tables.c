/* The calls of lafkuno.h over structs: the same trip as in van.c, measured, joined, finished and read back. */
#include <lafkuno_tables.h>
#include <stdio.h>
#include <stdlib.h>
#include <string.h>

static int failed;

static void expect(const char *what, uint64_t got, uint64_t wanted) {
    if (got == wanted) return;
    fprintf(stderr, "%s: %llu, not %llu\n", what, (unsigned long long)got, (unsigned long long)wanted);
    failed = 1;
}

/* Row by row through the finished tables. */
static void read_back(const struct lafkuno_tables *finished) {
    const uint64_t wanted[5] = {95, 102, 12, 0, 61};
    uint64_t tree[LAFKUNO_TREE], answer[LAFKUNO_ANSWER];
    expect("ground", lafkuno_tables_ground(finished, 0, 1), LAFKUNO_DONE);
    expect("open column", lafkuno_tables_open_column(finished, 0, 1, tree), LAFKUNO_DONE);
    for (uint64_t row = 0; row < 5; row++) {
        uint8_t kind = lafkuno_tables_read_row(finished, tree, 0, row, answer);
        expect("kind", kind, row == 3 ? LAFKUNO_NULL : LAFKUNO_SIGNED);
        if (kind == LAFKUNO_SIGNED) expect("row", answer[0], wanted[row]);
    }
    expect("no such row", lafkuno_tables_read_row(finished, tree, 0, 5, answer), LAFKUNO_REFUSED + LAFKUNO_NO_SUCH_ROWS);
}

/* Four rows and a null, one behind the other. */
static void measure(struct lafkuno_state *state, const struct lafkuno_tables *tables) {
    expect("plan", lafkuno_state_plan(state, tables, 1, 0), LAFKUNO_DONE);
    expect("measure", lafkuno_state_measure_open(state, tables), LAFKUNO_DONE);
    expect("measure", lafkuno_state_measure_copy(state, tables, 0, 0, 4), LAFKUNO_DONE);
    expect("measure", lafkuno_state_measure_nulls(state, 1), LAFKUNO_DONE);
    expect("bytes", lafkuno_state_parts(state), 64 + 20);
    expect("parts", state->parts_len, 4);
    state->room_len = 84;
    state->room = malloc(state->room_len);
    if (!state->room) exit(2);
}

static void join(struct lafkuno_state *state, const struct lafkuno_tables *tables) {
    expect("open", lafkuno_state_open(state, tables, 1, 0), LAFKUNO_DONE);
    expect("copy", lafkuno_state_copy(state, tables, 0, 0, 3), LAFKUNO_DONE);
    expect("nulls", lafkuno_state_nulls(state, 1), LAFKUNO_DONE);
    expect("refused", lafkuno_state_copy(state, tables, 0, 3, 5), LAFKUNO_NO_SUCH_ROWS);
    expect("copy", lafkuno_state_copy(state, tables, 0, 3, 4), LAFKUNO_DONE);
    expect("full", lafkuno_state_nulls(state, 1), LAFKUNO_ROOM_TOO_SMALL);
    expect("running nulls", lafkuno_state_running_nulls(state), 1);
    expect("data buffers", lafkuno_state_buffer_total(state, tables), 0);
}

/* Lists of orders, all or none: a refused one leaves every byte, an accepted one what its orders leave. */
static void trips(struct lafkuno_state *state, const struct lafkuno_tables *tables) {
    enum { COPY = LAFKUNO_ORDER_COPY, NULLS = LAFKUNO_ORDER_NULLS };
    const uint64_t stops[] = {COPY, 0, 0, 2, NULLS, 1, 0, 0, COPY, 0, 2, 3, COPY, 0, 3, 5, COPY, 0, 3, 4};
    const uint64_t trip[] = {COPY, 0, 0, 3, NULLS, 1, 0, 0, COPY, 0, 3, 4, NULLS, 1, 0, 0};
    static const uint64_t many[LAFKUNO_ORDER * (LAFKUNO_MOST_ORDERS + 1)];
    uint64_t counters[LAFKUNO_COUNTERS];
    uint8_t room[84];
    memset(state->room, 238, sizeof room);
    expect("open", lafkuno_state_open(state, tables, 1, 0), LAFKUNO_DONE);
    memcpy(counters, state->counters, sizeof counters);
    memcpy(room, state->room, sizeof room);
    uint32_t answer = lafkuno_state_orders(state, tables, stops, 5);
    expect("ground of a list", LAFKUNO_ANSWER_GROUND(answer), LAFKUNO_NO_SUCH_ROWS);
    expect("its place", LAFKUNO_ANSWER_PLACE(answer), 3);
    answer = lafkuno_state_orders(state, tables, trip, 4);
    expect("ground of a full list", LAFKUNO_ANSWER_GROUND(answer), LAFKUNO_ROOM_TOO_SMALL);
    expect("its place", LAFKUNO_ANSWER_PLACE(answer), 3);
    answer = lafkuno_state_orders(state, tables, many, LAFKUNO_MOST_ORDERS + 1);
    expect("ground of a long list", LAFKUNO_ANSWER_GROUND(answer), LAFKUNO_CEILING_PASSED);
    expect("its place", LAFKUNO_ANSWER_PLACE(answer), 0);
    expect("an empty list", lafkuno_orders(many, 0, many, 0, tables->sources, 0, many, 0, many, 0,
                                           room, 0, state->counters, 0, state->room, 0, many, 0), LAFKUNO_DONE);
    expect("kept", !memcmp(counters, state->counters, sizeof counters) && !memcmp(room, state->room, sizeof room), 1);
    uint64_t why[LAFKUNO_WHY + 1];
    expect("why a list", lafkuno_state_why_orders(state, tables, trip, 4, why), LAFKUNO_ROOM_TOO_SMALL);
    expect("its place", why[LAFKUNO_WHY], 3);
    expect("its node and row", why[1] + why[2], 0);
    expect("its bytes", why[3] == 24 && why[4] == 20, 1);
    expect("why a long list", lafkuno_state_why_orders(state, tables, many, LAFKUNO_MOST_ORDERS + 1, why), LAFKUNO_CEILING_PASSED);
    expect("zeros", why[1] + why[2] + why[3] + why[4] + why[5], 0);
    expect("why a copy", lafkuno_state_why_copy(state, tables, 0, 3, 5, why), LAFKUNO_NO_SUCH_ROWS);
    expect("why no copy", lafkuno_state_why_copy(state, tables, 0, 0, 2, why), LAFKUNO_DONE);
    expect("why nulls", lafkuno_state_why_nulls(state, UINT64_MAX, why), LAFKUNO_ROOM_TOO_SMALL);
    expect("bytes of 2^64 - 1 bits", why[3] == UINT64_MAX / 8 + 1, 1);
    expect("why kept", !memcmp(counters, state->counters, sizeof counters) && !memcmp(room, state->room, sizeof room), 1);
    expect("a list", lafkuno_state_orders(state, tables, trip, 3), LAFKUNO_DONE);
    expect("its rows", state->counters[0], 5);
    expect("measured", lafkuno_state_measure_orders(state, tables, many, LAFKUNO_MOST_ORDERS), LAFKUNO_DONE);
    expect("measured", LAFKUNO_ANSWER_PLACE(lafkuno_state_measure_orders(state, tables, stops, 5)), 3);
}

int main(void) {
    const int32_t batch[8] = {310, 305, 300, 298, 95, 102, 12, 61};
    const uint32_t sources[2] = {0, 1}, schema[5] = {0, 1, 2, 0, 0};
    const lafkuno_position places[9] = {0, 0, 0, 0, sizeof batch, 0, 0, 0, 0}, buffers[1] = {0};
    const uint64_t lengths[2] = {4, 4};
    const struct lafkuno_tables tables = {sources, 2, (const uint8_t *)"i", 1, schema, 5, lengths, 2, places, 9, buffers, 0,
                                          (const uint8_t *)batch, sizeof batch};
    struct lafkuno_state *state = malloc(sizeof *state);
    if (!state) return 2;
    measure(state, &tables);
    trips(state, &tables);
    join(state, &tables);

    uint64_t new_lengths[2], new_nulls[1];
    lafkuno_position new_places[9], new_buffers[1];
    struct lafkuno_finished finished = {new_lengths, 2, new_nulls, 1, new_places, 9, new_buffers, 0};
    expect("finish", lafkuno_state_finish(state, &tables, 0, &finished), LAFKUNO_DONE);
    expect("rows", new_lengths[0], 5);
    expect("nulls", new_nulls[0], 1);
    struct lafkuno_tables again = tables;
    again.lengths = new_lengths;
    again.places = new_places;
    again.body = state->room;
    again.body_len = state->room_len;
    read_back(&again);

    /* more than a room has: the parts are asked for, and none is laid */
    expect("measure", lafkuno_state_measure_nulls(state, UINT64_MAX / 2), LAFKUNO_DONE);
    expect("beyond", lafkuno_state_parts(state) > LAFKUNO_MOST_BYTES, 1);
    free(state->room);
    free(state);
    if (!failed) puts("the calls over structs");
    return failed;
}
