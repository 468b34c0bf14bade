/* Where an order stops: the node, the row within the rows that it was handed, and the numbers that clash. A refused call writes nothing. */
#include "arrow_arrays.h"

/* Offsets of four bytes end at 2^31 - 1. */
static void list_offsets(void) {
    const int32_t offsets[3] = {0, 1, INT32_MAX};
    const int64_t end = INT32_MAX;
    uint8_t leaf = 7;
    struct made *runs = make("+r", "stop", 0, INT32_MAX, 0);
    add_child(runs, numbers("l", "run_ends", 0, 1, 0, &end, 8, NULL));
    add_child(runs, numbers("C", "values", 0, 1, 0, &leaf, 1, NULL));
    struct made *m = lists("+l", "stops", 2, 0, offsets, runs);
    struct lafkuno_source list[1] = {source_of(m)};
    const struct lafkuno_order orders[3] = {lafkuno_rows(0, 1, 2), lafkuno_rows(0, 0, 1), lafkuno_rows(0, 0, 1)};
    const struct lafkuno_options many = {.most_rows = UINT64_C(1) << 40};
    refused_arrays(list, 1, orders, 3, &many, LAFKUNO_OFFSET_TOO_LARGE,
            "node 0 'stops' (+l), row 0, order 2 (copy 0 0..1): an offset or a dense union's position does not fit its type: 2147483648 is needed, "
            "and 2147483647 is the largest allowed (ground 6)");
    discard(m);
}

/* The numbers that clash are in the error. */
static void run_ends(void) {
    const int16_t ends[1] = {32767};
    const int32_t value = 1;
    struct made *m = make("+r", "ignition", 0, 32767, 0);
    add_child(m, numbers("s", "run_ends", 0, 1, 0, ends, 2, NULL));
    add_child(m, numbers("i", "values", 0, 1, 0, &value, 4, NULL));
    struct lafkuno_source list[1] = {source_of(m)};
    const struct lafkuno_order twice[2] = {lafkuno_rows(0, 0, 32767), lafkuno_rows(0, 0, 1)};
    struct lafkuno_error error = refused_arrays(list, 1, twice, 2, NULL, LAFKUNO_RUN_END_TOO_LARGE,
                                         "node 0 'ignition' (+r), row 0, order 1 (copy 0 0..1): a run end does not fit its type: 32768 is needed, "
                                         "and 32767 is the largest allowed (ground 7)");
    expect("needed and allowed", error.node == 0 && error.row == 0 && error.found == 32768 && error.allowed == 32767, 1);
    discard(m);
}

/* Nulls that reach a union below run ends, none of whose fields takes them: node 2, which is one of several. */
static void no_home_for_nulls(void) {
    const int32_t end = 1;
    const uint8_t id = 4, value = 9;
    struct made *m = make("+r", "event", ARROW_FLAG_NULLABLE, 1, 0), *kind = make("+us:4", "values", ARROW_FLAG_NULLABLE, 1, 0);
    add_buffer(kind, &id, 1);
    add_child(kind, numbers("C", "litres", 0, 1, 0, &value, 1, NULL));
    add_child(m, numbers("i", "run_ends", 0, 1, 0, &end, 4, NULL));
    add_child(m, kind);
    struct lafkuno_source list[1] = {source_of(m)};
    const struct lafkuno_order orders[2] = {lafkuno_rows(0, 0, 1), lafkuno_gap(1)};
    const struct lafkuno_options keep = {.keep_nulls = 1};
    struct lafkuno_error error = refused_arrays(list, 1, orders, 2, &keep, LAFKUNO_UNION_NOT_NULLABLE,
                                         "node 2 'values' (+us:4), row 0, order 1 (nulls 1): nulls for a union none of whose fields is nullable "
                                         "(ground 5)");
    expect("node", error.node, 2);
    expect("no numbers", error.found == 0 && error.allowed == 0, 1);
    discard(m);
}

int main(void) {
    list_offsets();
    run_ends();
    no_home_for_nulls();
    if (!failed) puts("orders say where they stop");
    return failed;
}
