/* The calls of lafkuno.h over structs: the tables of the sources in one, the state of a join in another. Each function below is the
 * flat call that its comment names, with the same answers; nothing is allocated and nothing is kept.
 *
 *     struct lafkuno_tables tables = {...};
 *     struct lafkuno_state state;
 *     lafkuno_state_plan(&state, &tables, 1, 0);         checks the sources, writes the plan
 *     lafkuno_state_measure_open(&state, &tables);       then one measure_* for each order
 *     uint64_t size = lafkuno_state_parts(&state);       lays the parts: state.room is lent now
 *     lafkuno_state_open(&state, &tables, 1, 0);         then the orders, then lafkuno_state_finish
 *
 * A column that is written anew goes the same way, with the column as the only source of the tables: lafkuno_state_plan_encode (_expand,
 * _reclaim, _list, _list_view, _convert), lafkuno_state_parts, lafkuno_state_encode (..), lafkuno_state_finish.
 *
 * Apache-2.0; see LICENSE and NOTICE. */
#ifndef LAFKUNO_TABLES_H
#define LAFKUNO_TABLES_H

#include <lafkuno.h>

#ifdef __cplusplus
extern "C" {
#endif

/* A place or a number of bytes in a body or in the room: the numbers of places, buffers, parts and base. */
typedef uint64_t lafkuno_position;

/* The most bytes that a body or a room has. */
#define LAFKUNO_MOST_BYTES ((uint64_t)INT64_MAX)
/* The most parts of a join, nodes of a source, and sources. */
#define LAFKUNO_MOST_PARTS 96
#define LAFKUNO_MOST_NODES 32
#define LAFKUNO_MOST_SOURCES 16

/* What is lent of the sources; docs/FORMAT.md describes each table. No pointer is null. */
struct lafkuno_tables {
    const uint32_t *sources;
    size_t sources_len;
    const uint8_t *formats;
    size_t formats_len;
    const uint32_t *schema;
    size_t schema_len;
    const uint64_t *lengths;
    size_t lengths_len;
    const lafkuno_position *places;
    size_t places_len;
    const lafkuno_position *buffers;
    size_t buffers_len;
    const uint8_t *body;
    size_t body_len;
};

/* The tables as the parameters of a call of one column or two. */
#define LAFKUNO_COLUMN_TABLES(t) \
    (t)->formats, (t)->formats_len, (t)->schema, (t)->schema_len, (t)->lengths, (t)->lengths_len, (t)->places, (t)->places_len, \
        (t)->buffers, (t)->buffers_len, (t)->body, (t)->body_len

/* A join, or a column that is written anew: its plan and counters, and the room that it writes. */
struct lafkuno_state {
    uint64_t plan[LAFKUNO_PLAN];
    uint64_t counters[LAFKUNO_COUNTERS];
    lafkuno_position parts[2 * LAFKUNO_MOST_PARTS];
    size_t parts_len;
    uint8_t *room;
    size_t room_len;
};

/* The tables of a finished array, each of the length that lafkuno_finish asks for. */
struct lafkuno_finished {
    uint64_t *lengths;
    size_t lengths_len;
    uint64_t *nulls;
    size_t nulls_len;
    lafkuno_position *places;
    size_t places_len;
    lafkuno_position *buffers;
    size_t buffers_len;
};

/* lafkuno_plan_parts: checks the sources and writes the plan. */
static inline uint8_t lafkuno_state_plan(struct lafkuno_state *s, const struct lafkuno_tables *t, uint8_t keep, uint8_t gaps) {
    return lafkuno_plan_parts(t->sources, t->sources_len, t->formats, t->formats_len, t->schema, t->schema_len, t->lengths,
                              t->lengths_len, t->places, t->places_len, t->buffers, t->buffers_len, t->body, t->body_len, keep, gaps,
                              s->plan, LAFKUNO_PLAN);
}

/* lafkuno_measure_open: what an opening does to the counters. */
static inline uint8_t lafkuno_state_measure_open(struct lafkuno_state *s, const struct lafkuno_tables *t) {
    return lafkuno_measure_open(s->plan, LAFKUNO_PLAN, t->sources, t->sources_len, t->lengths, t->lengths_len, t->places, t->places_len,
                                t->body, t->body_len, s->counters, LAFKUNO_COUNTERS);
}

/* lafkuno_measure_copy: what a copy does to the counters. */
static inline uint8_t lafkuno_state_measure_copy(struct lafkuno_state *s, const struct lafkuno_tables *t, uint32_t source,
                                                 uint64_t start, uint64_t end) {
    return lafkuno_measure_copy(s->plan, LAFKUNO_PLAN, t->sources, t->sources_len, t->lengths, t->lengths_len, t->places, t->places_len,
                                t->body, t->body_len, s->counters, LAFKUNO_COUNTERS, source, start, end);
}

/* lafkuno_measure_nulls: what an order of nulls does to the counters. */
static inline uint8_t lafkuno_state_measure_nulls(struct lafkuno_state *s, uint64_t n) {
    return lafkuno_measure_nulls(s->plan, LAFKUNO_PLAN, s->counters, LAFKUNO_COUNTERS, n);
}

/* lafkuno_measure_orders: what a list of n orders does to the counters. */
static inline uint32_t lafkuno_state_measure_orders(struct lafkuno_state *s, const struct lafkuno_tables *t, const uint64_t *orders, size_t n) {
    return lafkuno_measure_orders(s->plan, LAFKUNO_PLAN, t->sources, t->sources_len, t->lengths, t->lengths_len, t->places, t->places_len,
                                  t->body, t->body_len, s->counters, LAFKUNO_COUNTERS, orders, LAFKUNO_ORDER * n);
}

/* Lays the parts for what was measured, each at a multiple of 64, and answers how many bytes the room must have; above
 * LAFKUNO_MOST_BYTES no room can be lent. */
static inline uint64_t lafkuno_state_parts(struct lafkuno_state *s) {
    uint32_t count = lafkuno_part_count(s->plan, LAFKUNO_PLAN);
    uint64_t size = 0;
    if (count > LAFKUNO_MOST_PARTS) count = LAFKUNO_MOST_PARTS;
    for (uint32_t p = 0; p < count; p++) {
        uint64_t bytes = lafkuno_needed_bytes(s->plan, LAFKUNO_PLAN, s->counters, LAFKUNO_COUNTERS, p);
        uint64_t start = size + (64 - size % 64) % 64;
        if (start > LAFKUNO_MOST_BYTES || bytes > LAFKUNO_MOST_BYTES - start) return start + bytes < start ? UINT64_MAX : start + bytes;
        s->parts[2 * p] = start;
        s->parts[2 * p + 1] = bytes;
        size = start + bytes;
    }
    s->parts_len = 2 * (size_t)count;
    return size;
}

/* lafkuno_open: opens the join over parts and room. */
static inline uint8_t lafkuno_state_open(struct lafkuno_state *s, const struct lafkuno_tables *t, uint8_t keep, uint8_t gaps) {
    return lafkuno_open(t->sources, t->sources_len, t->formats, t->formats_len, t->schema, t->schema_len, t->lengths, t->lengths_len,
                        t->places, t->places_len, t->buffers, t->buffers_len, t->body, t->body_len, keep, gaps, s->parts, s->parts_len,
                        s->plan, LAFKUNO_PLAN, s->counters, LAFKUNO_COUNTERS, s->room, s->room_len);
}

/* lafkuno_copy: rows start to end - 1 of a source behind the destination's rows. */
static inline uint8_t lafkuno_state_copy(struct lafkuno_state *s, const struct lafkuno_tables *t, uint32_t source, uint64_t start,
                                         uint64_t end) {
    return lafkuno_copy(s->plan, LAFKUNO_PLAN, s->parts, s->parts_len, t->sources, t->sources_len, t->lengths, t->lengths_len, t->places,
                        t->places_len, t->body, t->body_len, s->counters, LAFKUNO_COUNTERS, s->room, s->room_len, source, start, end);
}

/* lafkuno_nulls: n nulls behind the destination's rows. */
static inline uint8_t lafkuno_state_nulls(struct lafkuno_state *s, uint64_t n) {
    return lafkuno_nulls(s->plan, LAFKUNO_PLAN, s->parts, s->parts_len, s->counters, LAFKUNO_COUNTERS, s->room, s->room_len, n);
}

/* lafkuno_orders: a list of n orders, all or none; the ground and the place are LAFKUNO_ANSWER_GROUND and LAFKUNO_ANSWER_PLACE of the answer. */
static inline uint32_t lafkuno_state_orders(struct lafkuno_state *s, const struct lafkuno_tables *t, const uint64_t *orders, size_t n) {
    return lafkuno_orders(s->plan, LAFKUNO_PLAN, s->parts, s->parts_len, t->sources, t->sources_len, t->lengths, t->lengths_len, t->places,
                          t->places_len, t->body, t->body_len, s->counters, LAFKUNO_COUNTERS, s->room, s->room_len, orders,
                          LAFKUNO_ORDER * n);
}

/* lafkuno_why_copy, lafkuno_why_nulls: what stops an order, LAFKUNO_WHY numbers. */
static inline uint8_t lafkuno_state_why_copy(const struct lafkuno_state *s, const struct lafkuno_tables *t, uint32_t source, uint64_t start,
                                             uint64_t end, uint64_t *answer) {
    return lafkuno_why_copy(s->plan, LAFKUNO_PLAN, s->parts, s->parts_len, t->sources, t->sources_len, t->lengths, t->lengths_len, t->places,
                            t->places_len, t->body, t->body_len, s->counters, LAFKUNO_COUNTERS, s->room_len, source, start, end, answer,
                            LAFKUNO_WHY);
}

static inline uint8_t lafkuno_state_why_nulls(const struct lafkuno_state *s, uint64_t n, uint64_t *answer) {
    return lafkuno_why_nulls(s->plan, LAFKUNO_PLAN, s->parts, s->parts_len, s->counters, LAFKUNO_COUNTERS, s->room_len, n, answer, LAFKUNO_WHY);
}

/* lafkuno_why_orders: what stops the first failing one of n orders, LAFKUNO_WHY numbers and its place. */
static inline uint8_t lafkuno_state_why_orders(const struct lafkuno_state *s, const struct lafkuno_tables *t, const uint64_t *orders, size_t n,
                                               uint64_t *answer) {
    return lafkuno_why_orders(s->plan, LAFKUNO_PLAN, s->parts, s->parts_len, t->sources, t->sources_len, t->lengths, t->lengths_len, t->places,
                              t->places_len, t->body, t->body_len, s->counters, LAFKUNO_COUNTERS, s->room_len, orders, LAFKUNO_ORDER * n,
                              answer, LAFKUNO_WHY + 1);
}

/* lafkuno_buffer_total: how many data buffers the finished array names. */
static inline uint64_t lafkuno_state_buffer_total(const struct lafkuno_state *s, const struct lafkuno_tables *t) {
    return lafkuno_buffer_total(s->plan, LAFKUNO_PLAN, t->sources, t->sources_len, t->places, t->places_len);
}

/* lafkuno_finish: describes the finished array, the room being at `base` of the body that the tables are about. */
static inline uint8_t lafkuno_state_finish(const struct lafkuno_state *s, const struct lafkuno_tables *t, lafkuno_position base,
                                           struct lafkuno_finished *f) {
    return lafkuno_finish(s->plan, LAFKUNO_PLAN, s->parts, s->parts_len, t->sources, t->sources_len, t->lengths, t->lengths_len,
                          t->places, t->places_len, t->buffers, t->buffers_len, t->body, t->body_len, s->counters, LAFKUNO_COUNTERS,
                          s->room, s->room_len, base, f->lengths, f->lengths_len, f->nulls, f->nulls_len, f->places, f->places_len,
                          f->buffers, f->buffers_len);
}

/* lafkuno_running_nulls: the running null count. */
static inline uint64_t lafkuno_state_running_nulls(const struct lafkuno_state *s) {
    return lafkuno_running_nulls(s->counters, LAFKUNO_COUNTERS);
}

/* ---- one column: n nodes from node `first` on */

/* lafkuno_column_ground: its ground. */
static inline uint8_t lafkuno_tables_ground(const struct lafkuno_tables *t, uint32_t first, uint32_t n) {
    return lafkuno_column_ground(LAFKUNO_COLUMN_TABLES(t), first, n);
}

/* lafkuno_open_column: the same, and writes the column's tree of LAFKUNO_TREE numbers. */
static inline uint8_t lafkuno_tables_open_column(const struct lafkuno_tables *t, uint32_t first, uint32_t n, uint64_t *tree) {
    return lafkuno_open_column(LAFKUNO_COLUMN_TABLES(t), first, n, tree, LAFKUNO_TREE);
}

/* lafkuno_read_row: reads a row of an opened column into LAFKUNO_ANSWER numbers, and answers its kind. */
static inline uint8_t lafkuno_tables_read_row(const struct lafkuno_tables *t, const uint64_t *tree, uint32_t first, uint64_t row,
                                              uint64_t *answer) {
    return lafkuno_read_row(tree, LAFKUNO_TREE, t->lengths, t->lengths_len, t->places, t->places_len, t->buffers, t->buffers_len, t->body,
                            t->body_len, first, row, answer, LAFKUNO_ANSWER);
}

/* lafkuno_run_at: the run of a row of a run-end column and the rows that are left in it, LAFKUNO_RUN numbers. */
static inline uint8_t lafkuno_tables_run_at(const struct lafkuno_tables *t, uint32_t first, uint32_t n, uint64_t row, uint64_t *answer) {
    return lafkuno_run_at(LAFKUNO_COLUMN_TABLES(t), first, n, row, answer, LAFKUNO_RUN);
}

/* lafkuno_read_run: the same of an opened column. */
static inline uint8_t lafkuno_tables_read_run(const struct lafkuno_tables *t, const uint64_t *tree, uint32_t first, uint64_t row,
                                              uint64_t *answer) {
    return lafkuno_read_run(tree, LAFKUNO_TREE, t->lengths, t->lengths_len, t->places, t->places_len, t->body, t->body_len, first, row,
                            answer, LAFKUNO_RUN);
}

/* lafkuno_same_row: whether row_a of one column of numbers and row_b of another read the same, 1 or 0. */
static inline uint8_t lafkuno_tables_same_row(const struct lafkuno_tables *t, uint32_t first_a, uint32_t n_a, uint32_t first_b, uint32_t n_b,
                                              uint64_t row_a, uint64_t row_b, uint64_t *answer) {
    return lafkuno_same_row(LAFKUNO_COLUMN_TABLES(t), first_a, n_a, first_b, n_b, row_a, row_b, answer, LAFKUNO_SAME);
}

/* lafkuno_frame: the frame of rows start to end - 1 of latitudes (a) and longitudes (b), four numbers. */
static inline uint8_t lafkuno_tables_frame(const struct lafkuno_tables *t, uint32_t first_a, uint32_t n_a, uint32_t first_b, uint32_t n_b,
                                           uint64_t start, uint64_t end, double *frame) {
    return lafkuno_frame(LAFKUNO_COLUMN_TABLES(t), first_a, n_a, first_b, n_b, start, end, frame, 4);
}

/* lafkuno_mean: count, exact sum and mean of rows start to end - 1, LAFKUNO_MEAN numbers. */
static inline uint8_t lafkuno_tables_mean(const struct lafkuno_tables *t, uint32_t first, uint32_t n, uint64_t start, uint64_t end,
                                          uint64_t *answer) {
    return lafkuno_mean(LAFKUNO_COLUMN_TABLES(t), first, n, start, end, answer, LAFKUNO_MEAN);
}

/* lafkuno_ratio: total over total of two columns, LAFKUNO_RATIO numbers. */
static inline uint8_t lafkuno_tables_ratio(const struct lafkuno_tables *t, uint32_t first_a, uint32_t n_a, uint32_t first_b, uint32_t n_b,
                                           uint64_t start, uint64_t end, uint64_t *answer) {
    return lafkuno_ratio(LAFKUNO_COLUMN_TABLES(t), first_a, n_a, first_b, n_b, start, end, answer, LAFKUNO_RATIO);
}

/* ---- one column written anew */

/* lafkuno_plan_encode, lafkuno_encode: rows start to end - 1 of a fixed-width column as runs; the type of the result is the three nodes
 * from node `target` on. */
static inline uint8_t lafkuno_state_plan_encode(struct lafkuno_state *s, const struct lafkuno_tables *t, uint32_t first, uint32_t n,
                                                uint32_t target, uint64_t start, uint64_t end) {
    return lafkuno_plan_encode(LAFKUNO_COLUMN_TABLES(t), first, n, target, start, end, s->plan, LAFKUNO_PLAN, s->counters, LAFKUNO_COUNTERS);
}

static inline uint8_t lafkuno_state_encode(struct lafkuno_state *s, const struct lafkuno_tables *t, uint32_t first, uint32_t n,
                                           uint32_t target, uint64_t start, uint64_t end) {
    return lafkuno_encode(LAFKUNO_COLUMN_TABLES(t), first, n, target, start, end, s->parts, s->parts_len, s->plan, LAFKUNO_PLAN,
                          s->counters, LAFKUNO_COUNTERS, s->room, s->room_len);
}

/* lafkuno_plan_expand, lafkuno_expand: the way back; the type of the result is node `target`, of the values' format. */
static inline uint8_t lafkuno_state_plan_expand(struct lafkuno_state *s, const struct lafkuno_tables *t, uint32_t first, uint32_t n,
                                                uint32_t target, uint64_t start, uint64_t end) {
    return lafkuno_plan_expand(LAFKUNO_COLUMN_TABLES(t), first, n, target, start, end, s->plan, LAFKUNO_PLAN, s->counters, LAFKUNO_COUNTERS);
}

static inline uint8_t lafkuno_state_expand(struct lafkuno_state *s, const struct lafkuno_tables *t, uint32_t first, uint32_t n,
                                           uint32_t target, uint64_t start, uint64_t end) {
    return lafkuno_expand(LAFKUNO_COLUMN_TABLES(t), first, n, target, start, end, s->parts, s->parts_len, s->plan, LAFKUNO_PLAN,
                          s->counters, LAFKUNO_COUNTERS, s->room, s->room_len);
}

/* lafkuno_plan_reclaim, lafkuno_reclaim: a dictionary column with only the entries that some valid key names. */
static inline uint8_t lafkuno_state_plan_reclaim(struct lafkuno_state *s, const struct lafkuno_tables *t, uint32_t first, uint32_t n) {
    return lafkuno_plan_reclaim(LAFKUNO_COLUMN_TABLES(t), first, n, s->plan, LAFKUNO_PLAN, s->counters, LAFKUNO_COUNTERS);
}

static inline uint8_t lafkuno_state_reclaim(struct lafkuno_state *s, const struct lafkuno_tables *t, uint32_t first, uint32_t n) {
    return lafkuno_reclaim(LAFKUNO_COLUMN_TABLES(t), first, n, s->parts, s->parts_len, s->plan, LAFKUNO_PLAN, s->counters,
                           LAFKUNO_COUNTERS, s->room, s->room_len);
}

/* lafkuno_plan_list, lafkuno_list: a list-view column as a list; the type of the result is target_n nodes from node `target` on, here and
 * in the calls below. */
static inline uint8_t lafkuno_state_plan_list(struct lafkuno_state *s, const struct lafkuno_tables *t, uint32_t first, uint32_t n,
                                              uint32_t target, uint32_t target_n) {
    return lafkuno_plan_list(LAFKUNO_COLUMN_TABLES(t), first, n, target, target_n, s->plan, LAFKUNO_PLAN, s->counters, LAFKUNO_COUNTERS);
}

static inline uint8_t lafkuno_state_list(struct lafkuno_state *s, const struct lafkuno_tables *t, uint32_t first, uint32_t n,
                                         uint32_t target, uint32_t target_n) {
    return lafkuno_list(LAFKUNO_COLUMN_TABLES(t), first, n, target, target_n, s->parts, s->parts_len, s->plan, LAFKUNO_PLAN, s->counters,
                        LAFKUNO_COUNTERS, s->room, s->room_len);
}

/* lafkuno_plan_list_view, lafkuno_list_view: a list column as a list-view, of which lafkuno_state_finish gives the root ... */
static inline uint8_t lafkuno_state_plan_list_view(struct lafkuno_state *s, const struct lafkuno_tables *t, uint32_t first, uint32_t n,
                                                   uint32_t target, uint32_t target_n) {
    return lafkuno_plan_list_view(LAFKUNO_COLUMN_TABLES(t), first, n, target, target_n, s->plan, LAFKUNO_PLAN, s->counters, LAFKUNO_COUNTERS);
}

static inline uint8_t lafkuno_state_list_view(struct lafkuno_state *s, const struct lafkuno_tables *t, uint32_t first, uint32_t n,
                                              uint32_t target, uint32_t target_n) {
    return lafkuno_list_view(LAFKUNO_COLUMN_TABLES(t), first, n, target, target_n, s->parts, s->parts_len, s->plan, LAFKUNO_PLAN,
                             s->counters, LAFKUNO_COUNTERS, s->room, s->room_len);
}

/* ... and lafkuno_list_view_child the nodes below it, in tables of n nodes; their data buffers are the column's own. */
static inline uint8_t lafkuno_tables_list_view_child(const struct lafkuno_tables *t, uint32_t first, uint32_t n, struct lafkuno_finished *f) {
    return lafkuno_list_view_child(LAFKUNO_COLUMN_TABLES(t), first, n, f->lengths, f->lengths_len, f->nulls, f->nulls_len, f->places,
                                   f->places_len);
}

/* lafkuno_plan_convert, lafkuno_convert: a column in other widths. */
static inline uint8_t lafkuno_state_plan_convert(struct lafkuno_state *s, const struct lafkuno_tables *t, uint32_t first, uint32_t n,
                                                 uint32_t target, uint32_t target_n) {
    return lafkuno_plan_convert(LAFKUNO_COLUMN_TABLES(t), first, n, target, target_n, s->plan, LAFKUNO_PLAN, s->counters, LAFKUNO_COUNTERS);
}

static inline uint8_t lafkuno_state_convert(struct lafkuno_state *s, const struct lafkuno_tables *t, uint32_t first, uint32_t n,
                                            uint32_t target, uint32_t target_n) {
    return lafkuno_convert(LAFKUNO_COLUMN_TABLES(t), first, n, target, target_n, s->parts, s->parts_len, s->plan, LAFKUNO_PLAN,
                           s->counters, LAFKUNO_COUNTERS, s->room, s->room_len);
}

#ifdef __cplusplus
}
#endif

#endif
