/* Joins of columns, over the calls of lafkuno.h. */
#include "layer.h"

#include <inttypes.h>
#include <stdlib.h>
#include <string.h>

/* ---- refused sources */

static uint8_t subtree_ground(const struct column *column, uint32_t node) {
    return lafkuno_tables_ground(&column->tables, node, subtree_end(&column->import, node) - node);
}

/* Of a refused subtree the node that breaks a rule while all below it keep theirs. */
static uint32_t refused_node(const struct column *column, uint32_t node) {
    uint32_t end = subtree_end(&column->import, node), child = node + 1;
    while (child < end) {
        if (subtree_ground(column, child)) {
            node = child;
            end = subtree_end(&column->import, node);
            child = node + 1;
        } else {
            child = subtree_end(&column->import, child);
        }
    }
    return node;
}

int refuse_sources(struct column *column, int code) {
    const struct import *import = &column->import;
    for (uint32_t s = 0; s < import->source_count; s++) {
        uint32_t first = import->sources[2 * s];
        uint8_t ground = subtree_ground(column, first);
        if (!ground) continue;
        uint32_t node = refused_node(column, first);
        at_source(column->report, s);
        at_node(column->report, node - first, import->schemas[node]);
        return ground == LAFKUNO_BAD_SOURCE ? refuse_node(import, node) : refuse_plainly(column->report, ground);
    }
    at_source(column->report, -1);
    return refuse_plainly(column->report, code);
}

/* ---- orders */

/* A gap that ends before it starts; what else is no order the library refuses. */
static bool backwards(const struct lafkuno_order *order) {
    return order->source == LAFKUNO_GAP && order->end < order->start;
}

/* The numbers of an order in a list. */
static void put_order(const struct lafkuno_order *order, uint64_t *words) {
    bool gap = order->source == LAFKUNO_GAP;
    words[0] = gap ? LAFKUNO_ORDER_NULLS : LAFKUNO_ORDER_COPY;
    words[1] = gap ? order->end - order->start : order->source;
    words[2] = order->start;
    words[3] = order->end;
}

/* 6 or 8 of an opening, which tells no node: it is known where there is only one dictionary. */
static int refuse_opening(struct column *column, int ground) {
    const struct import *import = &column->import;
    uint32_t found = 0, at = 0;
    for (uint32_t node = 0; node < import->sources[1]; node++)
        if (import->schemas[node]->dictionary) {
            found++;
            at = node;
        }
    if (found == 1) at_node(column->report, at, import->schemas[at]);
    return refuse_plainly(column->report, ground);
}

/* Order `place` of a list from order `first` on: where it stopped behind those before it, and the numbers that clash. */
static int refuse_order(struct column *column, const struct task *task, size_t first, int ground, const uint64_t *words, size_t place) {
    struct lafkuno_error *error = column->report->error;
    const struct lafkuno_tables *t = &column->tables;
    uint64_t why[LAFKUNO_WHY + 1] = {0};
    at_order(column->report, (int64_t)(first + place), &task->orders[first + place]);
    if (ground < LAFKUNO_UNION_WITHOUT_FIELDS || ground > LAFKUNO_RUN_END_TOO_LARGE) return refuse_plainly(column->report, ground);
    lafkuno_state_measure_orders(&column->state, t, words, place);
    lafkuno_why_orders(column->state.plan, LAFKUNO_PLAN, column->state.parts, 0, t->sources, t->sources_len, t->lengths, t->lengths_len, t->places,
                       t->places_len, t->body, t->body_len, column->state.counters, LAFKUNO_COUNTERS, 0, words + LAFKUNO_ORDER * place,
                       LAFKUNO_ORDER, why, LAFKUNO_WHY + 1);
    if (why[0] != (uint64_t)ground) return refuse_plainly(column->report, ground);
    at_node(column->report, (int64_t)why[1], column->import.schemas[why[1]]);
    error->row = (int64_t)why[2];
    if (!why[3]) return refuse_plainly(column->report, ground);
    error->found = why[3];
    error->allowed = why[4];
    return refuse(column->report, ground, "%s: %" PRIu64 " is needed, and %" PRIu64 " is the largest allowed", lafkuno_meaning(ground), why[3],
                  why[4]);
}

/* Tries the orders on the counters, or carries them out, in lists as long as they may be. */
static int give_orders(struct column *column, const struct task *task, bool measure) {
    uint64_t words[LAFKUNO_ORDER * LAFKUNO_MOST_ORDERS];
    for (size_t k = 0, n; k < task->order_count; k += n) {
        for (n = 0; n < LAFKUNO_MOST_ORDERS && k + n < task->order_count && !backwards(&task->orders[k + n]); n++)
            put_order(&task->orders[k + n], words + LAFKUNO_ORDER * n);
        if (!n) return refuse_order(column, task, k, LAFKUNO_NO_SUCH_ROWS, words, 0);
        uint32_t answer = measure ? lafkuno_state_measure_orders(&column->state, &column->tables, words, n)
                                  : lafkuno_state_orders(&column->state, &column->tables, words, n);
        if (answer) return refuse_order(column, task, k, LAFKUNO_ANSWER_GROUND(answer), words, LAFKUNO_ANSWER_PLACE(answer));
    }
    return 0;
}

/* ---- a column */

struct task task_of(const struct lafkuno_order *orders, size_t order_count, const struct lafkuno_options *options) {
    return (struct task){orders, order_count, options && options->keep_nulls, options && options->one_run_for_gaps, most_rows_of(options)};
}

static int check_sources(struct report *report, const struct lafkuno_source *sources, size_t count, struct shape *shape) {
    int code = 0;
    for (size_t s = 0; !code && s < count; s++) {
        at_source(report, (int64_t)s);
        code = shape_of(report, &sources[s], shape);
        if (!code && s) code = same_types(report, sources[0].schema, sources[s].schema);
    }
    return code;
}

static int import_sources(struct column *column, const struct lafkuno_source *sources, const struct window *windows, size_t count,
                          const struct shape *shape) {
    int code = import_begin(&column->import, column->report, count, shape);
    for (size_t s = 0; !code && s < count; s++) {
        at_source(column->report, (int64_t)s);
        code = import_source(&column->import, &sources[s], windows[s]);
    }
    at_source(column->report, -1);
    return code ? code : lay(&column->import);
}

int column_prepare(struct column *column, struct report *report, const struct lafkuno_source *sources, const struct window *windows,
                   size_t count, const struct task *task) {
    struct shape shape = {0, 0, 0};
    column->report = report;
    column->import = (struct import){.report = report};
    column->state.room = NULL;
    column->type = sources[0].schema;
    column->keep = task->keep;
    column->gaps = task->gaps;
    int code = check_sources(report, sources, count, &shape);
    if (!code) code = import_sources(column, sources, windows, count, &shape);
    if (code) return code;
    column->tables = import_tables(&column->import);
    uint8_t ground = lafkuno_state_plan(&column->state, &column->tables, column->keep, column->gaps);
    if (ground) return refuse_sources(column, ground);
    code = bound_rows(&column->import, task->orders, task->order_count, task->most_rows);
    if (code) return code;
    ground = lafkuno_state_measure_open(&column->state, &column->tables);
    if (ground) return refuse_opening(column, ground);
    return give_orders(column, task, true);
}

int lend_room(struct column *column) {
    uint64_t bytes = lafkuno_state_parts(&column->state);
    if (bytes > LAFKUNO_MOST_BYTES)
        return refuse_above(column->report, LAFKUNO_CEILING_PASSED, bytes, LAFKUNO_MOST_BYTES, "bytes of the result");
    column->state.room = allocate_lines(bytes);
    column->state.room_len = (size_t)bytes;
    return column->state.room ? 0 : refuse_memory(column->report);
}

int finish_tables(struct column *column, size_t nodes, struct lafkuno_finished *tables) {
    size_t data = (size_t)lafkuno_state_buffer_total(&column->state, &column->tables);
    uint64_t *block = malloc(3 * nodes * sizeof *block + (9 * nodes + 2 * data + 1) * sizeof(position));
    if (!block) return refuse_memory(column->report);
    position *places = (position *)(block + 3 * nodes);
    *tables = (struct lafkuno_finished){block, 2 * nodes, block + 2 * nodes, nodes, places, 9 * nodes, places + 9 * nodes, 2 * data};
    uint8_t ground = lafkuno_state_finish(&column->state, &column->tables, 0, tables);
    if (!ground) return 0;
    free(block);
    return refuse_plainly(column->report, ground);
}

int column_finish(struct column *column, const struct task *task, struct ArrowArray *array) {
    struct finished finished = {.body = column->import.body};
    int code = lend_room(column);
    if (code) return code;
    uint8_t ground = lafkuno_state_open(&column->state, &column->tables, column->keep, column->gaps);
    if (ground) return refuse_plainly(column->report, ground);
    code = give_orders(column, task, false);
    if (!code) code = finish_tables(column, column->import.sources[1], &finished.tables);
    return code ? code : export_finished(column, column->type, &finished, array);
}

int export_finished(struct column *column, const struct ArrowSchema *type, struct finished *finished, struct ArrowArray *array) {
    for (uint32_t p = 0; p < column->state.parts_len / 2; p++)
        finished->copied[lafkuno_part_node(column->state.plan, LAFKUNO_PLAN, p)] = true;
    finished->room = column->state.room;
    column->import.body = NULL;
    column->state.room = NULL;
    int code = export_array(column->report, type, finished, array);
    free(finished->tables.lengths);
    return code;
}

void column_end(struct column *column) {
    import_end(&column->import);
    free(column->state.room);
    column->state.room = NULL;
}

static int join_columns(struct report *report, const struct lafkuno_source *sources, size_t count, const struct task *task,
                        struct ArrowSchema *schema, struct ArrowArray *array) {
    struct window windows[LAFKUNO_MOST_SOURCES];
    struct column *column = malloc(sizeof *column);
    if (!column) return refuse_memory(report);
    for (size_t s = 0; s < count; s++) windows[s] = (struct window){0, sources[s].array ? (uint64_t)sources[s].array->length : 0};
    int code = column_prepare(column, report, sources, windows, count, task);
    if (!code) code = column_finish(column, task, array);
    column_end(column);
    free(column);
    if (!code && schema && (code = export_schema(report, sources, count, task->keep, schema))) array->release(array);
    return code;
}

int lafkuno_join_arrays(const struct lafkuno_source *sources, size_t count, const struct lafkuno_order *orders, size_t order_count,
                        const struct lafkuno_options *options, struct ArrowSchema *schema, struct ArrowArray *array,
                        struct lafkuno_error *error) {
    struct lafkuno_error spare;
    struct report report = report_to(error, &spare);
    struct task task = task_of(orders, order_count, options);
    struct ArrowSchema type;
    struct ArrowArray joined;
    if (!count) return refuse(&report, LAFKUNO_CEILING_PASSED, "there is no source");
    if (count > LAFKUNO_MOST_SOURCES) return refuse_above(&report, LAFKUNO_CEILING_PASSED, count, LAFKUNO_MOST_SOURCES, "sources");
    int code = join_columns(&report, sources, count, &task, schema ? &type : NULL, &joined);
    if (code) return code;
    report_to(error, &spare);
    if (schema) *schema = type;
    *array = joined;
    return 0;
}
