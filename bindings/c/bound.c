/* The most rows that orders can come to at each node, before any of them is tried: a list-view's rows may overlap, and those of a nested
 * one multiply. */
#include "layer.h"

/* How often a node is reached. */
struct flow {
    uint64_t rows;   /* in all */
    uint64_t times;  /* any one row */
    uint64_t pieces; /* ranges of neighbouring rows */
};

struct bound {
    const struct import *import;
    uint64_t rows[LAFKUNO_MOST_NODES];
    uint32_t first; /* the source's first node */
    uint32_t next;  /* the node that is met next */
    bool nulls;     /* the flow is of ordered nulls, which add no rows below a list or list-view */
};

static uint64_t plus(uint64_t a, uint64_t b) { return a > UINT64_MAX - b ? UINT64_MAX : a + b; }
static uint64_t times(uint64_t a, uint64_t b) { return b && a > UINT64_MAX / b ? UINT64_MAX : a * b; }
static uint64_t less(uint64_t a, uint64_t b) { return a < b ? a : b; }

/* What reaches the children of a node. */
static struct flow flow_below(const struct bound *bound, uint32_t node, enum kind kind, struct flow flow) {
    const struct spread *spread = &bound->import->spreads[node];
    if ((kind == LIST || kind == LIST_VIEW) && bound->nulls) return (struct flow){0, 0, 0};
    if (kind == LIST || kind == LIST_VIEW) {
        uint64_t rows = less(times(flow.rows, spread->largest), times(flow.times, spread->sum));
        /* neighbouring rows of a list are one stretch of its child */
        return (struct flow){rows, spread->again ? rows : flow.times, kind == LIST ? flow.pieces : flow.rows};
    }
    if (kind == DENSE) return (struct flow){flow.rows, spread->again ? flow.rows : flow.times, flow.rows};
    if (kind == RUNS) { /* the first child's rows are the runs */
        uint64_t runs = bound->nulls ? 1 : bound->import->lengths[2 * (node + 1)];
        return (struct flow){less(flow.rows, times(flow.pieces, runs)), flow.pieces, flow.pieces};
    }
    return flow;
}

static void bound_node(struct bound *bound, struct flow flow) {
    uint32_t node = bound->next++;
    const struct ArrowSchema *s = bound->import->schemas[node];
    uint64_t *rows = &bound->rows[node - bound->first];
    *rows = plus(*rows, flow.rows);
    if (s->dictionary) bound_node(bound, (struct flow){bound->nulls ? 0 : bound->import->lengths[2 * (node + 1)], 1, 1});
    struct flow below = flow_below(bound, node, format_of(storage_of(s->format)).kind, flow);
    for (int64_t k = 0; k < s->n_children; k++) bound_node(bound, below);
}

/* The flow of all orders of one source, or of all null orders; those that will be refused count nothing. */
static struct flow flow_of(const struct lafkuno_order *orders, size_t count, uint32_t source, uint64_t rows) {
    struct flow flow = {0, 0, 0};
    for (size_t k = 0; k < count; k++) {
        if (orders[k].source != source || orders[k].end < orders[k].start || (source != LAFKUNO_GAP && orders[k].end > rows)) continue;
        flow.rows = plus(flow.rows, orders[k].end - orders[k].start);
        flow.times++;
        flow.pieces++;
    }
    return flow;
}

int bound_rows(const struct import *import, const struct lafkuno_order *orders, size_t order_count, uint64_t most) {
    struct bound bound = {.import = import};
    for (uint32_t s = 0; s < import->source_count; s++) {
        bound.first = bound.next = import->sources[2 * s];
        bound_node(&bound, flow_of(orders, order_count, s, import->lengths[2 * bound.first]));
    }
    bound.first = bound.next = import->sources[0];
    bound.nulls = true;
    bound_node(&bound, flow_of(orders, order_count, LAFKUNO_GAP, 0));
    at_source(import->report, -1);
    for (uint32_t node = 0; node < import->sources[1]; node++) {
        if (bound.rows[node] <= most) continue;
        at_node(import->report, node, import->schemas[node]);
        return refuse_above(import->report, LAFKUNO_TOO_MUCH_WORK, bound.rows[node], most, "rows are the bound of the orders here");
    }
    return 0;
}
