/* The tables of the sources: each node with the window of it that is reached. */
#include "layer.h"

#include <inttypes.h>
#include <stdlib.h>
#include <string.h>

/* ---- the block of memory */

/* Takes an array from the block, or only counts its bytes where there is none yet. */
static void *carve(uint8_t *block, size_t *used, size_t count, size_t size) {
    size_t start = *used;
    *used += (count * size + 15) / 16 * 16;
    return block ? block + start : NULL;
}

static size_t carve_all(struct import *t, uint8_t *block, size_t sources, const struct shape *shape) {
    size_t used = 0, nodes = (size_t)shape->nodes, data = (size_t)shape->data_buffers;
    t->lengths = carve(block, &used, 2 * nodes, sizeof *t->lengths);
    t->firsts = carve(block, &used, nodes, sizeof *t->firsts);
    t->schemas = carve(block, &used, nodes, sizeof *t->schemas);
    t->rewrites = carve(block, &used, nodes, sizeof *t->rewrites);
    t->spreads = carve(block, &used, nodes, sizeof *t->spreads);
    t->stretches = carve(block, &used, 3 * nodes + data, sizeof *t->stretches);
    t->spans = carve(block, &used, data, sizeof *t->spans);
    t->sources = carve(block, &used, 2 * sources, sizeof *t->sources);
    t->schema = carve(block, &used, 5 * nodes, sizeof *t->schema);
    t->places = carve(block, &used, 9 * nodes, sizeof *t->places);
    t->buffers = carve(block, &used, 2 * data + 1, sizeof *t->buffers);
    t->formats = carve(block, &used, (size_t)shape->format_bytes + 1, 1);
    return used;
}

int import_begin(struct import *import, struct report *report, size_t sources, const struct shape *shape) {
    *import = (struct import){.report = report};
    if (shape->data_buffers > INT32_MAX)
        return refuse_above(report, LAFKUNO_CEILING_PASSED, shape->data_buffers, INT32_MAX, "data buffers");
    import->block = calloc(1, carve_all(import, NULL, sources, shape));
    if (!import->block) return refuse_memory(report);
    carve_all(import, import->block, sources, shape);
    return 0;
}

void import_end(struct import *import) {
    free(import->block);
    free(import->body);
    import->block = NULL;
    import->body = NULL;
}

struct lafkuno_tables import_tables(const struct import *t) {
    return (struct lafkuno_tables){
        t->sources, 2 * t->source_count, t->formats, t->formats_len,      t->schema, 5 * t->node_count, t->lengths, 2 * t->node_count,
        t->places,  9 * t->node_count,   t->buffers, 2 * t->buffer_count, t->body,   (size_t)t->body_len};
}

uint32_t subtree_end(const struct import *import, uint32_t node) {
    uint32_t due = 1;
    while (due) {
        const uint32_t *schema = import->schema + 5 * node++;
        due += schema[3] + schema[4] - 1;
    }
    return node;
}

/* ---- stretches of memory */

int want(struct import *import, const struct node *node, const void *from, uint64_t bytes, position *place) {
    if (!bytes) return 0;
    if (!from) return refuse(import->report, LAFKUNO_BAD_STRUCT, "a buffer is null, and %" PRIu64 " bytes are asked of it", bytes);
    if (bytes > LAFKUNO_MOST_BYTES) return refuse_above(import->report, LAFKUNO_CEILING_PASSED, bytes, LAFKUNO_MOST_BYTES, "bytes");
    place[1] = bytes;
    import->stretches[import->stretch_count++] = (struct stretch){from, bytes, place, AS_THEY_ARE, 1, node->index};
    return 0;
}

int want_entries(struct import *import, const struct node *node, int64_t b, uint64_t entries, unsigned width, position *place,
                 enum change change) {
    const uint8_t *from = node->array->buffers[b];
    if (entries > LAFKUNO_MOST_BYTES / width)
        return refuse_above(import->report, LAFKUNO_CEILING_PASSED, entries, LAFKUNO_MOST_BYTES / width, "entries of a buffer");
    int code = want(import, node, from ? from + node->cut * width : NULL, entries * width, place);
    if (!code && entries) {
        struct stretch *last = &import->stretches[import->stretch_count - 1];
        last->change = change;
        last->width = width;
    }
    return code;
}

/* ---- nodes */

static bool has_validity(enum kind kind) { return kind != SPARSE && kind != DENSE && kind != RUNS; }

static int import_validity(struct import *import, const struct node *node, position *place) {
    const struct ArrowArray *a = node->array;
    const uint8_t *bits = has_validity(node->format.kind) ? a->buffers[0] : NULL;
    uint64_t slots = node->offset - node->cut + node->rows;
    if (!bits || !a->null_count || !node->rows) return 0;
    place[0] = 1;
    return want(import, node, bits + node->cut / 8, slots / 8 + (slots % 8 != 0), place + 1);
}

/* Offsets from 0 on and the window's bytes alone; in a dictionary, whose places are compared, as they are. */
static int import_string(struct import *import, const struct node *node, position *place) {
    unsigned width = node->format.width;
    uint64_t slots = node->offset - node->cut + node->rows;
    const uint8_t *offsets = node->array->buffers[1];
    int code = want_entries(import, node, 1, slots + 1, width, place, AS_THEY_ARE);
    if (code) return code;
    int64_t first = number_at(offsets, node->offset, width), last = number_at(offsets, node->offset + node->rows, width);
    if (first < 0 || last < first) return 0; /* no bytes are lent for such offsets: ground 12 */
    if (node->in_dictionary) first = 0;
    if (first) import->stretches[import->stretch_count - 1].change = LESS_FIRST;
    import->rewrites[node->index].first = (uint64_t)first;
    const uint8_t *bytes = node->array->buffers[2];
    return want(import, node, bytes ? bytes + first : NULL, (uint64_t)(last - first), place + 2);
}

static int import_buffers(struct import *import, const struct node *node, struct window *children) {
    position *place = import->places + 9 * node->index + 3;
    uint64_t slots = node->offset - node->cut + node->rows;
    if (node->format.kind == VIEW) return import_views(import, node);
    if (!node->rows) return 0;
    switch (node->format.kind) {
        case FIXED: return want_entries(import, node, 1, slots, node->format.width, place, AS_THEY_ARE);
        case STRING: return import_string(import, node, place);
        case LIST: return import_list(import, node, children);
        case LIST_VIEW: return import_list_view(import, node, children);
        case DENSE: return import_dense(import, node, children);
        case RUNS: return runs_window(import, node, children);
        default: break;
    }
    for (int64_t k = 0; k < node->schema->n_children; k++) {
        children[k] = (struct window){node->cut, slots};
        if ((uint64_t)node->array->children[k]->length < node->offset + node->rows)
            return refuse(import->report, LAFKUNO_BAD_SOURCE, "child %" PRId64 " has %" PRId64 " rows, and %" PRIu64 " are reached", k,
                          node->array->children[k]->length, node->offset + node->rows);
    }
    return want_entries(import, node, 0, slots, 1, place, AS_THEY_ARE);
}

static void import_schema(struct import *import, const struct node *node) {
    const char *format = storage_of(node->schema->format);
    uint32_t *schema = import->schema + 5 * node->index;
    schema[0] = (uint32_t)import->formats_len;
    schema[1] = (uint32_t)strlen(format);
    schema[2] = (uint32_t)(node->schema->flags & ARROW_FLAG_NULLABLE);
    schema[3] = (uint32_t)node->schema->n_children;
    schema[4] = node->schema->dictionary != NULL;
    memcpy(import->formats + import->formats_len, format, schema[1]);
    import->formats_len += schema[1];
    import->schemas[node->index] = node->schema;
}

/* The window of an array and of all below it. A run-end node keeps its offset, which its run ends are about. */
static int import_node(struct import *import, const struct ArrowSchema *s, const struct ArrowArray *a, struct window window,
                       bool in_dictionary) {
    struct node node = {s, a, format_of(storage_of(s->format)), import->node_count++, window.rows, 0, 0, in_dictionary};
    struct window children[MOST_FIELDS] = {{0, 0}};
    at_node(import->report, (int64_t)node.index - import->sources[2 * import->source_count], s);
    if (window.rows) node.offset = (uint64_t)a->offset + window.first;
    if (node.format.kind != RUNS) node.cut = node.offset / 8 * 8;
    import_schema(import, &node);
    import->firsts[node.index] = window.first;
    import->lengths[2 * node.index] = node.rows;
    import->lengths[2 * node.index + 1] = node.offset - node.cut;
    int code = import_validity(import, &node, import->places + 9 * node.index);
    if (!code) code = import_buffers(import, &node, children);
    if (!code && s->dictionary)
        code = import_node(import, s->dictionary, a->dictionary, (struct window){0, (uint64_t)a->dictionary->length}, true);
    for (int64_t k = 0; !code && k < s->n_children; k++)
        code = import_node(import, s->children[k], a->children[k], children[k], in_dictionary);
    return code;
}

int import_source(struct import *import, const struct lafkuno_source *source, struct window rows) {
    uint32_t *table = import->sources + 2 * import->source_count;
    table[0] = (uint32_t)import->node_count;
    int code = import_node(import, source->schema, source->array, rows, false);
    table[1] = (uint32_t)import->node_count - table[0];
    import->source_count++;
    return code;
}
