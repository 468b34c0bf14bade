/* Ground 12 in words: the first row of a node that breaks a rule, and what was found there. Only what was lent is looked at. */
#include "layer.h"

#include <inttypes.h>
#include <string.h>

/* A refused node. */
struct look {
    const struct import *import;
    uint32_t node;
    uint64_t rows, offset, first; /* first: the row of the array that is lent as row 0 */
    const position *place;
    const char *format;
    unsigned width;
};

static struct look look_at(const struct import *import, uint32_t node) {
    const char *format = storage_of(import->schemas[node]->format);
    return (struct look){import, node, import->lengths[2 * node], import->lengths[2 * node + 1], import->firsts[node],
                         import->places + 9 * node, format, format_of(format).width};
}

/* Buffer `b` from the node's first row on. */
static const uint8_t *rows_of(const struct look *look, int b, unsigned width) {
    return look->import->body + look->place[1 + 2 * b] + look->offset * width;
}

static bool row_valid(const struct look *look, uint64_t row) {
    uint64_t bit = look->offset + row;
    return !look->place[0] || (look->import->body[look->place[1] + bit / 8] >> bit % 8 & 1);
}

/* The offsets are told as they were before they were lowered. */
static int in_string(const struct look *look) {
    const uint8_t *offsets = rows_of(look, 1, look->width);
    uint64_t lowered = look->import->rewrites[look->node].first;
    for (uint64_t r = 0; r < look->rows; r++) {
        int64_t from = number_at(offsets, r, look->width), to = number_at(offsets, r + 1, look->width);
        if (from < 0 || to < from)
            return refuse(look->import->report, LAFKUNO_BAD_SOURCE, "row %" PRIu64 ": bytes %" PRId64 " to %" PRId64, look->first + r,
                          (int64_t)((uint64_t)from + lowered), (int64_t)((uint64_t)to + lowered));
    }
    return 0;
}

static int in_list(const struct look *look) {
    const uint8_t *offsets = rows_of(look, 1, look->width);
    int64_t child = (int64_t)look->import->lengths[2 * (look->node + 1)];
    for (uint64_t r = 0; r < look->rows; r++) {
        int64_t from = number_at(offsets, r, look->width), to = number_at(offsets, r + 1, look->width);
        if (from < 0 || to < from || to > child)
            return refuse(look->import->report, LAFKUNO_BAD_SOURCE,
                          "row %" PRIu64 ": offsets %" PRId64 " and %" PRId64 ", and the child has %" PRId64 " rows", look->first + r, from,
                          to, child);
    }
    return 0;
}

static int in_list_view(const struct look *look) {
    const uint8_t *offsets = rows_of(look, 1, look->width), *sizes = rows_of(look, 2, look->width);
    int64_t child = (int64_t)look->import->lengths[2 * (look->node + 1)];
    for (uint64_t r = 0; r < look->rows; r++) {
        int64_t offset = number_at(offsets, r, look->width), size = number_at(sizes, r, look->width);
        if (offset < 0 || size < 0 || size > child || offset > child - size)
            return refuse(look->import->report, LAFKUNO_BAD_SOURCE,
                          "row %" PRIu64 ": offset %" PRId64 " and size %" PRId64 ", and the child has %" PRId64 " rows", look->first + r,
                          offset, size, child);
    }
    return 0;
}

static int in_union(const struct look *look, bool dense) {
    const uint8_t *ids = rows_of(look, 1, 1), *positions = rows_of(look, 2, 4);
    int8_t child_of[256];
    int64_t rows[MOST_FIELDS] = {0};
    uint32_t child = look->node + 1;
    for (uint32_t k = 0; k < look->import->schema[5 * look->node + 3] && k < MOST_FIELDS; k++, child = subtree_end(look->import, child))
        rows[k] = (int64_t)look->import->lengths[2 * child];
    union_children(look->format, child_of);
    for (uint64_t r = 0; r < look->rows; r++) {
        int8_t k = child_of[ids[r]];
        if (k < 0)
            return refuse(look->import->report, LAFKUNO_BAD_SOURCE, "row %" PRIu64 ": the id %d is not declared", look->first + r,
                          (int)(int8_t)ids[r]);
        int64_t at = dense ? number_at(positions, r, 4) : 0;
        if (dense && (at < 0 || at >= rows[k]))
            return refuse(look->import->report, LAFKUNO_BAD_SOURCE,
                          "row %" PRIu64 ": position %" PRId64 " of field %d, which has %" PRId64 " rows", look->first + r, at, k, rows[k]);
    }
    return 0;
}

/* The node behind is that of the run ends. */
static int in_runs(const struct look *look) {
    struct look ends = look_at(look->import, look->node + 1);
    const uint8_t *numbers = rows_of(&ends, 1, ends.width);
    struct report *report = look->import->report;
    int64_t last = 0;
    for (uint64_t r = 0; r < ends.rows; r++) {
        int64_t end = number_at(numbers, r, ends.width);
        if (!row_valid(&ends, r)) return refuse(report, LAFKUNO_BAD_SOURCE, "run end %" PRIu64 " is null", ends.first + r);
        if (end <= last)
            return refuse(report, LAFKUNO_BAD_SOURCE, "run end %" PRIu64 " is %" PRId64 " behind %" PRId64, ends.first + r, end, last);
        last = end;
    }
    if ((uint64_t)last < look->offset + look->rows)
        return refuse(report, LAFKUNO_BAD_SOURCE, "the last run ends at %" PRId64 ", and %" PRIu64 " rows are reached", last,
                      look->offset + look->rows);
    return 0;
}

/* Keys; a letter in capitals is a type without sign. */
static int in_keys(const struct look *look) {
    const uint8_t *keys = rows_of(look, 1, look->width);
    uint64_t entries = look->import->lengths[2 * (look->node + 1)];
    bool has_sign = strchr("csil", look->format[0]) != NULL;
    for (uint64_t r = 0; r < look->rows; r++) {
        int64_t number = number_at(keys, r, look->width);
        uint64_t key = (uint64_t)number;
        if (!has_sign && look->width < 8) key &= ((uint64_t)1 << 8 * look->width) - 1;
        if (key < entries || !row_valid(look, r)) continue;
        if (has_sign && number < 0)
            return refuse(look->import->report, LAFKUNO_BAD_SOURCE, "row %" PRIu64 ": the key is %" PRId64, look->first + r, number);
        return refuse(look->import->report, LAFKUNO_BAD_SOURCE,
                      "row %" PRIu64 ": key %" PRIu64 ", and the dictionary has %" PRIu64 " entries", look->first + r, key, entries);
    }
    return 0;
}

static int in_views(const struct look *look) {
    const uint8_t *views = rows_of(look, 1, 16);
    for (uint64_t r = 0; r < look->rows; r++) {
        uint32_t word[4];
        memcpy(word, views + 16 * r, 16);
        if (word[0] <= 12 || !row_valid(look, r)) continue;
        const position *data = word[2] < look->place[8] ? look->import->buffers + 2 * (look->place[7] + word[2]) : NULL;
        if (word[0] > INT32_MAX || !data || (uint64_t)word[3] + word[0] > data[1])
            return refuse(look->import->report, LAFKUNO_BAD_SOURCE,
                          "row %" PRIu64 ": data buffer %" PRIu32 " has not %" PRIu32 " bytes from %" PRIu32 " on", look->first + r,
                          word[2], word[0], word[3]);
        if (memcmp(look->import->body + data[0] + word[3], &word[1], 4))
            return refuse(look->import->report, LAFKUNO_BAD_SOURCE, "row %" PRIu64 ": the prefix is not that of its bytes",
                          look->first + r);
    }
    return 0;
}

int refuse_node(const struct import *import, uint32_t node) {
    struct look look = look_at(import, node);
    int code = 0;
    switch (format_of(look.format).kind) {
        case FIXED: code = import->schema[5 * node + 4] ? in_keys(&look) : 0; break;
        case STRING: code = in_string(&look); break;
        case LIST: code = in_list(&look); break;
        case LIST_VIEW: code = in_list_view(&look); break;
        case SPARSE: code = in_union(&look, false); break;
        case DENSE: code = in_union(&look, true); break;
        case RUNS: code = in_runs(&look); break;
        case VIEW: code = in_views(&look); break;
        default: break;
    }
    return code ? code : refuse_plainly(import->report, LAFKUNO_BAD_SOURCE);
}
