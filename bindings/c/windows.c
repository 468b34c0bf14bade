/* What a window of rows reaches of children and of data buffers. Where a row breaks a rule, nothing is left out or changed, so that the
 * checks of lafkuno.h meet it as it is. */
#include "layer.h"

#include <inttypes.h>
#include <string.h>

/* Slots of the laid buffers in front of the window. */
static uint64_t slots_before(const struct node *node) { return node->offset - node->cut; }

/* A buffer from its first laid slot on. */
static const uint8_t *laid(const struct node *node, int64_t b, unsigned width) {
    return (const uint8_t *)node->array->buffers[b] + node->cut * width;
}

/* What of a child is reached, and by which rows. */
struct reach {
    uint64_t from, to;
    struct spread spread;
    bool sound;
};

/* ---- lists */

/* From the first offset of the window to its last. */
static struct reach list_reach(const struct node *node, uint64_t child_rows) {
    unsigned width = node->format.width;
    const uint8_t *offsets = laid(node, 1, width);
    int64_t last = number_at(offsets, slots_before(node), width);
    struct reach reach = {(uint64_t)last, 0, {0, 0, false}, last >= 0};
    for (uint64_t r = slots_before(node); reach.sound && r < slots_before(node) + node->rows; r++) {
        int64_t next = number_at(offsets, r + 1, width);
        reach.sound = next >= last && (uint64_t)next <= child_rows;
        if (reach.sound && (uint64_t)(next - last) > reach.spread.largest) reach.spread.largest = (uint64_t)(next - last);
        last = next;
    }
    reach.to = (uint64_t)last;
    reach.spread.sum = reach.to - reach.from;
    return reach;
}

int import_list(struct import *import, const struct node *node, struct window *child) {
    uint64_t child_rows = (uint64_t)node->array->children[0]->length, slots = slots_before(node) + node->rows;
    position *place = import->places + 9 * node->index + 3;
    int code = want_entries(import, node, 1, slots + 1, node->format.width, place, AS_THEY_ARE);
    if (code) return code;
    struct reach reach = list_reach(node, child_rows);
    *child = reach.sound ? (struct window){reach.from, reach.to - reach.from} : (struct window){0, child_rows};
    if (!reach.sound) return 0;
    import->spreads[node->index] = reach.spread;
    if (reach.from) import->stretches[import->stretch_count - 1].change = LESS_FIRST;
    import->rewrites[node->index].first = reach.from;
    return 0;
}

/* ---- list-views */

static struct reach list_view_reach(const struct node *node, uint64_t child_rows) {
    unsigned width = node->format.width;
    const uint8_t *offsets = laid(node, 1, width), *sizes = laid(node, 2, width);
    struct reach reach = {UINT64_MAX, 0, {0, 0, false}, true};
    for (uint64_t r = slots_before(node); r < slots_before(node) + node->rows; r++) {
        int64_t offset = number_at(offsets, r, width), size = number_at(sizes, r, width);
        if (offset < 0 || size < 0 || (uint64_t)size > child_rows || (uint64_t)offset > child_rows - (uint64_t)size) {
            reach.sound = false;
            return reach;
        }
        if (!size) continue;
        uint64_t from = (uint64_t)offset, n = (uint64_t)size;
        if (from < reach.to) reach.spread.again = true;
        if (from < reach.from) reach.from = from;
        if (from + n > reach.to) reach.to = from + n;
        if (n > reach.spread.largest) reach.spread.largest = n;
        reach.spread.sum = n > UINT64_MAX - reach.spread.sum ? UINT64_MAX : reach.spread.sum + n;
    }
    if (reach.from > reach.to) reach.from = 0;
    return reach;
}

int import_list_view(struct import *import, const struct node *node, struct window *child) {
    unsigned width = node->format.width;
    uint64_t child_rows = (uint64_t)node->array->children[0]->length, slots = slots_before(node) + node->rows;
    position *place = import->places + 9 * node->index + 3;
    int code = want_entries(import, node, 2, slots, width, place + 2, AS_THEY_ARE);
    if (!code) code = want_entries(import, node, 1, slots, width, place, AS_THEY_ARE);
    if (code) return code;
    struct reach reach = list_view_reach(node, child_rows);
    *child = reach.sound ? (struct window){reach.from, reach.to - reach.from} : (struct window){0, child_rows};
    import->spreads[node->index] = reach.spread;
    if (child->rows != child_rows) {
        import->stretches[import->stretch_count - 1].change = LIST_VIEW_OFFSETS;
        import->rewrites[node->index] = (struct rewrite){.beside = laid(node, 2, width), .first = child->first};
    }
    return 0;
}

/* ---- dense unions */

/* Widens each child's reach by the rows of the window; false where a row breaks a rule. */
static bool dense_reach(const struct node *node, const int8_t child_of[256], struct reach *reach, bool *again) {
    const uint8_t *ids = laid(node, 0, 1), *positions = laid(node, 1, 4);
    for (uint64_t r = slots_before(node); r < slots_before(node) + node->rows; r++) {
        int8_t k = child_of[ids[r]];
        int64_t at = number_at(positions, r, 4);
        if (k < 0 || at < 0 || at >= node->array->children[k]->length) return false;
        if ((uint64_t)at < reach[k].to) *again = true;
        if ((uint64_t)at < reach[k].from) reach[k].from = (uint64_t)at;
        if ((uint64_t)at + 1 > reach[k].to) reach[k].to = (uint64_t)at + 1;
    }
    return true;
}

int import_dense(struct import *import, const struct node *node, struct window *children) {
    uint64_t slots = slots_before(node) + node->rows;
    position *place = import->places + 9 * node->index + 3;
    struct rewrite *rewrite = &import->rewrites[node->index];
    struct reach reach[MOST_FIELDS];
    int8_t child_of[256];
    int code = want_entries(import, node, 0, slots, 1, place, AS_THEY_ARE);
    if (!code) code = want_entries(import, node, 1, slots, 4, place + 2, AS_THEY_ARE);
    if (code) return code;
    union_children(node->schema->format, child_of);
    for (int k = 0; k < MOST_FIELDS; k++) reach[k] = (struct reach){UINT64_MAX, 0, {0, 0, false}, true};
    bool sound = dense_reach(node, child_of, reach, &import->spreads[node->index].again), moved = false;
    for (int64_t k = 0; k < node->schema->n_children; k++) {
        children[k] = (struct window){0, sound ? 0 : (uint64_t)node->array->children[k]->length};
        if (!sound || !reach[k].to) continue;
        children[k] = (struct window){reach[k].from, reach[k].to - reach[k].from};
        rewrite->child[k] = reach[k].from;
        moved = moved || reach[k].from;
    }
    rewrite->beside = laid(node, 0, 1);
    rewrite->format = node->schema->format;
    if (moved) import->stretches[import->stretch_count - 1].change = DENSE_POSITIONS;
    return 0;
}

/* ---- runs */

/* The first of n run ends that is at least `least`; n where none is. */
static uint64_t first_end(const uint8_t *ends, unsigned width, uint64_t n, uint64_t least) {
    uint64_t from = 0, to = n;
    while (from < to) {
        uint64_t middle = from + (to - from) / 2;
        int64_t end = number_at(ends, middle, width);
        if (end < 0 || (uint64_t)end < least) from = middle + 1;
        else to = middle;
    }
    return from;
}

int runs_window(struct import *import, const struct node *node, struct window *children) {
    const struct ArrowArray *ends = node->array->children[0];
    struct format format = format_of(storage_of(node->schema->children[0]->format));
    uint64_t n = (uint64_t)ends->length, values = (uint64_t)node->array->children[1]->length;
    if (n != values) return refuse(import->report, LAFKUNO_BAD_SOURCE, "%" PRIu64 " run ends and %" PRIu64 " values", n, values);
    children[0] = children[1] = (struct window){0, n};
    if (format.kind != FIXED || format.width < 2 || !n) return 0;
    if (!ends->buffers[1]) return refuse(import->report, LAFKUNO_BAD_STRUCT, "the run ends are missing");
    const uint8_t *at = (const uint8_t *)ends->buffers[1] + (uint64_t)ends->offset * format.width;
    uint64_t first = first_end(at, format.width, n, node->offset + 1), last = first_end(at, format.width, n, node->offset + node->rows);
    if (last < n && first <= last) children[0] = children[1] = (struct window){first, last - first + 1};
    return 0;
}

/* ---- views */

static bool bit_at(const uint8_t *bits, uint64_t index) { return bits[index / 8] >> index % 8 & 1; }

/* The number of four bytes at place `k` of a view. */
static uint32_t word_of(const uint8_t *view, int k) {
    uint32_t word;
    memcpy(&word, view + 4 * k, 4);
    return word;
}

static const uint8_t *validity_of(const struct node *node) { return node->array->null_count ? node->array->buffers[0] : NULL; }

/* Widens the spans by the views of the window; false where a view breaks a rule. */
static bool view_reach(const struct node *node, struct span *spans, uint64_t count) {
    const uint8_t *views = laid(node, 1, 16), *bits = validity_of(node);
    const void *sizes = node->array->buffers[node->array->n_buffers - 1];
    for (uint64_t r = slots_before(node); r < slots_before(node) + node->rows; r++) {
        const uint8_t *view = views + 16 * r;
        uint64_t length = word_of(view, 0), buffer = word_of(view, 2), from = word_of(view, 3);
        if (length <= 12 || (bits && !bit_at(bits, node->cut + r))) continue;
        if (length > INT32_MAX || buffer >= count) return false;
        int64_t size = number_at(sizes, buffer, 8);
        if (size < 0 || from + length > (uint64_t)size) return false;
        if (from < spans[buffer].from) spans[buffer].from = from;
        if (from + length > spans[buffer].to) spans[buffer].to = from + length;
    }
    return true;
}

/* The data buffers that are reached, numbered anew. */
static int want_data(struct import *import, const struct node *node, struct span *spans, uint64_t count, bool *changed) {
    const void *sizes = node->array->buffers[node->array->n_buffers - 1];
    position *place = import->places + 9 * node->index;
    for (uint64_t k = 0; k < count; k++) {
        struct span *span = &spans[k];
        uint64_t size = (uint64_t)number_at(sizes, k, 8);
        if (span->from || span->to != size) *changed = true;
        if (span->from > span->to) continue;
        const uint8_t *data = node->array->buffers[2 + k];
        span->number = place[8]++;
        int code = want(import, node, data ? data + span->from : NULL, span->to - span->from, import->buffers + 2 * import->buffer_count++);
        if (code) return code;
    }
    return place[8] > MOST_DATA ? refuse_above(import->report, LAFKUNO_CEILING_PASSED, place[8], MOST_DATA, "data buffers are reached") : 0;
}

int import_views(struct import *import, const struct node *node) {
    position *place = import->places + 9 * node->index;
    uint64_t count = (uint64_t)node->array->n_buffers - 3;
    const void *sizes = node->array->buffers[node->array->n_buffers - 1];
    struct span *spans = import->spans + import->span_count;
    place[7] = (position)import->buffer_count;
    if (!node->rows) return 0;
    int code = want_entries(import, node, 1, slots_before(node) + node->rows, 16, place + 3, AS_THEY_ARE);
    if (code) return code;
    struct stretch *views = &import->stretches[import->stretch_count - 1];
    for (uint64_t k = 0; k < count; k++) spans[k] = (struct span){UINT64_MAX, 0, UINT32_MAX};
    bool sound = view_reach(node, spans, count), changed = false;
    for (uint64_t k = 0; !sound && k < count; k++) {
        int64_t size = number_at(sizes, k, 8);
        if (size < 0) return refuse(import->report, LAFKUNO_BAD_SOURCE, "data buffer %" PRIu64 " has a negative size", k);
        spans[k] = (struct span){0, (uint64_t)size, UINT32_MAX};
    }
    code = want_data(import, node, spans, count, &changed);
    if (changed && sound) views->change = VIEWS;
    import->rewrites[node->index] =
        (struct rewrite){.beside = validity_of(node), .first = node->cut, .spans = import->span_count, .span_count = count};
    import->span_count += (size_t)count;
    return code;
}
