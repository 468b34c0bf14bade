/* The shape of sources: whether their structs can be read at all, and how large their tables are. */
#include "layer.h"

#include <inttypes.h>
#include <string.h>

/* A walk over schema and array together. */
struct walk {
    struct report *report;
    struct shape *shape;
    int64_t nodes; /* of this source, so far */
};

static int check_length(struct walk *walk, const struct ArrowArray *a) {
    if (a->length < 0 || a->offset < 0)
        return refuse(walk->report, LAFKUNO_CEILING_PASSED, "a length of %" PRId64 " and an offset of %" PRId64 ": neither is negative",
                      a->length, a->offset);
    if (a->offset > INT64_MAX - a->length)
        return refuse_above(walk->report, LAFKUNO_CEILING_PASSED, (uint64_t)a->offset + (uint64_t)a->length, INT64_MAX,
                            "is the sum of length and offset");
    return 0;
}

/* How many children a format has; -1 where it is no format that is taken. */
static int64_t children_due(const char *format, struct format kind) {
    int8_t child_of[256];
    int64_t due = 0;
    switch (kind.kind) {
        case NOT_TAKEN: return -1;
        case LIST: case LIST_VIEW: return 1;
        case RUNS: return 2;
        case SPARSE: case DENSE:
            if (!union_children(format, child_of)) return -1;
            for (int id = 0; id < 128; id++) due += child_of[id] >= 0;
            return due;
        default: return 0;
    }
}

static int check_type(struct walk *walk, const struct ArrowSchema *s, const struct ArrowArray *a, const char *format, struct format kind) {
    bool joined = kind.kind == SPARSE || kind.kind == DENSE;
    if (joined && s->n_children > MOST_FIELDS)
        return refuse_above(walk->report, LAFKUNO_CEILING_PASSED, (uint64_t)s->n_children, MOST_FIELDS, "fields of a union");
    int64_t due = children_due(format, kind);
    if (due < 0) return refuse_plainly(walk->report, LAFKUNO_UNKNOWN_TYPE);
    if (s->n_children != due)
        return refuse(walk->report, LAFKUNO_UNKNOWN_TYPE, "%" PRId64 " children, and %" PRId64 " are due", s->n_children, due);
    if (s->n_children != a->n_children || !s->dictionary != !a->dictionary)
        return refuse(walk->report, LAFKUNO_BAD_STRUCT, "schema and array differ in their children or in having a dictionary");
    if (s->dictionary && (kind.kind != FIXED || strchr("fg", format[0])))
        return refuse(walk->report, LAFKUNO_UNKNOWN_TYPE, "the keys of a dictionary are integers");
    return 0;
}

/* An older producer gives a run-end node one buffer, which is null. */
static int check_buffers(struct walk *walk, const struct ArrowArray *a, enum kind kind) {
    static const int64_t due[] = {[FIXED] = 2, [STRING] = 3, [VIEW] = 3, [LIST] = 2, [LIST_VIEW] = 3, [SPARSE] = 1, [DENSE] = 2, [RUNS] = 0};
    bool fits = kind == VIEW ? a->n_buffers >= 3 : a->n_buffers == due[kind];
    if (kind == RUNS && a->n_buffers == 1 && a->buffers && !a->buffers[0]) fits = true;
    if (!fits || (a->n_buffers && !a->buffers))
        return refuse(walk->report, LAFKUNO_BAD_STRUCT, "%" PRId64 " buffers, and %" PRId64 " are due", a->n_buffers, due[kind]);
    if (kind == VIEW && a->n_buffers > 3 && !a->buffers[a->n_buffers - 1])
        return refuse(walk->report, LAFKUNO_BAD_STRUCT, "the sizes of the data buffers are missing");
    return 0;
}

static int shape_node(struct walk *walk, const struct ArrowSchema *s, const struct ArrowArray *a, int depth);

static int shape_values(struct walk *walk, const struct ArrowSchema *s, const struct ArrowArray *a, int depth) {
    int64_t node = walk->nodes;
    int code = shape_node(walk, s, a, depth);
    if (code) return code;
    enum kind kind = format_of(storage_of(s->format)).kind;
    if (!s->dictionary && (kind == FIXED || kind == STRING)) return 0;
    at_node(walk->report, node, s);
    return refuse(walk->report, LAFKUNO_UNKNOWN_TYPE, "the values of a dictionary are numbers or byte strings");
}

static int shape_children(struct walk *walk, const struct ArrowSchema *s, const struct ArrowArray *a, int depth) {
    int code = s->dictionary ? shape_values(walk, s->dictionary, a->dictionary, depth + 1) : 0;
    if (s->n_children && (!s->children || !a->children)) return refuse(walk->report, LAFKUNO_BAD_STRUCT, "the children are missing");
    for (int64_t k = 0; !code && k < s->n_children; k++) code = shape_node(walk, s->children[k], a->children[k], depth + 1);
    return code;
}

static int shape_node(struct walk *walk, const struct ArrowSchema *s, const struct ArrowArray *a, int depth) {
    at_node(walk->report, walk->nodes++, s);
    if (!s || !a || !s->release || !a->release || !s->format)
        return refuse(walk->report, LAFKUNO_BAD_STRUCT, "a struct is missing or released, or it has no format");
    if (depth > MOST_DEPTH) return refuse_above(walk->report, LAFKUNO_CEILING_PASSED, (uint64_t)depth, MOST_DEPTH, "levels of nesting");
    if (walk->nodes > LAFKUNO_MOST_NODES)
        return refuse_above(walk->report, LAFKUNO_CEILING_PASSED, (uint64_t)walk->nodes, LAFKUNO_MOST_NODES, "nodes or more");
    const char *format = storage_of(s->format);
    struct format kind = format_of(format);
    int code = check_type(walk, s, a, format, kind);
    if (!code) code = check_length(walk, a);
    if (!code) code = check_buffers(walk, a, kind.kind);
    if (code) return code;
    if (kind.kind == VIEW) walk->shape->data_buffers += (uint64_t)a->n_buffers - 3;
    walk->shape->nodes++;
    walk->shape->format_bytes += strlen(format);
    return shape_children(walk, s, a, depth);
}

int shape_of(struct report *report, const struct lafkuno_source *source, struct shape *shape) {
    struct walk walk = {report, shape, 0};
    return shape_node(&walk, source->schema, source->array, 1);
}

/* ---- types that differ */

struct pair {
    struct report *report;
    int64_t nodes;
};

static const char *text_of(const char *text) { return text ? text : ""; }

/* Formats of one meaning: the same text, or unions of the same ids. */
static bool same_format(const char *a, const char *b) {
    int8_t x[256], y[256];
    if (!strcmp(a, b)) return true;
    enum kind kind = format_of(a).kind;
    if (kind != format_of(b).kind || (kind != SPARSE && kind != DENSE)) return false;
    return union_children(a, x) && union_children(b, y) && !memcmp(x, y, sizeof x);
}

static bool same_extension(const struct ArrowSchema *a, const struct ArrowSchema *b) {
    int32_t m = 0, n = 0;
    const char *x = metadata_value(a->metadata, "ARROW:extension:name", &m);
    const char *y = metadata_value(b->metadata, "ARROW:extension:name", &n);
    return m == n && (!m || !memcmp(x, y, (size_t)m));
}

static int same_node(struct pair *pair, const struct ArrowSchema *a, const struct ArrowSchema *b, bool flagged) {
    at_node(pair->report, pair->nodes++, b);
    int64_t differ = a->flags ^ b->flags;
    if (!same_format(a->format, b->format) || a->n_children != b->n_children)
        return refuse(pair->report, LAFKUNO_TYPES_DIFFER, "the format is '%.60s', and '%.60s' in source 0", b->format, a->format);
    if (!a->dictionary != !b->dictionary)
        return refuse(pair->report, LAFKUNO_TYPES_DIFFER, "'%.60s' has a dictionary in one of this source and source 0 only", b->format);
    if (flagged && differ & ARROW_FLAG_NULLABLE)
        return refuse(pair->report, LAFKUNO_TYPES_DIFFER, "'%.60s' is nullable in one of this source and source 0 only", b->format);
    if (a->dictionary && differ & ARROW_FLAG_DICTIONARY_ORDERED)
        return refuse(pair->report, LAFKUNO_TYPES_DIFFER, "the dictionary is ordered in one of this source and source 0 only");
    if (!same_extension(a, b))
        return refuse(pair->report, LAFKUNO_TYPES_DIFFER, "'%.60s' is an extension type in one, or of another name", b->format);
    if (a->dictionary) return same_node(pair, a->dictionary, b->dictionary, false);
    enum kind kind = format_of(a->format).kind;
    for (int64_t k = 0; k < a->n_children; k++) {
        const char *x = text_of(a->children[k]->name), *y = text_of(b->children[k]->name);
        if ((kind == SPARSE || kind == DENSE) && strcmp(x, y))
            return refuse(pair->report, LAFKUNO_TYPES_DIFFER, "field %" PRId64 " of '%.60s' is named '%.60s', and '%.60s' in source 0", k,
                          b->format, y, x);
        int code = same_node(pair, a->children[k], b->children[k], true);
        if (code) return code;
    }
    return 0;
}

int same_types(struct report *report, const struct ArrowSchema *first, const struct ArrowSchema *other) {
    struct pair pair = {report, 0};
    return same_node(&pair, first, other, false);
}
