/* The finished ArrowArray: its nodes own the room, and the body where they name it. */
#define _DEFAULT_SOURCE /* madvise */
#include "layer.h"

#include <stdatomic.h>
#include <stdlib.h>
#include <string.h>
#ifdef __linux__
#include <sys/mman.h>
#endif

/* New memory costs more than copying into it, and less in large pages. */
enum { PAGE = 1 << 21 };

void *allocate_lines(uint64_t bytes) {
    size_t unit = bytes < 2 * PAGE ? LINE : PAGE;
    if (bytes > SIZE_MAX - 2 * PAGE) return NULL;
    size_t size = bytes ? ((size_t)bytes + unit - 1) / unit * unit : unit;
    void *memory = aligned_alloc(unit, size);
#ifdef MADV_HUGEPAGE
    if (memory && unit == PAGE) madvise(memory, size, MADV_HUGEPAGE);
#endif
    return memory;
}

/* ---- owners */

/* Memory that the nodes of one array own together. */
struct hold {
    atomic_size_t users;
    void *body, *room;
};

/* What one node owns: a block that begins with this. */
struct owner {
    struct hold *hold;
    int64_t *sizes;           /* of data buffers */
    struct ArrowArray *items; /* the children, and the dictionary behind them */
};

static void drop(struct hold *hold) {
    if (!hold || atomic_fetch_sub(&hold->users, 1) != 1) return;
    free(hold->body);
    free(hold->room);
    free(hold);
}

/* A child may have been moved away: then it has no release callback any more. */
static void release_array(struct ArrowArray *array) {
    struct owner *owner = array->private_data;
    for (int64_t k = 0; k < array->n_children; k++)
        if (array->children[k]->release) array->children[k]->release(array->children[k]);
    if (array->dictionary && array->dictionary->release) array->dictionary->release(array->dictionary);
    drop(owner->hold);
    free(owner);
    array->release = NULL;
}

/* How many of everything a node has. */
struct counts {
    int64_t buffers, sizes, children, dictionary;
};

/* An array without contents: released it is safe, whatever was filled in. */
static bool begin_array(struct ArrowArray *array, struct hold *hold, struct counts n) {
    size_t items = (size_t)(n.children + n.dictionary);
    size_t bytes = sizeof(struct owner) + (size_t)n.sizes * sizeof(int64_t) + items * sizeof(struct ArrowArray) +
                   (size_t)(n.children + n.buffers) * sizeof(void *);
    struct owner *owner = calloc(1, bytes);
    if (!owner) return false;
    owner->hold = hold;
    owner->sizes = (int64_t *)(owner + 1);
    owner->items = (struct ArrowArray *)(owner->sizes + n.sizes);
    struct ArrowArray **children = (struct ArrowArray **)(owner->items + items);
    for (int64_t k = 0; k < n.children; k++) children[k] = owner->items + k;
    *array = (struct ArrowArray){.n_buffers = n.buffers,
                                 .n_children = n.children,
                                 .buffers = (const void **)(children + n.children),
                                 .children = n.children ? children : NULL,
                                 .dictionary = n.dictionary ? owner->items + n.children : NULL,
                                 .release = release_array,
                                 .private_data = owner};
    if (hold) atomic_fetch_add(&hold->users, 1);
    return true;
}

/* ---- the finished array */

/* A walk over the type and the finished tables together. */
struct walk {
    const struct finished *finished;
    struct hold *hold;
    size_t node;
};

/* Where buffer `b` of a node begins: an empty one anywhere that can be read. */
static const void *buffer_of(const struct walk *walk, size_t node, int b) {
    static const uint64_t nothing[2];
    const position *place = walk->finished->tables.places + 9 * node + 1 + 2 * b;
    if (!place[1]) return nothing;
    return (walk->finished->copied[node] ? walk->finished->room : walk->finished->body) + place[0];
}

static struct counts counts_of(const struct ArrowSchema *s, enum kind kind, const position *place) {
    static const int64_t buffers[] = {[FIXED] = 2, [STRING] = 3, [VIEW] = 3, [LIST] = 2, [LIST_VIEW] = 3, [SPARSE] = 1, [DENSE] = 2, [RUNS] = 0};
    struct counts n = {buffers[kind], 0, s->n_children, s->dictionary != NULL};
    if (kind == VIEW) n.sizes = place[8];
    n.buffers += n.sizes;
    return n;
}

/* The data buffers of a view node and their sizes. */
static void fill_data(const struct walk *walk, struct ArrowArray *array, const position *place) {
    int64_t *sizes = ((struct owner *)array->private_data)->sizes;
    for (position k = 0; k < place[8]; k++) {
        const position *data = walk->finished->tables.buffers + 2 * (place[7] + k);
        array->buffers[2 + k] = data[1] ? walk->finished->body + data[0] : buffer_of(walk, 0, 0);
        sizes[k] = data[1];
    }
    array->buffers[2 + place[8]] = sizes;
}

static void fill_buffers(const struct walk *walk, struct ArrowArray *array, size_t node, enum kind kind) {
    const position *place = walk->finished->tables.places + 9 * node;
    int64_t n = 0;
    if (kind == RUNS) return;
    if (kind != SPARSE && kind != DENSE) array->buffers[n++] = place[0] ? buffer_of(walk, node, 0) : NULL;
    array->buffers[n++] = buffer_of(walk, node, 1);
    if (kind == VIEW) fill_data(walk, array, place);
    else if (n < array->n_buffers) array->buffers[n] = buffer_of(walk, node, 2);
}

static bool export_node(struct walk *walk, const struct ArrowSchema *s, struct ArrowArray *array) {
    size_t node = walk->node++;
    const struct lafkuno_finished *t = &walk->finished->tables;
    enum kind kind = format_of(storage_of(s->format)).kind;
    if (!begin_array(array, walk->hold, counts_of(s, kind, t->places + 9 * node))) return false;
    array->length = (int64_t)t->lengths[2 * node];
    array->offset = (int64_t)t->lengths[2 * node + 1];
    array->null_count = t->places[9 * node] ? (int64_t)t->nulls[node] : 0;
    fill_buffers(walk, array, node, kind);
    if (s->dictionary && !export_node(walk, s->dictionary, array->dictionary)) return false;
    for (int64_t k = 0; k < s->n_children; k++)
        if (!export_node(walk, s->children[k], array->children[k])) return false;
    return true;
}

/* Whether the finished array names the body. */
static bool names_body(const struct finished *f) {
    size_t nodes = f->tables.nulls_len;
    for (size_t k = 0; k < f->tables.buffers_len; k += 2)
        if (f->tables.buffers[k + 1]) return true;
    for (size_t node = 0; node < nodes; node++)
        for (size_t b = 0; b < 3 && !f->copied[node]; b++)
            if (f->tables.places[9 * node + 2 + 2 * b]) return true;
    return false;
}

int export_array(struct report *report, const struct ArrowSchema *type, const struct finished *finished, struct ArrowArray *array) {
    struct walk walk = {finished, calloc(1, sizeof(struct hold)), 0};
    if (!walk.hold) {
        free(finished->body);
        free(finished->room);
        return refuse_memory(report);
    }
    atomic_init(&walk.hold->users, 1);
    walk.hold->room = finished->room;
    walk.hold->body = finished->body;
    if (!names_body(finished)) {
        free(finished->body);
        walk.hold->body = NULL;
    }
    array->release = NULL;
    bool made = export_node(&walk, type, array);
    drop(walk.hold);
    if (made) return 0;
    if (array->release) array->release(array);
    return refuse_memory(report);
}

/* ---- structs, and further owners */

int export_struct(struct report *report, struct ArrowArray *columns, int64_t count, struct ArrowArray *own, uint64_t rows,
                  struct ArrowArray *array) {
    struct hold *hold = own ? ((struct owner *)own->private_data)->hold : NULL;
    if (!begin_array(array, hold, (struct counts){1, 0, count, 0})) return refuse_memory(report);
    array->length = (int64_t)rows;
    array->null_count = own ? own->null_count : 0;
    array->buffers[0] = own ? own->buffers[0] : NULL;
    for (int64_t k = 0; k < count; k++) {
        *array->children[k] = columns[k];
        columns[k].release = NULL;
    }
    return 0;
}

static int share_node(const struct ArrowArray *array, struct ArrowArray *copy) {
    copy->release = NULL;
    if (array->release != release_array) return LAFKUNO_BAD_STRUCT;
    struct owner *owner = array->private_data;
    int64_t sizes = ((char *)owner->items - (char *)owner->sizes) / (int64_t)sizeof(int64_t);
    struct counts n = {array->n_buffers, sizes, array->n_children, array->dictionary != NULL};
    if (!begin_array(copy, owner->hold, n)) return LAFKUNO_NO_MEMORY;
    copy->length = array->length;
    copy->offset = array->offset;
    copy->null_count = array->null_count;
    int64_t *copied = ((struct owner *)copy->private_data)->sizes;
    memcpy(copied, owner->sizes, (size_t)sizes * sizeof(int64_t));
    for (int64_t k = 0; k < n.buffers; k++) copy->buffers[k] = array->buffers[k] == owner->sizes ? copied : array->buffers[k];
    int code = array->dictionary ? share_node(array->dictionary, copy->dictionary) : 0;
    for (int64_t k = 0; !code && k < n.children; k++) code = share_node(array->children[k], copy->children[k]);
    return code;
}

int lafkuno_share_array(const struct ArrowArray *array, struct ArrowArray *copy) {
    int code = share_node(array, copy);
    if (code && copy->release) copy->release(copy);
    return code;
}
