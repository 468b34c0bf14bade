/* Schemas: copied with all that they hold. */
#include "layer.h"

#include <stdlib.h>
#include <string.h>

/* ---- metadata: a count, then for each key and value its bytes and their number, all numbers of four bytes */

static int32_t int_at(const char **at) {
    int32_t number;
    memcpy(&number, *at, 4);
    *at += 4;
    return number < 0 ? 0 : number;
}

static size_t metadata_bytes(const char *metadata) {
    const char *at = metadata;
    if (!metadata) return 0;
    for (int32_t pairs = int_at(&at); pairs > 0; pairs--)
        for (int half = 0; half < 2; half++) {
            int32_t bytes = int_at(&at);
            at += bytes;
        }
    return (size_t)(at - metadata);
}

const char *metadata_value(const char *metadata, const char *key, int32_t *bytes) {
    const char *at = metadata;
    *bytes = 0;
    if (!metadata) return NULL;
    for (int32_t pairs = int_at(&at); pairs > 0; pairs--) {
        int32_t key_bytes = int_at(&at);
        bool found = (size_t)key_bytes == strlen(key) && !memcmp(at, key, (size_t)key_bytes);
        at += key_bytes;
        *bytes = int_at(&at);
        if (found) return at;
        at += *bytes;
    }
    *bytes = 0;
    return NULL;
}

/* ---- copies */

static void release_schema(struct ArrowSchema *schema) {
    for (int64_t k = 0; k < schema->n_children; k++)
        if (schema->children[k]->release) schema->children[k]->release(schema->children[k]);
    if (schema->dictionary && schema->dictionary->release) schema->dictionary->release(schema->dictionary);
    free(schema->private_data);
    schema->release = NULL;
}

/* Copies bytes to *at, which moves behind them. */
static const char *put(char **at, const char *from, size_t bytes) {
    char *to = *at;
    if (!from) return NULL;
    memcpy(to, from, bytes);
    *at += bytes;
    return to;
}

/* The node alone, in one block: its children are there, but released. */
static bool begin_schema(const struct ArrowSchema *from, struct ArrowSchema *copy) {
    size_t items = (size_t)from->n_children + (from->dictionary != NULL), format = strlen(from->format) + 1;
    size_t name = from->name ? strlen(from->name) + 1 : 0, metadata = metadata_bytes(from->metadata);
    size_t pointers = (size_t)from->n_children * sizeof(struct ArrowSchema *);
    struct ArrowSchema *item = calloc(1, items * sizeof *item + pointers + format + name + metadata);
    copy->release = NULL;
    if (!item) return false;
    struct ArrowSchema **children = (struct ArrowSchema **)(item + items);
    char *at = (char *)(children + from->n_children);
    for (int64_t k = 0; k < from->n_children; k++) children[k] = item + k;
    *copy = (struct ArrowSchema){.flags = from->flags,
                                 .n_children = from->n_children,
                                 .children = from->n_children ? children : NULL,
                                 .dictionary = from->dictionary ? item + from->n_children : NULL,
                                 .release = release_schema,
                                 .private_data = item};
    copy->format = put(&at, from->format, format);
    copy->name = put(&at, from->name, name);
    copy->metadata = put(&at, from->metadata, metadata);
    return true;
}

static int copy_node(const struct ArrowSchema *from, struct ArrowSchema *copy) {
    copy->release = NULL;
    if (!from || !from->release || !from->format || from->n_children < 0 || (from->n_children && !from->children)) return LAFKUNO_BAD_STRUCT;
    if (!begin_schema(from, copy)) return LAFKUNO_NO_MEMORY;
    int code = from->dictionary ? copy_node(from->dictionary, copy->dictionary) : 0;
    for (int64_t k = 0; !code && k < from->n_children; k++) code = copy_node(from->children[k], copy->children[k]);
    return code;
}

int lafkuno_copy_schema(const struct ArrowSchema *schema, struct ArrowSchema *copy) {
    int code = copy_node(schema, copy);
    if (code && copy->release) copy->release(copy);
    return code;
}

/* ---- the type of a result */

/* Nullable where it is in the other. */
static void join_flags(struct ArrowSchema *schema, const struct ArrowSchema *other) {
    schema->flags |= other->flags & ARROW_FLAG_NULLABLE;
    if (schema->dictionary) join_flags(schema->dictionary, other->dictionary);
    for (int64_t k = 0; k < schema->n_children; k++) join_flags(schema->children[k], other->children[k]);
}

/* An ordered null of a union is one of its nullable field, and of a run-end column one of its values. */
void mark_nullable(struct ArrowSchema *schema) {
    enum kind kind = format_of(storage_of(schema->format)).kind;
    if (kind == SPARSE || kind == DENSE) return;
    schema->flags |= ARROW_FLAG_NULLABLE;
    if (kind == RUNS) mark_nullable(schema->children[1]);
}

int export_schema(struct report *report, const struct lafkuno_source *sources, size_t count, bool keep, struct ArrowSchema *schema) {
    int code = lafkuno_copy_schema(sources[0].schema, schema);
    if (code) return refuse_plainly(report, code);
    for (size_t s = 1; s < count; s++) join_flags(schema, sources[s].schema);
    if (keep) mark_nullable(schema);
    return 0;
}
