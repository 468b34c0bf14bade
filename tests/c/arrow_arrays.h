/* Arrays for the tests of lafkuno_arrow.h. Every buffer is a block of its own with exactly its bytes, so that valgrind sees a step outside;
 * `discard` frees an array with all below it. */
#ifndef ARROW_ARRAYS_H
#define ARROW_ARRAYS_H

#include <lafkuno.h>
#include <lafkuno_arrow.h>
#include <stdio.h>
#include <stdlib.h>
#include <string.h>

static int failed;

static inline void expect(const char *what, long long got, long long wanted) {
    if (got == wanted) return;
    fprintf(stderr, "%s: %lld, not %lld\n", what, got, wanted);
    failed = 1;
}

static inline void expect_text(const char *what, const char *got, const char *wanted) {
    if (!strcmp(got, wanted)) return;
    fprintf(stderr, "%s:\n  %s\nnot\n  %s\n", what, got, wanted);
    failed = 1;
}

/* A source that the test owns. */
struct made {
    struct ArrowSchema schema;
    struct ArrowArray array;
};

static inline void released_schema(struct ArrowSchema *schema) { schema->release = NULL; }
static inline void released_array(struct ArrowArray *array) { array->release = NULL; }

static inline void *block(const void *bytes, size_t size) {
    void *to = malloc(size ? size : 1);
    if (!to) exit(2);
    memcpy(to, bytes, size);
    return to;
}

/* An array without buffers and children; they are added behind each other. */
static inline struct made *make(const char *format, const char *name, int64_t flags, int64_t length, int64_t offset) {
    struct made *m = calloc(1, sizeof *m);
    if (!m) exit(2);
    m->schema = (struct ArrowSchema){.format = format, .name = name, .flags = flags, .release = released_schema};
    m->array = (struct ArrowArray){.length = length, .null_count = -1, .offset = offset, .release = released_array};
    m->array.buffers = calloc(64, sizeof *m->array.buffers);
    m->schema.children = calloc(32, sizeof *m->schema.children);
    m->array.children = calloc(32, sizeof *m->array.children);
    return m;
}

static inline void add_buffer(struct made *m, const void *bytes, size_t size) {
    m->array.buffers[m->array.n_buffers++] = bytes ? block(bytes, size) : NULL;
}

static inline void add_child(struct made *m, struct made *child) {
    m->schema.children[m->schema.n_children++] = &child->schema;
    m->array.children[m->array.n_children++] = &child->array;
}

static inline void set_dictionary(struct made *m, struct made *values) {
    m->schema.dictionary = &values->schema;
    m->array.dictionary = &values->array;
}

/* A column of numbers; no validity where `bits` is NULL. */
static inline struct made *numbers(const char *format, const char *name, int64_t flags, int64_t length, int64_t offset, const void *values,
                                   size_t width, const uint8_t *bits) {
    struct made *m = make(format, name, flags, length, offset);
    add_buffer(m, bits, (size_t)(offset + length + 7) / 8);
    add_buffer(m, values, (size_t)(offset + length) * width);
    return m;
}

/* A column of byte strings from texts that stand one behind the other. */
static inline struct made *texts(const char *format, const char *name, int64_t length, int64_t offset, const int32_t *offsets,
                                 const char *bytes) {
    struct made *m = make(format, name, ARROW_FLAG_NULLABLE, length, offset);
    add_buffer(m, NULL, 0);
    add_buffer(m, offsets, (size_t)(offset + length + 1) * 4);
    add_buffer(m, bytes, (size_t)offsets[offset + length]);
    return m;
}

/* A column of lists with offsets of 4 bytes, or of 8. */
static inline struct made *lists(const char *format, const char *name, int64_t length, int64_t offset, const void *offsets,
                                 struct made *child) {
    struct made *m = make(format, name, ARROW_FLAG_NULLABLE, length, offset);
    add_buffer(m, NULL, 0);
    add_buffer(m, offsets, (size_t)(offset + length + 1) * (format[1] == 'l' ? 4 : 8));
    add_child(m, child);
    return m;
}

static inline struct lafkuno_source source_of(const struct made *m) { return (struct lafkuno_source){&m->schema, &m->array}; }

/* The same memory from another row on. Freed by `free_slice`. */
static inline struct made *slice(const struct made *m, int64_t start, int64_t length) {
    struct made *s = malloc(sizeof *s);
    if (!s) exit(2);
    *s = *m;
    s->array.offset += start;
    s->array.length = length;
    return s;
}

static inline void discard(struct made *m) {
    for (int64_t k = 0; k < m->array.n_buffers; k++) free((void *)m->array.buffers[k]);
    for (int64_t k = 0; k < m->schema.n_children; k++) discard((struct made *)m->schema.children[k]);
    if (m->schema.dictionary) discard((struct made *)m->schema.dictionary);
    free(m->array.buffers);
    free(m->schema.children);
    free(m->array.children);
    free(m);
}

static inline void release_both(struct ArrowSchema *schema, struct ArrowArray *array) {
    if (schema) schema->release(schema);
    array->release(array);
}

/* Refused with this text; array and schema stay as they were. */
static inline struct lafkuno_error refused_arrays(const struct lafkuno_source *sources, size_t count, const struct lafkuno_order *orders,
                                                  size_t order_count, const struct lafkuno_options *options, int code, const char *text) {
    struct ArrowSchema schema = {.flags = 77};
    struct ArrowArray array = {.length = 77};
    struct lafkuno_error error;
    expect(text, lafkuno_join_arrays(sources, count, orders, order_count, options, &schema, &array, &error), code);
    expect("error's code", error.code, code);
    expect_text("text", error.message, text);
    expect("untouched", schema.flags == 77 && array.length == 77, 1);
    expect("without error", lafkuno_join_arrays(sources, count, orders, order_count, options, &schema, &array, NULL), code);
    return error;
}

#endif
