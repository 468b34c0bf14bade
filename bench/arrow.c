/* Times importing, joining and exporting ArrowArrays by lafkuno_arrow.h, and prints a table. Run by bench/run. */
#define _POSIX_C_SOURCE 199309L
#include "../tests/c/arrow_memory.h"
#include <lafkuno_arrow.h>
#include <stdio.h>
#include <stdlib.h>
#include <string.h>
#include <time.h>

enum { ROWS = 5000000, CUT = 4900000, FEW = 10 };

/* ---- columns of five million rows */

static void keep_schema(struct ArrowSchema *schema) { schema->release = NULL; }
static void keep_array(struct ArrowArray *array) { array->release = NULL; }

static void *bytes_of(size_t size) {
    void *block = malloc(size);
    if (!block) exit(2);
    memset(block, 1, size); /* its pages are there */
    return block;
}

struct column {
    struct ArrowSchema schema, child_schema, *child_schemas[1];
    struct ArrowArray array, child, *children[1];
    const void *buffers[4], *child_buffers[2];
    int64_t size;
};

static void begin(struct column *c, const char *format, int64_t buffers) {
    c->schema = (struct ArrowSchema){.format = format, .name = "column", .flags = ARROW_FLAG_NULLABLE, .release = keep_schema};
    c->array = (struct ArrowArray){.length = ROWS, .n_buffers = buffers, .buffers = c->buffers, .release = keep_array};
    c->buffers[0] = NULL;
}

static void fixed(struct column *c, int validity) {
    begin(c, "l", 2);
    c->buffers[1] = bytes_of(8 * (size_t)ROWS);
    if (!validity) return;
    uint8_t *bits = bytes_of(ROWS / 8);
    memset(bits, 0xb7, ROWS / 8);
    c->buffers[0] = bits;
    c->array.null_count = -1;
}

static int32_t *rising(int32_t step) {
    int32_t *numbers = bytes_of(4 * ((size_t)ROWS + 1));
    for (int32_t k = 0; k <= ROWS; k++) numbers[k] = step * k;
    return numbers;
}

static void strings(struct column *c) {
    begin(c, "u", 3);
    c->buffers[1] = rising(8);
    c->buffers[2] = bytes_of(8 * (size_t)ROWS);
}

/* Two items a row: `sizes` of a list-view. */
static void lists(struct column *c, const char *format, int32_t *sizes) {
    begin(c, format, sizes ? 3 : 2);
    c->buffers[1] = rising(2);
    if (sizes) c->buffers[2] = sizes;
    c->child_schema = (struct ArrowSchema){.format = "i", .name = "item", .release = keep_schema};
    c->child = (struct ArrowArray){.length = 2 * (int64_t)ROWS, .n_buffers = 2, .buffers = c->child_buffers, .release = keep_array};
    c->child_buffers[0] = NULL;
    c->child_buffers[1] = bytes_of(8 * (size_t)ROWS);
    c->child_schemas[0] = &c->child_schema;
    c->children[0] = &c->child;
    c->schema.children = c->child_schemas;
    c->array.children = c->children;
    c->schema.n_children = c->array.n_children = 1;
}

static int32_t *twos(void) {
    int32_t *sizes = bytes_of(4 * (size_t)ROWS);
    for (int32_t k = 0; k < ROWS; k++) sizes[k] = 2;
    return sizes;
}

static void views(struct column *c) {
    uint32_t *list = bytes_of(16 * (size_t)ROWS);
    for (uint32_t k = 0; k < ROWS; k++) {
        list[4 * k] = 16;
        list[4 * k + 1] = 0x01010101;
        list[4 * k + 2] = 0;
        list[4 * k + 3] = 16 * k;
    }
    begin(c, "vu", 4);
    c->size = 16 * (int64_t)ROWS;
    c->buffers[1] = list;
    c->buffers[2] = bytes_of((size_t)c->size);
    c->buffers[3] = &c->size;
}

/* ---- timing */

static double now(void) {
    struct timespec t;
    clock_gettime(CLOCK_MONOTONIC, &t);
    return (double)t.tv_sec * 1e9 + (double)t.tv_nsec;
}

static void join(const struct lafkuno_source *sources, size_t count, const struct lafkuno_order *orders) {
    struct ArrowSchema schema;
    struct ArrowArray array;
    struct lafkuno_error error;
    if (lafkuno_join_arrays(sources, count, orders, count, NULL, &schema, &array, &error)) {
        puts(error.message);
        exit(1);
    }
    schema.release(&schema);
    array.release(&array);
}

/* The bytes of two columns into a body, and from there into a room. */
static void two_copies(const struct column *a, const struct column *b, char *body, char *room) {
    size_t n = 8 * (size_t)ROWS;
    memcpy(body, a->buffers[1], n);
    memcpy(body + n, b->buffers[1], n);
    memcpy(room, body, 2 * n);
    if (room[n] == 2) puts(""); /* the copies are looked at */
}

/* The same into new memory, which a result needs. */
static void two_new_copies(const struct column *a, const struct column *b) {
    size_t n = 16 * (size_t)ROWS;
    char *body = malloc(n), *room = malloc(n);
    if (!body || !room) exit(2);
    two_copies(a, b, body, room);
    free(body);
    free(room);
}

static const char *verdict(int met) { return met ? "met" : "missed"; }

static void whole_columns(int validity) {
    struct column a = {.size = 0}, b = {.size = 0};
    fixed(&a, validity);
    fixed(&b, validity);
    const struct lafkuno_source sources[2] = {{&a.schema, &a.array}, {&b.schema, &b.array}};
    const struct lafkuno_order orders[2] = {lafkuno_rows(0, 0, ROWS), lafkuno_rows(1, 0, ROWS)};
    const char *name = validity ? " with validity" : "";
    char *body = bytes_of(16 * (size_t)ROWS), *room = bytes_of(16 * (size_t)ROWS);
    double ours = 1e18, plain = 1e18, there = 1e18;
    for (int round = 0; round < 15; round++) {
        double start = now();
        join(sources, 2, orders);
        double joined = now();
        two_new_copies(&a, &b);
        double copied = now();
        two_copies(&a, &b, body, room);
        double end = now();
        if (joined - start < ours) ours = joined - start;
        if (copied - joined < plain) plain = copied - joined;
        if (end - copied < there) there = end - copied;
    }
    allocated = 0;
    join(sources, 2, orders);
    printf("| 2 x 5 million int64%s, against two copies into new memory | %.0f | %.0f | %.2f | 1.3 | %s | %zu bytes allocated |\n", name,
           ours / 1e3, plain / 1e3, ours / plain, verdict(ours / plain <= 1.3), allocated);
    printf("| the same, against two copies into memory that is there | %.0f | %.0f | %.2f | | | |\n", ours / 1e3, there / 1e3,
           ours / there);
    free(body);
    free(room);
    for (int k = 0; k < 2; k++) {
        free((void *)a.buffers[k]);
        free((void *)b.buffers[k]);
    }
}

/* Ten rows of one slice, and of 16. */
static void few_rows(const char *name, struct column *c) {
    struct ArrowArray cut[16];
    struct lafkuno_source sources[16];
    struct lafkuno_order orders[16];
    for (uint32_t s = 0; s < 16; s++) {
        cut[s] = c->array;
        cut[s].offset = s ? ROWS / 17 * (int64_t)s : CUT;
        cut[s].length = FEW;
        sources[s] = (struct lafkuno_source){&c->schema, &cut[s]};
        orders[s] = lafkuno_rows(s, 0, FEW);
    }
    for (size_t count = 1; count <= 16; count += 15) {
        double best = 1e18;
        for (int round = 0; round < 2000; round++) {
            double start = now();
            join(sources, count, orders);
            double end = now();
            if (end - start < best) best = end - start;
        }
        allocated = 0;
        join(sources, count, orders);
        printf("| %s, 10 rows of %zu slice%s of 5 million rows | %.1f | | | 20 | %s | %zu bytes allocated |\n", name, count,
               count == 1 ? "" : "s", best / 1e3, count == 1 ? verdict(best <= 20e3) : "", allocated);
    }
}

int main(void) {
    struct column c[5] = {{.size = 0}, {.size = 0}, {.size = 0}, {.size = 0}, {.size = 0}};
    puts("| import, join and export | port, us | plain, us | ratio | goal | | |");
    puts("|---|---|---|---|---|---|---|");
    whole_columns(0);
    whole_columns(1);
    fixed(&c[0], 1);
    few_rows("int64 with validity", &c[0]);
    strings(&c[1]);
    few_rows("byte strings", &c[1]);
    lists(&c[2], "+l", NULL);
    few_rows("list of i32", &c[2]);
    lists(&c[3], "+vl", twos());
    few_rows("list-view of i32", &c[3]);
    views(&c[4]);
    few_rows("views", &c[4]);
    return 0;
}
