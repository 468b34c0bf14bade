/* Joins of record batches: every column by the same orders, and the validity of the struct as a column of its own. */
#include "layer.h"

#include <inttypes.h>
#include <stdio.h>
#include <stdlib.h>
#include <string.h>

/* The struct as a column of bytes, all of them 0, with the struct's validity. */
struct own_column {
    struct ArrowSchema schema;
    struct ArrowArray arrays[LAFKUNO_MOST_SOURCES];
    const void *buffers[LAFKUNO_MOST_SOURCES][2];
    uint8_t *zeros;
};

/* A join of batches on its way. */
struct batch {
    struct report *report;
    const struct lafkuno_source *sources;
    size_t count;
    const struct task *task;
    int64_t width;          /* columns */
    struct column *columns; /* prepared; the struct's own is the last */
    struct ArrowArray *arrays;
    int64_t prepared, finished;
    bool keeps_nulls; /* the struct does */
    bool has_own;     /* there is a column for its validity, or for want of another to try the orders on */
    struct own_column own;
};

/* ---- shape */

static int check_struct(struct batch *batch, size_t s) {
    const struct ArrowSchema *schema = batch->sources[s].schema;
    const struct ArrowArray *array = batch->sources[s].array;
    if (!schema || !array || !schema->release || !array->release || !schema->format)
        return refuse(batch->report, LAFKUNO_BAD_STRUCT, "a struct is missing or released, or it has no format");
    if (strcmp(schema->format, "+s")) return refuse(batch->report, LAFKUNO_UNKNOWN_TYPE, "'%.60s' is no struct", schema->format);
    if (schema->n_children < 0 || schema->n_children != array->n_children || array->n_buffers != 1 || !array->buffers ||
        (schema->n_children && (!schema->children || !array->children)))
        return refuse(batch->report, LAFKUNO_BAD_STRUCT, "schema and array differ in their columns, or the array has not one buffer");
    if (array->length < 0 || array->offset < 0 || array->offset > INT64_MAX - array->length)
        return refuse(batch->report, LAFKUNO_CEILING_PASSED, "a length of %" PRId64 " and an offset of %" PRId64, array->length,
                      array->offset);
    if (schema->n_children != batch->sources[0].schema->n_children)
        return refuse(batch->report, LAFKUNO_TYPES_DIFFER, "%" PRId64 " columns, and %" PRId64 " in source 0", schema->n_children,
                      batch->sources[0].schema->n_children);
    for (int64_t c = 0; c < schema->n_children; c++)
        if (!schema->children[c] || !array->children[c])
            return refuse(batch->report, LAFKUNO_BAD_STRUCT, "column %" PRId64 " is missing", c);
    return 0;
}

static const char *name_of(const struct ArrowSchema *schema) { return schema->name ? schema->name : ""; }

static void at_column(struct batch *batch, int64_t column) {
    at_source(batch->report, -1);
    batch->report->error->column = column < batch->width ? column : -1;
    batch->report->column = column >= 0 && column < batch->width ? name_of(batch->sources[0].schema->children[column]) : NULL;
}

/* Names every column whose type is not taken. */
static int check_columns_taken(struct batch *batch) {
    char names[LAFKUNO_MESSAGE - 80] = "";
    int64_t first = -1;
    for (int64_t c = 0; c < batch->width; c++) {
        struct lafkuno_source column = {batch->sources[0].schema->children[c], batch->sources[0].array->children[c]};
        struct lafkuno_error error;
        struct report report = report_to(NULL, &error);
        struct shape shape = {0, 0, 0};
        if (shape_of(&report, &column, &shape) != LAFKUNO_UNKNOWN_TYPE) continue;
        size_t used = strlen(names);
        const char *format = report.node && report.node->format ? report.node->format : "";
        snprintf(names + used, sizeof names - used, "%s%" PRId64 " '%.40s' (%.40s)", first < 0 ? "" : ", ", c, name_of(column.schema),
                 format);
        if (first < 0) first = c;
    }
    if (first < 0) return 0;
    batch->report->error->column = first;
    int code = refuse_plainly(batch->report, LAFKUNO_UNKNOWN_TYPE);
    snprintf(batch->report->error->message, LAFKUNO_MESSAGE, "columns of types that are not taken: %s (ground %d)", names, code);
    return code;
}

/* Each column of each batch has the name of source 0's and all rows of its struct. */
static int check_column(struct batch *batch, int64_t c, size_t s) {
    const struct lafkuno_source *source = &batch->sources[s];
    const char *name = name_of(source->schema->children[c]), *first = name_of(batch->sources[0].schema->children[c]);
    uint64_t rows = (uint64_t)source->array->offset + (uint64_t)source->array->length;
    at_source(batch->report, (int64_t)s);
    if (strcmp(name, first)) return refuse(batch->report, LAFKUNO_TYPES_DIFFER, "the column is named '%.60s' here", name);
    if (source->array->children[c]->length < 0 || (uint64_t)source->array->children[c]->length < rows)
        return refuse(batch->report, LAFKUNO_BAD_SOURCE, "the column has %" PRId64 " rows, and %" PRIu64 " are reached",
                      source->array->children[c]->length, rows);
    return 0;
}

static int check_batches(struct batch *batch) {
    int code = 0;
    for (size_t s = 0; !code && s < batch->count; s++) {
        at_source(batch->report, (int64_t)s);
        code = check_struct(batch, s);
    }
    at_source(batch->report, -1);
    if (code) return code;
    batch->width = batch->sources[0].schema->n_children;
    code = check_columns_taken(batch);
    for (int64_t c = 0; !code && c < batch->width; c++) {
        at_column(batch, c);
        for (size_t s = 0; !code && s < batch->count; s++) code = check_column(batch, c, s);
    }
    return code;
}

/* ---- the struct's validity */

static bool has_null(const struct ArrowArray *array) {
    const uint8_t *bits = array->buffers[0];
    if (!bits || array->null_count >= 0) return bits && array->null_count;
    for (int64_t slot = array->offset; slot < array->offset + array->length; slot++)
        if (!(bits[slot / 8] >> slot % 8 & 1)) return true;
    return false;
}

/* Whether a source has a null struct, or the caller wants nulls where structs can be null. */
static bool keeps_nulls(const struct batch *batch) {
    bool keeps = false;
    for (size_t s = 0; s < batch->count; s++) {
        if (has_null(batch->sources[s].array)) keeps = true;
        if (batch->task->keep && batch->sources[s].schema->flags & ARROW_FLAG_NULLABLE) keeps = true;
    }
    return keeps;
}

static void keep_schema(struct ArrowSchema *schema) { (void)schema; }
static void keep_array(struct ArrowArray *array) { (void)array; }

/* Every struct's rows are lent from its first whole byte of bits on, so that the zeros need not be longer than the rows. */
static int make_own(struct batch *batch, struct lafkuno_source *sources, struct window *windows) {
    struct own_column *own = &batch->own;
    uint64_t most = 0;
    own->schema = (struct ArrowSchema){.format = "c", .name = "", .flags = ARROW_FLAG_NULLABLE, .release = keep_schema};
    for (size_t s = 0; s < batch->count; s++) {
        const struct ArrowArray *array = batch->sources[s].array;
        const uint8_t *bits = array->null_count ? array->buffers[0] : NULL;
        uint64_t cut = (uint64_t)array->offset / 8, slots = (uint64_t)array->offset % 8 + (uint64_t)array->length;
        own->buffers[s][0] = bits ? bits + cut : NULL;
        own->arrays[s] = (struct ArrowArray){.length = array->length, .null_count = array->null_count, .offset = array->offset % 8,
                                             .n_buffers = 2, .buffers = own->buffers[s], .release = keep_array};
        sources[s] = (struct lafkuno_source){&own->schema, &own->arrays[s]};
        windows[s] = (struct window){0, (uint64_t)array->length};
        if (slots > most) most = slots;
    }
    if (most > LAFKUNO_MOST_BYTES) return refuse_above(batch->report, LAFKUNO_CEILING_PASSED, most, LAFKUNO_MOST_BYTES, "rows of a struct");
    own->zeros = calloc(1, (size_t)most + 1);
    if (!own->zeros) return refuse_memory(batch->report);
    for (size_t s = 0; s < batch->count; s++) own->buffers[s][1] = own->zeros;
    return 0;
}

static int prepare_own(struct batch *batch) {
    struct lafkuno_source sources[LAFKUNO_MOST_SOURCES];
    struct window windows[LAFKUNO_MOST_SOURCES];
    if (!batch->has_own) return 0;
    at_column(batch, batch->width);
    int code = make_own(batch, sources, windows);
    if (code) return code;
    batch->prepared++;
    return column_prepare(&batch->columns[batch->width], batch->report, sources, windows, batch->count, batch->task);
}

/* ---- the join */

static int prepare_columns(struct batch *batch) {
    struct lafkuno_source sources[LAFKUNO_MOST_SOURCES];
    struct window windows[LAFKUNO_MOST_SOURCES];
    int code = 0;
    for (int64_t c = 0; !code && c < batch->width; c++) {
        at_column(batch, c);
        for (size_t s = 0; s < batch->count; s++) {
            const struct lafkuno_source *from = &batch->sources[s];
            sources[s] = (struct lafkuno_source){from->schema->children[c], from->array->children[c]};
            windows[s] = (struct window){(uint64_t)from->array->offset, (uint64_t)from->array->length};
        }
        batch->prepared++;
        code = column_prepare(&batch->columns[c], batch->report, sources, windows, batch->count, batch->task);
    }
    return code ? code : prepare_own(batch);
}

static int finish_columns(struct batch *batch) {
    int code = 0;
    for (int64_t c = 0; !code && c < batch->prepared; c++) {
        at_column(batch, c);
        code = column_finish(&batch->columns[c], batch->task, &batch->arrays[c]);
        column_end(&batch->columns[c]);
        if (!code) batch->finished++;
    }
    at_column(batch, -1);
    return code;
}

static int batch_schema(struct batch *batch, const struct ArrowArray *array, struct ArrowSchema *schema) {
    int code = export_schema(batch->report, batch->sources, batch->count, false, schema);
    if (code) return code;
    if (array->null_count) schema->flags |= ARROW_FLAG_NULLABLE;
    for (int64_t c = 0; batch->task->keep && c < batch->width; c++) mark_nullable(schema->children[c]);
    return 0;
}

static int join_batch(struct batch *batch, struct ArrowSchema *schema, struct ArrowArray *array) {
    int code = prepare_columns(batch);
    if (!code) code = finish_columns(batch);
    if (code) return code;
    struct ArrowArray *own = batch->keeps_nulls ? &batch->arrays[batch->width] : NULL;
    uint64_t rows = (uint64_t)batch->arrays[0].length;
    code = export_struct(batch->report, batch->arrays, batch->width, own, rows, array);
    if (!code && schema && (code = batch_schema(batch, array, schema))) array->release(array);
    return code;
}

static void end_batch(struct batch *batch) {
    for (int64_t c = 0; batch->columns && c < batch->prepared; c++) column_end(&batch->columns[c]);
    for (int64_t c = 0; batch->arrays && c < batch->finished; c++)
        if (batch->arrays[c].release) batch->arrays[c].release(&batch->arrays[c]);
    free(batch->columns);
    free(batch->arrays);
    free(batch->own.zeros);
}

static int run_batch(struct batch *batch, struct ArrowSchema *schema, struct ArrowArray *array) {
    int code = check_batches(batch);
    if (code) return code;
    at_column(batch, -1);
    batch->keeps_nulls = keeps_nulls(batch);
    batch->has_own = batch->keeps_nulls || !batch->width;
    batch->columns = calloc((size_t)batch->width + 1, sizeof *batch->columns);
    batch->arrays = calloc((size_t)batch->width + 1, sizeof *batch->arrays);
    code = batch->columns && batch->arrays ? join_batch(batch, schema, array) : refuse_memory(batch->report);
    end_batch(batch);
    return code;
}

int lafkuno_join_batches(const struct lafkuno_source *batches, size_t count, const struct lafkuno_order *orders, size_t order_count,
                         const struct lafkuno_options *options, struct ArrowSchema *schema, struct ArrowArray *array,
                         struct lafkuno_error *error) {
    struct lafkuno_error spare;
    struct report report = report_to(error, &spare);
    struct task task = task_of(orders, order_count, options);
    struct batch batch = {.report = &report, .sources = batches, .count = count, .task = &task};
    struct ArrowSchema type;
    struct ArrowArray joined;
    if (!count) return refuse(&report, LAFKUNO_CEILING_PASSED, "there is no source");
    if (count > LAFKUNO_MOST_SOURCES) return refuse_above(&report, LAFKUNO_CEILING_PASSED, count, LAFKUNO_MOST_SOURCES, "sources");
    int code = run_batch(&batch, schema ? &type : NULL, &joined);
    if (code) return code;
    report_to(error, &spare);
    if (schema) *schema = type;
    *array = joined;
    return 0;
}
