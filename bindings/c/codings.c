/* One column as runs, as plain rows, or with only the dictionary entries in use, over the calls of lafkuno.h. */
#include "layer.h"

#include <inttypes.h>
#include <stdlib.h>
#include <string.h>

/* What is done with the column. */
enum coding { ENCODE, EXPAND, RECLAIM };

/* A column on its way. */
struct work {
    struct anew anew;
    enum coding coding;
    uint64_t start, end; /* rows of the imported window */
};

/* ---- types */

static void keep_schema(struct ArrowSchema *schema) { schema->release = NULL; }

/* The type of runs over a column: its values are what the column was, an extension type included; its name stays the column's. */
struct runs_type {
    struct ArrowSchema root, ends, values, *children[2];
};

static bool is_extension(const struct ArrowSchema *schema) {
    int32_t bytes;
    return metadata_value(schema->metadata, "ARROW:extension:name", &bytes) != NULL;
}

static void make_runs_type(struct runs_type *type, const struct ArrowSchema *column, const char *ends) {
    const char *metadata = column->metadata;
    bool extension = is_extension(column);
    type->children[0] = &type->ends;
    type->children[1] = &type->values;
    type->root = (struct ArrowSchema){.format = "+r", .name = column->name, .metadata = extension ? NULL : metadata, .n_children = 2,
                                      .children = type->children, .release = keep_schema};
    type->ends = (struct ArrowSchema){.format = ends, .name = "run_ends", .release = keep_schema};
    type->values = (struct ArrowSchema){.format = column->format, .name = "values", .metadata = extension ? metadata : NULL,
                                        .flags = column->flags, .release = keep_schema};
}

/* The values of runs as a column: its name is that of the runs, and its metadata too, unless the values are an extension type. */
static struct ArrowSchema rows_type(const struct ArrowSchema *runs) {
    struct ArrowSchema type = *runs->children[1];
    type.name = runs->name;
    if (!is_extension(&type)) type.metadata = runs->metadata;
    type.flags |= runs->flags & ARROW_FLAG_NULLABLE;
    return type;
}

/* ---- refusals */

/* The largest run end of a format, 0 where it is none. */
static uint64_t largest_end(const char *ends) {
    if (!strcmp(ends, "s")) return INT16_MAX;
    if (!strcmp(ends, "i")) return INT32_MAX;
    return strcmp(ends, "l") ? 0 : INT64_MAX;
}

/* 10 of a column that is none of those that are written anew so. */
static int refuse_kind(const struct work *work) {
    static const char *const kinds[] = {"it is no column of numbers", "it is no run-end column of numbers", "it has no dictionary"};
    at_node(work->anew.column.report, 0, work->anew.from);
    return refuse(work->anew.column.report, LAFKUNO_UNKNOWN_TYPE, "%s", kinds[work->coding]);
}

static int refuse_coding(struct work *work, uint8_t ground) {
    struct report *report = work->anew.column.report;
    int code = anew_refuse(&work->anew, ground);
    if (code || !ground) return code;
    if (ground == LAFKUNO_UNKNOWN_TYPE) return refuse_kind(work);
    if (ground == LAFKUNO_NO_SUCH_ROWS)
        return refuse(report, ground, "rows %" PRIu64 "..%" PRIu64 ", and the column has %" PRIu64, work->start, work->end,
                      work->anew.column.tables.lengths[0]);
    if (ground != LAFKUNO_RUN_END_TOO_LARGE) return refuse_plainly(report, ground);
    report->error->found = work->end - work->start;
    report->error->allowed = largest_end(work->anew.type.nodes[1]->format);
    return refuse(report, ground, "%s: %" PRIu64 " is needed, and %" PRIu64 " is the largest allowed", lafkuno_meaning(ground),
                  report->error->found, report->error->allowed);
}

/* ---- the calls */

static uint8_t ask(struct work *work) {
    struct lafkuno_state *s = &work->anew.column.state;
    const struct lafkuno_tables *t = &work->anew.tables;
    uint32_t n = work->anew.column.import.sources[1];
    switch (work->coding) {
        case ENCODE: return lafkuno_state_plan_encode(s, t, 0, n, n, work->start, work->end);
        case EXPAND: return lafkuno_state_plan_expand(s, t, 0, n, 2, work->start, work->end);
        default: return lafkuno_state_plan_reclaim(s, t, 0, n);
    }
}

static uint8_t write_rows(struct work *work) {
    struct lafkuno_state *s = &work->anew.column.state;
    const struct lafkuno_tables *t = &work->anew.tables;
    uint32_t n = work->anew.column.import.sources[1];
    switch (work->coding) {
        case ENCODE: return lafkuno_state_encode(s, t, 0, n, n, work->start, work->end);
        case EXPAND: return lafkuno_state_expand(s, t, 0, n, 2, work->start, work->end);
        default: return lafkuno_state_reclaim(s, t, 0, n);
    }
}

/* Only the rows that are asked for are imported; where there are none such, all, and the call says so. */
static int import_rows(struct work *work, const struct lafkuno_source *source, uint64_t start, uint64_t end) {
    uint64_t length = (uint64_t)source->array->length;
    bool inside = start <= end && end <= length;
    work->start = inside ? 0 : start;
    work->end = inside ? end - start : end;
    return anew_import(&work->anew, source, inside ? (struct window){start, end - start} : (struct window){0, length});
}

static int write_result(struct work *work, uint64_t most_rows) {
    struct column *column = &work->anew.column;
    int code = refuse_coding(work, ask(work));
    if (!code && work->coding == EXPAND && work->end - work->start > most_rows)
        code = refuse_above(column->report, LAFKUNO_TOO_MUCH_WORK, work->end - work->start, most_rows, "rows are asked for");
    if (!code) code = lend_room(column);
    return code ? code : refuse_coding(work, write_rows(work));
}

/* The array, of so many nodes of a type, and its schema, of which the root is nullable where the column is. */
static int finish(struct work *work, const struct ArrowSchema *type, size_t nodes, struct ArrowSchema *schema, struct ArrowArray *array) {
    struct column *column = &work->anew.column;
    struct finished finished = {.body = column->import.body};
    int code = finish_tables(column, nodes, &finished.tables);
    if (!code) code = export_finished(column, type, &finished, array);
    if (code || !schema) return code;
    code = lafkuno_copy_schema(type, schema);
    if (!code) {
        schema->flags |= work->anew.from->flags & ARROW_FLAG_NULLABLE;
        return 0;
    }
    array->release(array);
    return refuse_plainly(column->report, code);
}

/* What a call was given. */
struct given {
    enum coding coding;
    const struct lafkuno_source *source;
    uint64_t start, end, most_rows;
    const char *ends;
};

static int code_column(struct work *work, const struct given *g, struct ArrowSchema *schema, struct ArrowArray *array) {
    struct report *report = work->anew.column.report;
    struct runs_type runs;
    struct ArrowSchema rows;
    int code = anew_shape(&work->anew, g->source);
    if (code) return code;
    work->coding = g->coding;
    if (g->coding == ENCODE) {
        if (!largest_end(g->ends)) return refuse(report, LAFKUNO_UNKNOWN_TYPE, "run ends are 's', 'i' or 'l', and not '%.60s'", g->ends);
        make_runs_type(&runs, g->source->schema, g->ends);
        code = anew_type(&work->anew, &runs.root);
    }
    if (!code) code = import_rows(work, g->source, g->start, g->coding == RECLAIM ? (uint64_t)g->source->array->length : g->end);
    if (!code) code = write_result(work, g->most_rows);
    if (code) return code;
    if (g->coding == ENCODE) return finish(work, &runs.root, 3, schema, array);
    if (g->coding == RECLAIM) return finish(work, g->source->schema, work->anew.column.import.sources[1], schema, array);
    rows = rows_type(g->source->schema);
    return finish(work, &rows, 1, schema, array);
}

static int run(const struct given *g, struct ArrowSchema *schema, struct ArrowArray *array, struct lafkuno_error *error) {
    struct lafkuno_error spare;
    struct report report = report_to(error, &spare);
    struct ArrowSchema made_schema;
    struct ArrowArray made;
    struct work *work = calloc(1, sizeof *work);
    if (!work) return refuse_memory(&report);
    work->anew.column.report = &report;
    int code = code_column(work, g, schema ? &made_schema : NULL, &made);
    anew_end(&work->anew);
    free(work);
    if (code) return code;
    report_to(error, &spare);
    if (schema) *schema = made_schema;
    *array = made;
    return 0;
}

int lafkuno_encode_array(const struct lafkuno_source *source, uint64_t start, uint64_t end, const char *ends, struct ArrowSchema *schema,
                         struct ArrowArray *array, struct lafkuno_error *error) {
    const struct given given = {ENCODE, source, start, end, 0, ends ? ends : "i"};
    return run(&given, schema, array, error);
}

int lafkuno_expand_array(const struct lafkuno_source *source, uint64_t start, uint64_t end, const struct lafkuno_options *options,
                         struct ArrowSchema *schema, struct ArrowArray *array, struct lafkuno_error *error) {
    const struct given given = {EXPAND, source, start, end, most_rows_of(options), NULL};
    return run(&given, schema, array, error);
}

int lafkuno_reclaim_array(const struct lafkuno_source *source, struct ArrowSchema *schema, struct ArrowArray *array,
                          struct lafkuno_error *error) {
    const struct given given = {RECLAIM, source, 0, 0, 0, NULL};
    return run(&given, schema, array, error);
}
