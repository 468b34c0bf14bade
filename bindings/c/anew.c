/* What the calls that write one column anew share: the column's import, and the type that it is to become. */
#include "layer.h"

#include <stdlib.h>
#include <string.h>

uint64_t most_rows_of(const struct lafkuno_options *options) {
    return options && options->most_rows ? options->most_rows : LAFKUNO_MOST_ROWS;
}

static int type_node(struct report *report, const struct ArrowSchema *s, int depth, struct type *type) {
    if (!s || !s->release || !s->format || s->n_children < 0 || (s->n_children && !s->children))
        return refuse(report, LAFKUNO_BAD_STRUCT, "the type: a struct is missing or released, or it has no format");
    if (depth > MOST_DEPTH || type->count == LAFKUNO_MOST_NODES)
        return refuse(report, LAFKUNO_UNKNOWN_TYPE, "the type is deeper than %d or has more than %d nodes", MOST_DEPTH, LAFKUNO_MOST_NODES);
    type->nodes[type->count++] = s;
    int code = s->dictionary ? type_node(report, s->dictionary, depth + 1, type) : 0;
    for (int64_t k = 0; !code && k < s->n_children; k++) code = type_node(report, s->children[k], depth + 1, type);
    return code;
}

int anew_shape(struct anew *anew, const struct lafkuno_source *source) {
    int code = shape_of(anew->column.report, source, &anew->shape);
    if (!code) at_node(anew->column.report, -1, NULL);
    return code;
}

int anew_type(struct anew *anew, const struct ArrowSchema *type) {
    anew->to = type;
    return type_node(anew->column.report, type, 1, &anew->type);
}

/* The nodes of the type behind the column's own. */
static int lend_type(struct anew *anew) {
    const struct lafkuno_tables *own = &anew->column.tables;
    size_t bytes = own->formats_len, nodes = own->schema_len / 5;
    for (uint32_t k = 0; k < anew->type.count; k++) bytes += strlen(storage_of(anew->type.nodes[k]->format));
    anew->formats = malloc(bytes + 1);
    anew->schema = malloc(5 * (nodes + anew->type.count) * sizeof *anew->schema);
    if (!anew->formats || !anew->schema) return refuse_memory(anew->column.report);
    memcpy(anew->formats, own->formats, own->formats_len);
    memcpy(anew->schema, own->schema, own->schema_len * sizeof *anew->schema);
    size_t at = own->formats_len;
    for (uint32_t k = 0; k < anew->type.count; k++) {
        const struct ArrowSchema *s = anew->type.nodes[k];
        const char *format = storage_of(s->format);
        uint32_t *schema = anew->schema + 5 * (nodes + k);
        schema[0] = (uint32_t)at;
        schema[1] = (uint32_t)strlen(format);
        schema[2] = (uint32_t)(s->flags & ARROW_FLAG_NULLABLE);
        schema[3] = (uint32_t)s->n_children;
        schema[4] = s->dictionary != NULL;
        memcpy(anew->formats + at, format, schema[1]);
        at += schema[1];
    }
    anew->tables = *own;
    anew->tables.formats = anew->formats;
    anew->tables.formats_len = bytes;
    anew->tables.schema = anew->schema;
    anew->tables.schema_len = 5 * (nodes + anew->type.count);
    return 0;
}

int anew_import(struct anew *anew, const struct lafkuno_source *source, struct window rows) {
    struct column *column = &anew->column;
    anew->from = column->type = source->schema;
    int code = import_begin(&column->import, column->report, 1, &anew->shape);
    if (!code) code = import_source(&column->import, source, rows);
    if (!code) code = lay(&column->import);
    if (code) return code;
    at_node(column->report, -1, NULL);
    column->tables = import_tables(&column->import);
    return lend_type(anew);
}

int anew_refuse(struct anew *anew, uint8_t ground) {
    struct column *column = &anew->column;
    if (!ground || lafkuno_tables_ground(&column->tables, 0, column->import.sources[1]) != ground) return 0;
    return refuse_sources(column, ground);
}

void anew_end(struct anew *anew) {
    column_end(&anew->column);
    free(anew->formats);
    free(anew->schema);
}
