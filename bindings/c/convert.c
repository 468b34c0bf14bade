/* One column in another type, over the calls of lafkuno.h: other widths, or a list as a list-view and back. */
#include "layer.h"

#include <stdlib.h>
#include <string.h>

enum way { TO_LIST, TO_LIST_VIEW, TO_WIDTHS };
typedef uint8_t converts(struct lafkuno_state *, const struct lafkuno_tables *, uint32_t, uint32_t, uint32_t, uint32_t);
static converts *const ask_calls[] = {lafkuno_state_plan_list, lafkuno_state_plan_list_view, lafkuno_state_plan_convert};
static converts *const write_calls[] = {lafkuno_state_list, lafkuno_state_list_view, lafkuno_state_convert};

/* A column, and the way to the type that it is to become. */
struct conversion {
    struct anew anew;
    enum way way;
};

/* ---- the type */

/* Kinds of lists at the root, of the same width; else widths. */
static enum way way_of(const char *from, const char *to) {
    static const char *const pairs[][2] = {{"+l", "+vl"}, {"+L", "+vL"}};
    for (int k = 0; k < 2; k++) {
        if (!strcmp(from, pairs[k][0]) && !strcmp(to, pairs[k][1])) return TO_LIST_VIEW;
        if (!strcmp(from, pairs[k][1]) && !strcmp(to, pairs[k][0])) return TO_LIST;
    }
    return TO_WIDTHS;
}

/* Whether a format becomes another one: the same, or another width of a byte string, a list, a list-view, a key or a run end. */
static bool other_width(const char *a, const char *b, bool keys, bool ends) {
    size_t n = strlen(a);
    if (!strcmp(a, b)) return true;
    if (keys || ends) return n == 1 && strlen(b) == 1 && strchr(keys ? "cCsSiIlL" : "sil", *a) && strchr(keys ? "cCsSiIlL" : "sil", *b);
    if (!n || strlen(b) != n || memcmp(a, b, n - 1) || (a[n - 1] ^ b[n - 1]) != ('a' ^ 'A')) return false;
    return (n == 1 && strchr("zZuU", *a)) || !strcmp(a, "+l") || !strcmp(a, "+L") || !strcmp(a, "+vl") || !strcmp(a, "+vL");
}

/* A walk over the column's type and the one that it is to become. */
struct pair {
    struct report *report;
    enum way way;
    int64_t nodes;
};

/* Refuses with 10 the first node that does not become the other, logical types included, which the calls of lafkuno.h don't see. */
static int becomes(struct pair *pair, const struct ArrowSchema *a, const struct ArrowSchema *b, bool flagged, bool ends) {
    int64_t node = pair->nodes++;
    bool root = node == 0 && pair->way != TO_WIDTHS;
    bool same = root || (pair->way == TO_WIDTHS ? other_width(a->format, b->format, a->dictionary, ends) : !strcmp(a->format, b->format));
    at_node(pair->report, node, a);
    if (!same || a->n_children != b->n_children || !a->dictionary != !b->dictionary)
        return refuse(pair->report, LAFKUNO_UNKNOWN_TYPE, "it does not become '%.60s'", b->format);
    if (flagged && (a->flags ^ b->flags) & ARROW_FLAG_NULLABLE)
        return refuse(pair->report, LAFKUNO_UNKNOWN_TYPE, "it is nullable in one of the column's type and the other only");
    int code = a->dictionary ? becomes(pair, a->dictionary, b->dictionary, false, false) : 0;
    bool runs = !strcmp(a->format, "+r");
    for (int64_t k = 0; !code && k < a->n_children; k++)
        code = becomes(pair, a->children[k], b->children[k], node || pair->way == TO_WIDTHS, runs && !k);
    return code;
}

/* ---- the calls */

static int prepare(struct conversion *c, const struct lafkuno_source *source, const struct ArrowSchema *type, uint64_t most_rows) {
    struct column *column = &c->anew.column;
    int code = anew_shape(&c->anew, source);
    if (!code) code = anew_type(&c->anew, type);
    if (!code) code = anew_import(&c->anew, source, (struct window){0, (uint64_t)source->array->length});
    if (code) return code;
    const struct lafkuno_order rows = lafkuno_rows(0, 0, (uint64_t)source->array->length);
    c->way = way_of(c->anew.from->format, c->anew.to->format);
    if (c->way != TO_LIST || lafkuno_tables_ground(&column->tables, 0, column->import.sources[1])) return 0;
    return bound_rows(&column->import, &rows, 1, most_rows);
}

/* 9, 10 and 12 of the column; then 10 with its node, and the others as they are. */
static int refuse_conversion(struct conversion *c, uint8_t ground) {
    struct report *report = c->anew.column.report;
    struct pair pair = {report, c->way, 0};
    int code = anew_refuse(&c->anew, ground);
    if (!code) code = becomes(&pair, c->anew.from, c->anew.to, false, false);
    if (code) return code;
    at_node(report, -1, NULL);
    return ground ? refuse_plainly(report, ground) : 0;
}

static int write_result(struct conversion *c) {
    struct column *column = &c->anew.column;
    const struct lafkuno_tables *t = &c->anew.tables;
    uint32_t n = column->import.sources[1], target_n = c->anew.type.count;
    int code = refuse_conversion(c, ask_calls[c->way](&column->state, t, 0, n, n, target_n));
    if (!code) code = lend_room(column);
    if (code) return code;
    uint8_t ground = write_calls[c->way](&column->state, t, 0, n, n, target_n);
    return ground ? refuse_plainly(column->report, ground) : 0;
}

/* ---- the result */

/* Of a list-view the root is finished alone; the nodes below are named as the column has them. One block, as finish_tables makes it. */
static int view_tables(struct column *column, struct lafkuno_finished *tables) {
    const struct lafkuno_tables *t = &column->tables;
    size_t nodes = column->import.sources[1], data = t->buffers_len;
    uint64_t *block = malloc(3 * nodes * sizeof *block + (9 * nodes + data + 1) * sizeof(position));
    if (!block) return refuse_memory(column->report);
    position *places = (position *)(block + 3 * nodes);
    struct lafkuno_finished root = {block, 2, block + 2 * nodes, 1, places, 9, places + 9 * nodes, 0};
    *tables = (struct lafkuno_finished){block, 2 * nodes, block + 2 * nodes, nodes, places, 9 * nodes, places + 9 * nodes, data};
    uint8_t ground = lafkuno_state_finish(&column->state, t, 0, &root);
    if (!ground) ground = lafkuno_tables_list_view_child(t, 0, (uint32_t)nodes, tables);
    if (data) memcpy(tables->buffers, t->buffers, data * sizeof *tables->buffers);
    if (!ground) return 0;
    free(block);
    return refuse_plainly(column->report, ground);
}

static int finish(struct conversion *c, struct ArrowArray *array) {
    struct column *column = &c->anew.column;
    struct finished finished = {.body = column->import.body};
    int code = c->way == TO_LIST_VIEW ? view_tables(column, &finished.tables) : finish_tables(column, c->anew.type.count, &finished.tables);
    return code ? code : export_finished(column, c->anew.to, &finished, array);
}

/* The type of the result: that which was asked for; nullable where the column is. */
static int result_schema(struct report *report, const struct ArrowSchema *from, const struct ArrowSchema *to, struct ArrowSchema *schema) {
    int code = lafkuno_copy_schema(to, schema);
    if (code) return refuse_plainly(report, code);
    schema->flags |= from->flags & ARROW_FLAG_NULLABLE;
    if (schema->dictionary) schema->dictionary->flags |= from->dictionary->flags & ARROW_FLAG_NULLABLE;
    return 0;
}

int lafkuno_convert_array(const struct lafkuno_source *source, const struct ArrowSchema *type, const struct lafkuno_options *options,
                          struct ArrowSchema *schema, struct ArrowArray *array, struct lafkuno_error *error) {
    struct lafkuno_error spare;
    struct report report = report_to(error, &spare);
    struct ArrowSchema made_schema;
    struct ArrowArray made;
    struct conversion *c = calloc(1, sizeof *c);
    if (!c) return refuse_memory(&report);
    c->anew.column.report = &report;
    int code = prepare(c, source, type, most_rows_of(options));
    if (!code) code = write_result(c);
    if (!code) code = finish(c, &made);
    if (!code && schema && (code = result_schema(&report, c->anew.from, c->anew.to, &made_schema))) made.release(&made);
    anew_end(&c->anew);
    free(c);
    if (code) return code;
    report_to(error, &spare);
    if (schema) *schema = made_schema;
    *array = made;
    return 0;
}
