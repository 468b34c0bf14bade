/* ArrowArrays in another type: lists as list-views and back, other widths, ownership, what is refused, and memory that runs out. */
#include "arrow_arrays.h"
#include "arrow_memory.h"

/* Five trips, of which the first is another day's and the third, null, stands over two stops; the child begins in its middle. */
static struct made *trips(void) {
    const int32_t offsets[] = {0, 1, 2, 4, 5};
    const uint8_t stops[] = {9, 10, 11, 12, 13, 14}, bits = 0x0b, stop_bits = 0x3e;
    struct made *m = make("+l", "trips", ARROW_FLAG_NULLABLE, 3, 1);
    add_buffer(m, &bits, 1);
    add_buffer(m, offsets, sizeof offsets);
    add_child(m, numbers("C", "stop", ARROW_FLAG_NULLABLE, 5, 1, stops, 1, &stop_bits));
    return m;
}

/* The type of trips with another format at the root. */
static struct made *type_of_trips(const char *format) {
    struct made *m = make(format, "stops", ARROW_FLAG_NULLABLE, 0, 0);
    add_child(m, make("C", "item", ARROW_FLAG_NULLABLE, 0, 0));
    return m;
}

static int convert(const struct made *from, const struct made *to, struct ArrowSchema *schema, struct ArrowArray *array, struct lafkuno_error *error) {
    struct lafkuno_source source = source_of(from);
    int code = lafkuno_convert_array(&source, &to->schema, NULL, schema, array, error);
    if (code && error && allocations_left < 0) fprintf(stderr, "%s\n", error->message);
    return code;
}

static void as_list_views(void) {
    struct made *from = trips(), *to = type_of_trips("+vl");
    struct ArrowSchema schema;
    struct ArrowArray views, child;
    struct lafkuno_error error;
    expect("list to list-view", convert(from, to, &schema, &views, &error), 0);
    discard(from); /* nothing of the source is kept */
    expect("length", views.length, 3);
    expect("nulls", views.null_count, 1);
    expect("validity", *(const uint8_t *)views.buffers[0], 5);
    /* the rows reach the child from its second row on */
    const int32_t *offsets = views.buffers[1], *sizes = views.buffers[2];
    const uint8_t *stops = (const uint8_t *)views.children[0]->buffers[1] + views.children[0]->offset;
    for (int row = 0; row < 3; row++) expect("size", sizes[row], row == 1 ? 2 : 1);
    expect("first stop", stops[offsets[0]], 11);
    expect("last stop", stops[offsets[2]], 14);
    expect_text("format", schema.format, "+vl");
    expect_text("name", schema.children[0]->name, "item");
    /* the child outlives the list-view */
    child = *views.children[0];
    views.children[0]->release = NULL;
    release_both(&schema, &views);
    expect("stop", stops[0], 11);
    child.release(&child);
    discard(to);
}

static void back_to_lists(void) {
    struct made *from = trips(), *to = type_of_trips("+vl"), *list = type_of_trips("+l");
    struct made views = {.schema = {.release = NULL}};
    struct ArrowSchema schema;
    struct ArrowArray lists;
    expect("list to list-view", convert(from, to, &views.schema, &views.array, NULL), 0);
    expect("list-view to list", convert(&views, list, &schema, &lists, NULL), 0);
    release_both(&views.schema, &views.array);
    const int32_t wanted[] = {0, 1, 1, 2};
    expect("offsets", memcmp(lists.buffers[1], wanted, sizeof wanted), 0);
    expect("stops", lists.children[0]->length, 2);
    expect("first stop", ((const uint8_t *)lists.children[0]->buffers[1])[0], 11);
    expect("last stop", ((const uint8_t *)lists.children[0]->buffers[1])[1], 14);
    release_both(&schema, &lists);
    discard(from);
    discard(to);
    discard(list);
}

static void refused(const struct made *from, const struct ArrowSchema *to, const struct lafkuno_options *options, int code, const char *text) {
    struct ArrowSchema schema = {.flags = 77};
    struct ArrowArray array = {.length = 77};
    struct lafkuno_error error;
    struct lafkuno_source source = source_of(from);
    expect(text, lafkuno_convert_array(&source, to, options, &schema, &array, &error), code);
    expect_text("text", error.message, text);
    expect("untouched", schema.flags == 77 && array.length == 77, 1);
    expect("without error", lafkuno_convert_array(&source, to, options, NULL, &array, NULL), code);
}

static void what_is_refused(void) {
    struct made *from = trips(), *view = type_of_trips("+vl"), *wide = type_of_trips("+vL"), *other = type_of_trips("+vl");
    other->schema.children[0]->format = "tdD";
    refused(from, &wide->schema, NULL, 10, "node 0 'trips' (+l): it does not become '+vL' (ground 10)");
    refused(from, &other->schema, NULL, 10, "node 1 'stop' (C): it does not become 'tdD' (ground 10)");
    refused(from, NULL, NULL, LAFKUNO_BAD_STRUCT, "the type: a struct is missing or released, or it has no format");
    other->schema.release = NULL;
    refused(from, &other->schema, NULL, LAFKUNO_BAD_STRUCT, "the type: a struct is missing or released, or it has no format");
    ((int32_t *)(uintptr_t)from->array.buffers[1])[2] = 0;
    refused(from, &view->schema, NULL, 12, "source 0, node 0 'trips' (+l): row 0: offsets 1 and 0, and the child has 5 rows (ground 12)");
    discard(from);
    discard(view);
    discard(wide);
    discard(other);
}

/* Whichever allocation fails, the answer is 100 and nothing is left. */
static void out_of_memory(void) {
    struct made *from = trips(), *to = type_of_trips("+vl");
    int code = LAFKUNO_NO_MEMORY;
    for (long long k = 0; code && k < 100; k++) {
        struct ArrowSchema schema;
        struct ArrowArray array;
        allocations_left = k;
        code = convert(from, to, &schema, &array, NULL);
        allocations_left = -1;
        if (code) expect("no memory", code, LAFKUNO_NO_MEMORY);
        else release_both(&schema, &array);
    }
    expect("made at last", code, 0);
    discard(from);
    discard(to);
}

int main(void) {
    as_list_views();
    back_to_lists();
    what_is_refused();
    out_of_memory();
    return failed;
}
