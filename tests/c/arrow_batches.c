/* Joins of record batches, and memory: what is allocated for slices of a large batch, and what happens where there is none. */
#include "arrow_arrays.h"
#include "arrow_memory.h"

/* ---- a batch: fuel, driver (a dictionary) and notes (views) of 8 rows; rows 4 to 7 are the trip */

static struct made *view_column(int64_t rows) {
    struct made *m = make("vu", "note", ARROW_FLAG_NULLABLE, rows, 0);
    const char text[] = "a note of thirty bytes or more";
    const int64_t size = sizeof text;
    uint32_t *views = calloc((size_t)rows, 16);
    if (!views) exit(2);
    for (int64_t k = 0; k < rows; k++) {
        views[4 * k] = 20;
        memcpy(&views[4 * k + 1], text + k % 8, 4);
        views[4 * k + 3] = (uint32_t)(k % 8);
    }
    add_buffer(m, NULL, 0);
    add_buffer(m, views, (size_t)rows * 16);
    add_buffer(m, text, sizeof text);
    add_buffer(m, &size, 8);
    free(views);
    return m;
}

static struct made *batch_of(const uint8_t *struct_bits) {
    const int32_t fuel[8] = {310, 305, 300, 298, 95, 102, 12, 61}, offsets[] = {0, 3, 7};
    const uint8_t keys[8] = {0, 0, 0, 0, 1, 1, 0, 1}, bits = 0xbf;
    struct made *batch = make("+s", "", struct_bits ? ARROW_FLAG_NULLABLE : 0, 4, 4);
    add_buffer(batch, struct_bits, 1);
    struct made *driver = numbers("C", "driver", ARROW_FLAG_NULLABLE, 8, 0, keys, 1, NULL);
    set_dictionary(driver, texts("u", "", 2, 0, offsets, "annbert"));
    add_child(batch, numbers("i", "fuel", ARROW_FLAG_NULLABLE, 8, 0, fuel, 4, &bits));
    add_child(batch, driver);
    add_child(batch, view_column(8));
    return batch;
}

static const struct lafkuno_order orders[] = {{0, 0, 3}, {LAFKUNO_GAP, 0, 1}, {1, 3, 4}};
static const struct lafkuno_options keep = {.keep_nulls = 1};

static void whole_batches(void) {
    struct made *batch = batch_of(NULL);
    struct lafkuno_source list[2] = {source_of(batch), source_of(batch)};
    struct ArrowSchema schema;
    struct ArrowArray array;
    struct lafkuno_error error;
    expect("batches", lafkuno_join_batches(list, 2, orders, 3, &keep, &schema, &array, &error), 0);
    discard(batch);
    expect_text("format", schema.format, "+s");
    expect("columns", array.n_children, 3);
    expect("rows", array.length, 5);
    expect("struct nulls", array.null_count, 0);
    expect("struct validity", array.buffers[0] == NULL, 1);
    expect("struct flags", schema.flags, 0);
    for (int c = 0; c < 3; c++) expect("column's rows", array.children[c]->length, 5);
    expect("fuel's nulls", array.children[0]->null_count, 2);
    expect("fuel", ((const int32_t *)array.children[0]->buffers[1])[4], 61);
    expect("driver's nulls", array.children[1]->null_count, 1);
    expect("entries", array.children[1]->dictionary->length, 2);
    expect("driver", ((const uint8_t *)array.children[1]->buffers[1])[0], 1);
    expect_text("name", schema.children[2]->name, "note");
    release_both(&schema, &array);
}

/* A struct row that is null stays null, and an ordered null is one where structs can be. */
static void struct_validity(void) {
    const uint8_t bits = 0xdf; /* row 1 of the trip is null */
    struct made *batch = batch_of(&bits);
    struct lafkuno_source list[2] = {source_of(batch), source_of(batch)};
    struct ArrowSchema schema;
    struct ArrowArray array;
    expect("batches", lafkuno_join_batches(list, 2, orders, 3, &keep, &schema, &array, NULL), 0);
    discard(batch);
    expect("struct nulls", array.null_count, 2);
    expect("struct bits", ((const uint8_t *)array.buffers[0])[0], 0x15);
    expect("struct flags", schema.flags, ARROW_FLAG_NULLABLE);
    release_both(&schema, &array);
}

/* A validity without a zero bit counts as absent: a gap is a row of nulls, and no null struct. */
static void all_valid(void) {
    const int32_t fuel[4] = {1, 2, 3, 4};
    const uint8_t bits = 0x0b, all = 0x0f;
    struct made *batch = make("+s", "", ARROW_FLAG_NULLABLE, 4, 0);
    add_buffer(batch, &all, 1);
    add_child(batch, numbers("i", "fuel", ARROW_FLAG_NULLABLE, 4, 0, fuel, 4, &bits));
    struct lafkuno_source list[1] = {source_of(batch)};
    const struct lafkuno_order gap = lafkuno_gap(2);
    struct ArrowSchema schema;
    struct ArrowArray array;
    expect("all valid", lafkuno_join_batches(list, 1, &gap, 1, NULL, &schema, &array, NULL), 0);
    expect("struct nulls", array.null_count == 0 && !array.buffers[0], 1);
    expect("fuel's nulls", array.children[0]->null_count, 2);
    release_both(&schema, &array);
    discard(batch);
}

static void refused(const struct lafkuno_source *list, size_t count, const struct lafkuno_order *some, size_t n, int code,
                    const char *text) {
    struct lafkuno_error error;
    struct ArrowArray array = {.length = 77};
    expect(text, lafkuno_join_batches(list, count, some, n, NULL, NULL, &array, &error), code);
    expect_text("text", error.message, text);
    expect("untouched", array.length, 77);
}

static void batch_errors(void) {
    const uint8_t bytes[8] = {0};
    struct made *batch = batch_of(NULL), *other = batch_of(NULL);
    struct lafkuno_source list[2] = {source_of(batch), source_of(other)};
    const struct lafkuno_order gap = lafkuno_gap(1), far = lafkuno_rows(1, 0, 5);
    refused(list, 2, &far, 1, LAFKUNO_NO_SUCH_ROWS,
            "column 0 'fuel', order 0 (copy 1 0..5): the end is before the start, or beyond the source's length (ground 2)");
    refused(list, 2, &gap, 1, LAFKUNO_KEEPS_NO_NULLS,
            "column 1 'driver', order 0 (nulls 1): an order of nulls where no nulls are kept: no source has one, and keep_nulls is not set "
            "(ground 3)");
    other->schema.children[2]->name = "remark";
    refused(list, 2, NULL, 0, LAFKUNO_TYPES_DIFFER, "column 2 'note', source 1: the column is named 'remark' here (ground 11)");
    other->schema.children[2]->name = "note";
    other->array.children[0]->length = 7;
    refused(list, 2, NULL, 0, LAFKUNO_BAD_SOURCE, "column 0 'fuel', source 1: the column has 7 rows, and 8 are reached (ground 12)");
    other->array.children[0]->length = 8;
    add_child(batch, numbers("b", "open", 0, 8, 0, bytes, 1, NULL));
    add_child(batch, numbers("w:3", "code", 0, 2, 0, bytes, 3, NULL));
    add_child(batch, numbers("C", "remark", 0, 8, 0, bytes, 1, NULL)); /* keys of views */
    set_dictionary((struct made *)batch->schema.children[5], view_column(1));
    refused(list, 1, NULL, 0, LAFKUNO_UNKNOWN_TYPE,
            "columns of types that are not taken: 3 'open' (b), 4 'code' (w:3), 5 'remark' (vu) (ground 10)");
    refused(list, 2, NULL, 0, LAFKUNO_TYPES_DIFFER, "source 1: 3 columns, and 6 in source 0 (ground 11)");
    list[0] = (struct lafkuno_source){batch->schema.children[0], batch->array.children[0]};
    refused(list, 1, NULL, 0, LAFKUNO_UNKNOWN_TYPE, "source 0: 'i' is no struct (ground 10)");
    discard(batch);
    discard(other);
}

/* Without columns the orders are still tried, and counted. */
static void no_columns(void) {
    struct made *batch = make("+s", "", 0, 4, 4);
    add_buffer(batch, NULL, 0);
    struct lafkuno_source list[1] = {source_of(batch)};
    const struct lafkuno_order some = lafkuno_rows(0, 1, 4), far = lafkuno_rows(0, 1, 5), gap = lafkuno_gap(2);
    struct ArrowArray array;
    expect("no columns", lafkuno_join_batches(list, 1, &some, 1, NULL, NULL, &array, NULL), 0);
    expect("rows", array.length, 3);
    array.release(&array);
    expect("a gap", lafkuno_join_batches(list, 1, &gap, 1, &keep, NULL, &array, NULL), 0);
    expect("rows", array.length == 2 && array.null_count == 0, 1);
    array.release(&array);
    expect("beyond", lafkuno_join_batches(list, 1, &far, 1, NULL, NULL, &array, NULL), LAFKUNO_NO_SUCH_ROWS);
    discard(batch);
}

/* ---- no memory: every allocation fails once, and the answer is LAFKUNO_NO_MEMORY with nothing lost */

typedef int joining(const struct lafkuno_source *, size_t, const struct lafkuno_order *, size_t, const struct lafkuno_options *,
                    struct ArrowSchema *, struct ArrowArray *, struct lafkuno_error *);

static void out_of_memory(const char *what, joining *call, const struct lafkuno_source *list) {
    struct ArrowSchema schema;
    struct ArrowArray array, copy;
    struct lafkuno_error error;
    long long k = 0;
    for (int code = -1; code && k < 1000; k++) {
        allocations_left = k;
        code = call(list, 2, orders, 3, &keep, &schema, &array, &error);
        allocations_left = -1;
        if (code) expect(what, code, LAFKUNO_NO_MEMORY);
    }
    expect("some allocations", k > 5 && k < 1000, 1);
    k = 0;
    for (int code = -1; code && k < 100; k++) {
        allocations_left = k;
        code = lafkuno_share_array(&array, &copy);
        allocations_left = -1;
        if (code) expect(what, code, LAFKUNO_NO_MEMORY);
    }
    copy.release(&copy);
    release_both(&schema, &array);
}

static void no_memory(void) {
    const uint8_t bits = 0xdf;
    struct made *batch = batch_of(&bits), *other = batch_of(&bits);
    struct lafkuno_source list[2] = {source_of(batch), source_of(other)};
    out_of_memory("batches", lafkuno_join_batches, list);
    for (int c = 0; c < 3; c++) {
        struct lafkuno_source columns[2] = {{batch->schema.children[c], batch->array.children[c]},
                                            {other->schema.children[c], other->array.children[c]}};
        out_of_memory("columns", lafkuno_join_arrays, columns);
    }
    discard(batch);
    discard(other);
}

/* ---- 16 slices of one large batch: what is allocated does not grow with it */

enum { LARGE = 400000 };

static struct made *large_plain_list(const char *format) {
    int32_t *four = malloc(4 * (LARGE + 1));
    int64_t *eight = malloc(8 * (LARGE + 1)), *items = calloc(2 * LARGE, 8);
    if (!four || !eight || !items) exit(2);
    for (int k = 0; k <= LARGE; k++) eight[k] = four[k] = 2 * k;
    struct made *child = numbers("l", "item", 0, 2 * LARGE, 0, items, 8, NULL);
    struct made *m = lists(format, "stops", LARGE, 0, format[1] == 'l' ? (void *)four : eight, child);
    free(four);
    free(eight);
    free(items);
    return m;
}

static struct made *large_list(void) {
    int32_t *starts = malloc(4 * LARGE), *sizes = malloc(4 * LARGE);
    int64_t *items = calloc(2 * LARGE, 8);
    if (!starts || !sizes || !items) exit(2);
    for (int k = 0; k < LARGE; k++) { /* every tenth is empty, and begins at 0 */
        starts[k] = k % 10 ? 2 * k : 0;
        sizes[k] = k % 10 ? 2 : 0;
        items[2 * k] = k;
    }
    struct made *m = make("+vl", "stops", ARROW_FLAG_NULLABLE, LARGE, 0);
    add_buffer(m, NULL, 0);
    add_buffer(m, starts, 4 * LARGE);
    add_buffer(m, sizes, 4 * LARGE);
    add_child(m, numbers("l", "item", 0, 2 * LARGE, 0, items, 8, NULL));
    free(starts);
    free(sizes);
    free(items);
    return m;
}

static struct made *large_texts(void) {
    int32_t *offsets = malloc(4 * (LARGE + 1));
    char *bytes = malloc(8 * LARGE);
    if (!offsets || !bytes) exit(2);
    for (int k = 0; k <= LARGE; k++) offsets[k] = 8 * k;
    memset(bytes, 'x', 8 * LARGE);
    struct made *m = texts("u", "name", LARGE, 0, offsets, bytes);
    free(offsets);
    free(bytes);
    return m;
}

/* One child holds everything: of a dense union, or of a sparse one, or the values of runs. */
static struct made *large_nested(const char *format) {
    int64_t *values = calloc(LARGE, 8);
    int32_t *positions = calloc(LARGE, 4);
    uint8_t *ids = calloc(LARGE, 1);
    if (!values || !positions || !ids) exit(2);
    for (int k = 0; k < LARGE; k++) {
        values[k] = k;
        positions[k] = format[1] == 'r' ? k + 1 : k;
    }
    struct made *m = make(format, "event", 0, LARGE, 0);
    if (format[1] == 'u') add_buffer(m, ids, LARGE);
    if (format[2] == 'd') add_buffer(m, positions, 4 * LARGE);
    if (format[1] == 'r') add_child(m, numbers("i", "run_ends", 0, LARGE, 0, positions, 4, NULL));
    add_child(m, numbers("l", "value", 0, LARGE, 0, values, 8, NULL));
    free(values);
    free(positions);
    free(ids);
    return m;
}

static void slices_of(struct made *whole) {
    struct made *cut[16];
    struct lafkuno_source list[16];
    struct lafkuno_order some[16];
    struct ArrowArray array;
    for (uint32_t s = 0; s < 16; s++) {
        cut[s] = slice(whole, LARGE / 17 * (s + 1), 10);
        list[s] = source_of(cut[s]);
        some[s] = lafkuno_rows(s, 0, 10);
    }
    allocated = 0;
    expect(whole->schema.format, lafkuno_join_arrays(list, 16, some, 16, NULL, NULL, &array, NULL), 0);
    expect("allocated less than 100 kB", allocated < 100000, 1);
    expect("rows", array.length, 160);
    array.release(&array);
    for (int s = 0; s < 16; s++) free(cut[s]);
    discard(whole);
}

static void slices(void) {
    int64_t *values = calloc(LARGE, 8);
    uint8_t *bits = malloc(LARGE / 8);
    if (!values || !bits) exit(2);
    memset(bits, 0x77, LARGE / 8);
    slices_of(numbers("l", "fuel", ARROW_FLAG_NULLABLE, LARGE, 0, values, 8, bits));
    slices_of(large_texts());
    slices_of(large_plain_list("+l"));
    slices_of(large_plain_list("+L"));
    slices_of(large_list());
    slices_of(large_nested("+ud:0"));
    slices_of(large_nested("+us:0"));
    slices_of(large_nested("+r"));
    slices_of(view_column(LARGE));
    free(values);
    free(bits);
}

int main(void) {
    whole_batches();
    struct_validity();
    all_valid();
    batch_errors();
    no_columns();
    no_memory();
    slices();
    if (!failed) puts("batches go in and out, and memory may run out");
    return failed;
}
