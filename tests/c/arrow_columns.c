/* Joins of ArrowArrays: a batch that is cut in its middle first, then ownership, types and windows of every kind. */
#include "arrow_arrays.h"

#define LENGTH(list) (sizeof(list) / sizeof *(list))

static const char metadata[] = "\1\0\0\0\4\0\0\0unit\2\0\0\0ml";

static int join(struct made **sources, size_t count, const struct lafkuno_order *orders, size_t order_count, int keep,
                struct ArrowSchema *schema, struct ArrowArray *array, struct lafkuno_error *error) {
    struct lafkuno_source list[16];
    struct lafkuno_options options = {.keep_nulls = keep};
    for (size_t s = 0; s < count; s++) list[s] = source_of(sources[s]);
    int code = lafkuno_join_arrays(list, count, orders, order_count, &options, schema, array, error);
    if (code && error) fprintf(stderr, "%s\n", error->message);
    return code;
}

static int is_valid(const struct ArrowArray *a, int64_t row) {
    const uint8_t *bits = a->buffers[0];
    return !bits || (bits[row / 8] >> row % 8 & 1);
}

/* Fuel since the box was powered up; the trip begins at row 4, and its third row is null. */
static void sliced_batch(void) {
    const int32_t fuel[8] = {310, 305, 300, 298, 95, 102, 12, 61}, wanted[5] = {95, 102, 0, 0, 61};
    const uint8_t bits = 0xbf;
    struct made *batch = numbers("i", "fuel", ARROW_FLAG_NULLABLE, 4, 4, fuel, 4, &bits);
    const struct lafkuno_order orders[] = {lafkuno_rows(0, 0, 3), lafkuno_gap(1), lafkuno_rows(0, 3, 4)};
    struct ArrowSchema schema;
    struct ArrowArray array;
    struct lafkuno_error error;
    batch->schema.metadata = metadata;
    expect("sliced batch", join(&batch, 1, orders, LENGTH(orders), 1, &schema, &array, &error), 0);
    expect("code", error.code, 0);
    discard(batch); /* nothing of the source is kept */
    expect("length", array.length, 5);
    expect("offset", array.offset, 0);
    expect("nulls", array.null_count, 2);
    for (int64_t row = 0; row < 5; row++) {
        int valid = row != 2 && row != 3;
        expect("validity", is_valid(&array, row), valid);
        if (valid) expect("value", ((const int32_t *)array.buffers[1])[row], wanted[row]);
    }
    expect_text("format", schema.format, "i");
    expect_text("name", schema.name, "fuel");
    expect("metadata", memcmp(schema.metadata, metadata, sizeof metadata - 1), 0);
    expect("flags", schema.flags, ARROW_FLAG_NULLABLE);
    release_both(&schema, &array);
    expect("released", !schema.release && !array.release, 1);
}

/* The stops of each trip; the first trip is another day's, and the child begins in its middle too. */
static void sliced_lists(void) {
    const int32_t offsets[] = {0, 2, 2, 5}, ahead[] = {0, 10}, wanted[] = {0, 10, 10, 13, 13, 13};
    const int64_t large[] = {0, 2, 2, 5}, due[] = {0, 3, 3, 6};
    const uint8_t stops[] = {9, 20, 21, 22, 23, 24}, others[10] = {0};
    struct made *pair[2] = {lists("+l", "stops", 1, 0, ahead, numbers("C", "item", 0, 10, 0, others, 1, NULL)),
                            lists("+l", "stops", 2, 1, offsets, numbers("C", "item", 0, 5, 1, stops, 1, NULL))};
    const struct lafkuno_order orders[] = {lafkuno_rows(0, 0, 1), lafkuno_rows(1, 0, 2), lafkuno_gap(2)};
    struct ArrowSchema schema;
    struct ArrowArray array, moved;
    struct lafkuno_error error;
    expect("lists", join(pair, 2, orders, LENGTH(orders), 1, &schema, &array, &error), 0);
    for (int s = 0; s < 2; s++) discard(pair[s]);
    expect_text("format", schema.format, "+l");
    expect_text("item", schema.children[0]->name, "item");
    expect("buffers", array.n_buffers, 2);
    expect("nulls", array.null_count, 2);
    expect("offsets", memcmp(array.buffers[1], wanted, sizeof wanted), 0);
    expect("child", array.n_children == 1 && array.children[0]->length == 13 && array.children[0]->null_count == 0, 1);
    moved = *array.children[0];
    array.children[0]->release = NULL;
    release_both(&schema, &array);
    expect("moved child", memcmp((const uint8_t *)moved.buffers[1] + 10, stops + 3, 3), 0);
    moved.release(&moved);
    struct made *one = lists("+L", "stops", 2, 1, large, numbers("C", "item", 0, 5, 1, stops, 1, NULL));
    const struct lafkuno_order twice[] = {lafkuno_rows(0, 1, 2), lafkuno_rows(0, 0, 2)};
    expect("large lists", join(&one, 1, twice, LENGTH(twice), 0, NULL, &array, &error), 0);
    expect("offsets", memcmp(array.buffers[1], due, sizeof due), 0);
    array.release(&array);
    discard(one);
}

/* A list without rows may have no offsets; its child need not be empty. */
static void lists_without_rows(void) {
    const uint8_t stops[] = {20, 21};
    struct made *none = make("+l", "stops", 0, 0, 3);
    const struct lafkuno_order order = lafkuno_rows(0, 0, 0);
    struct ArrowArray array;
    add_buffer(none, NULL, 0);
    add_buffer(none, NULL, 0);
    add_child(none, numbers("C", "item", 0, 2, 0, stops, 1, NULL));
    expect("no offsets", join(&none, 1, &order, 1, 0, NULL, &array, NULL), 0);
    expect("first offset", array.length == 0 && ((const int32_t *)array.buffers[1])[0] == 0, 1);
    expect("no stops", array.children[0]->length, 0);
    array.release(&array);
    discard(none);
}

/* Two slices of one column share its dictionary, which is kept, body and all; another column's is joined. */
static void dictionaries(void) {
    const int32_t offsets[] = {0, 2, 5, 9}, others[] = {0, 3, 7}; /* the shared one is a slice itself */
    const uint8_t keys[] = {0, 1, 1, 0}, bits = 0x0f;
    struct made *one = numbers("C", "driver", ARROW_FLAG_NULLABLE | ARROW_FLAG_DICTIONARY_ORDERED, 4, 0, keys, 1, &bits);
    struct made *other = numbers("C", "driver", ARROW_FLAG_NULLABLE | ARROW_FLAG_DICTIONARY_ORDERED, 2, 0, keys, 1, NULL);
    set_dictionary(one, texts("u", "", 2, 1, offsets, "--annbert"));
    set_dictionary(other, texts("u", "", 2, 0, others, "eveleon"));
    struct made *cut = slice(one, 2, 2), *pair[2] = {one, cut};
    const struct lafkuno_order orders[] = {lafkuno_rows(1, 0, 2), lafkuno_rows(0, 1, 2)};
    struct ArrowSchema schema;
    struct ArrowArray array, moved;
    struct lafkuno_error error;
    expect("shared dictionary", join(pair, 2, orders, LENGTH(orders), 0, &schema, &array, &error), 0);
    expect("entries", array.dictionary->length, 2);
    expect("ordered", schema.flags, ARROW_FLAG_NULLABLE | ARROW_FLAG_DICTIONARY_ORDERED);
    expect("keys", memcmp(array.buffers[1], "\1\0\1", 3), 0);
    pair[1] = other;
    release_both(&schema, &array);
    expect("joined dictionaries", join(pair, 2, orders, LENGTH(orders), 0, NULL, &array, &error), 0);
    expect("entries", array.dictionary->length, 4);
    expect("keys", memcmp(array.buffers[1], "\2\3\1", 3), 0);
    /* a moved dictionary outlives the array */
    moved = *array.dictionary;
    array.dictionary->release = NULL;
    array.release(&array);
    expect("moved dictionary", memcmp(moved.buffers[2], "annberteveleon", 14), 0);
    moved.release(&moved);
    free(cut);
    discard(one);
    discard(other);
}

/* Views of 16 sources with 32 data buffers each: every one is named by the result, and each view finds its own. */
static void many_view_buffers(void) {
    char text[32][16];
    uint8_t views[32][16];
    int64_t sizes[32];
    struct made *sources[16];
    struct lafkuno_order orders[16];
    struct ArrowArray array, copy;
    for (int s = 0; s < 16; s++) {
        sources[s] = make("vu", "note", 0, 32, 0);
        for (uint32_t k = 0; k < 32; k++) {
            const uint32_t length = 15, start = 0;
            snprintf(text[k], sizeof text[k], "van%02d, note %02u.", s, k);
            sizes[k] = length;
            memcpy(views[k], &length, 4);
            memcpy(views[k] + 4, text[k], 4);
            memcpy(views[k] + 8, &k, 4);
            memcpy(views[k] + 12, &start, 4);
        }
        add_buffer(sources[s], NULL, 0);
        add_buffer(sources[s], views, sizeof views);
        for (int k = 0; k < 32; k++) add_buffer(sources[s], text[k], 15);
        add_buffer(sources[s], sizes, sizeof sizes);
        orders[s] = lafkuno_rows((uint32_t)s, 0, 32);
    }
    expect("views", join(sources, 16, orders, 16, 0, NULL, &array, NULL), 0);
    for (int s = 0; s < 16; s++) discard(sources[s]);
    expect("data buffers", array.n_buffers, 3 + 512);
    expect("shared", lafkuno_share_array(&array, &copy), 0);
    array.release(&array);
    for (int row = 0; row < 512; row++) {
        uint32_t at[4];
        memcpy(at, (const uint8_t *)copy.buffers[1] + 16 * row, 16);
        snprintf(text[0], sizeof text[0], "van%02d, note %02d.", row / 32, row % 32);
        expect("size", ((const int64_t *)copy.buffers[514])[at[2]], 15);
        expect("view", memcmp((const char *)copy.buffers[2 + at[2]] + at[3], text[0], 15), 0);
    }
    copy.release(&copy);
}

/* The fields of a union keep their names; a child that was moved away is not released twice. */
static void unions(void) {
    const uint8_t ids[] = {7, 5, 7};
    const int32_t positions[] = {1, 0, 2}, litres[] = {40}, stops[] = {10, 20, 30};
    struct made *events = make("+ud:5,7", "event", 0, 2, 1);
    add_buffer(events, ids, 3);
    add_buffer(events, positions, 12);
    add_child(events, numbers("i", "litres", ARROW_FLAG_NULLABLE, 1, 0, litres, 4, NULL));
    add_child(events, numbers("i", "stop", 0, 3, 0, stops, 4, NULL));
    const struct lafkuno_order orders[] = {lafkuno_rows(0, 0, 2), lafkuno_gap(1)};
    struct ArrowSchema schema;
    struct ArrowArray array, moved;
    expect("union", join(&events, 1, orders, 2, 1, &schema, &array, NULL), 0);
    expect_text("field", schema.children[0]->name, "litres");
    expect_text("field", schema.children[1]->name, "stop");
    expect("flags", schema.flags, 0);
    expect("ids", memcmp(array.buffers[0], "\5\7\5", 3), 0);
    moved = *array.children[1];
    array.children[1]->release = NULL;
    release_both(&schema, &array);
    expect("moved child", moved.length == 1 && ((const int32_t *)moved.buffers[1])[0] == 30, 1);
    moved.release(&moved);
    discard(events);
}

/* Times travel as numbers; the schema says what they are. */
static void logical_types(void) {
    const int64_t times[] = {1, 2, 3};
    const uint16_t halves[] = {0x3c00, 0x4000, 0x4200};
    const char *formats[] = {"tsu:Europe/Berlin", "tDn", "tdm", "ttn", "tiD"};
    const struct lafkuno_order order = lafkuno_rows(0, 1, 2);
    struct ArrowSchema schema;
    struct ArrowArray array;
    for (size_t k = 0; k < LENGTH(formats); k++) {
        struct made *column = numbers(formats[k], "at", 0, 2, 1, times, 8, NULL);
        expect(formats[k], join(&column, 1, &order, 1, 0, &schema, &array, NULL), 0);
        expect_text("format", schema.format, formats[k]);
        expect("time", ((const int64_t *)array.buffers[1])[0], 3);
        release_both(&schema, &array);
        discard(column);
    }
    struct made *column = numbers("e", "load", 0, 2, 1, halves, 2, NULL);
    expect("half floats", join(&column, 1, &order, 1, 0, &schema, &array, NULL), 0);
    expect("half", ((const uint16_t *)array.buffers[1])[0], 0x4200);
    release_both(&schema, &array);
    discard(column);
}

/* A field is nullable where it is in any source, and where nulls are kept. */
static void nullable(void) {
    const int32_t values[] = {1, 2}, ends[] = {2};
    struct made *pair[2] = {numbers("i", "a", 0, 2, 0, values, 4, NULL), numbers("i", "b", ARROW_FLAG_NULLABLE, 2, 0, values, 4, NULL)};
    const struct lafkuno_order gap = lafkuno_gap(3), no_rows = lafkuno_rows(0, 0, 0);
    struct ArrowSchema schema;
    struct ArrowArray array;
    expect("two sources", join(pair, 2, &no_rows, 1, 0, &schema, &array, NULL), 0);
    expect("any source", schema.flags, ARROW_FLAG_NULLABLE);
    expect("no rows", array.length, 0);
    release_both(&schema, &array);
    struct made *runs = make("+r", "ignition", 0, 2, 0);
    add_child(runs, numbers("i", "run_ends", 0, 1, 0, ends, 4, NULL));
    add_child(runs, numbers("i", "values", 0, 1, 0, values, 4, NULL));
    expect("runs", join(&runs, 1, &gap, 1, 1, &schema, &array, NULL), 0);
    expect("values", schema.children[1]->flags, ARROW_FLAG_NULLABLE);
    expect("run ends", schema.children[0]->flags, 0);
    expect("one run", array.children[0]->length == 1 && array.children[1]->null_count == 1, 1);
    release_both(&schema, &array);
    for (int k = 0; k < 2; k++) discard(pair[k]);
    discard(runs);
}

/* A gap that is reported twice is one run where the options say so. */
static void one_run_for_gaps(void) {
    const int32_t ends[] = {3}, each[] = {3, 5, 6, 7}, one[] = {3, 6, 7};
    const uint8_t on[] = {1};
    for (int chosen = 0; chosen < 2; chosen++) {
        struct made *runs = make("+r", "ignition", 0, 3, 0);
        add_child(runs, numbers("i", "run_ends", 0, 1, 0, ends, 4, NULL));
        add_child(runs, numbers("C", "values", ARROW_FLAG_NULLABLE, 1, 0, on, 1, NULL));
        const struct lafkuno_source source = source_of(runs);
        const struct lafkuno_order orders[] = {lafkuno_rows(0, 0, 3), lafkuno_gap(2), lafkuno_gap(1), lafkuno_rows(0, 0, 1)};
        const struct lafkuno_options options = {.keep_nulls = 1, .one_run_for_gaps = chosen};
        struct ArrowArray array;
        expect("gaps", lafkuno_join_arrays(&source, 1, orders, LENGTH(orders), &options, NULL, &array, NULL), 0);
        expect("rows", array.length, 7);
        expect("runs", array.children[0]->length, chosen ? 3 : 4);
        expect("run ends", memcmp(array.children[0]->buffers[1], chosen ? one : each, chosen ? sizeof one : sizeof each), 0);
        expect("null values", array.children[1]->null_count, chosen ? 1 : 2);
        array.release(&array);
        discard(runs);
    }
}

int main(void) {
    sliced_batch();
    sliced_lists();
    lists_without_rows();
    dictionaries();
    many_view_buffers();
    unions();
    logical_types();
    nullable();
    one_run_for_gaps();
    expect_text("version", lafkuno_version(), LAFKUNO_VERSION);
    if (!failed) puts("columns go in and out");
    return failed;
}
