/* What is refused, in words: the source, the node, the order, what was found and what is allowed. A refused call writes nothing. */
#include "arrow_arrays.h"

static const uint8_t all_valid = 0xff;

static void one_order(struct made *source, struct lafkuno_order order, int code, const char *text) {
    struct lafkuno_source list[1] = {source_of(source)};
    const struct lafkuno_order orders[2] = {lafkuno_rows(0, 0, 1), order};
    struct lafkuno_error error = refused_arrays(list, 1, orders, 2, NULL, code, text);
    expect("order", error.order, 1);
}

static void orders(void) {
    const int32_t values[4] = {1, 2, 3, 4};
    struct made *fuel = numbers("i", "fuel", 0, 3, 1, values, 4, NULL);
    one_order(fuel, lafkuno_rows(1, 0, 1), LAFKUNO_NO_SUCH_SOURCE,
              "order 1 (copy 1 0..1): the source's number is not below the count of sources (ground 1)");
    one_order(fuel, lafkuno_rows(0, 2, 4), LAFKUNO_NO_SUCH_ROWS,
              "order 1 (copy 0 2..4): the end is before the start, or beyond the source's length (ground 2)");
    one_order(fuel, lafkuno_rows(0, 2, 1), LAFKUNO_NO_SUCH_ROWS,
              "order 1 (copy 0 2..1): the end is before the start, or beyond the source's length (ground 2)");
    one_order(fuel, lafkuno_gap(1), LAFKUNO_KEEPS_NO_NULLS,
              "order 1 (nulls 1): an order of nulls where no nulls are kept: no source has one, and keep_nulls is not set (ground 3)");
    discard(fuel);
}

/* Ground 12 among 13 sources: an entry that the dictionary of source 11 has not, below a list. */
static void bad_source(void) {
    const int32_t offsets[] = {0, 3, 7};
    const int32_t starts[] = {0}, sizes[] = {2};
    struct made *made[13];
    struct lafkuno_source list[13];
    for (int s = 0; s < 13; s++) {
        const uint8_t keys[2] = {1, s == 11 ? 2 : 0};
        struct made *item = numbers("C", "item", ARROW_FLAG_NULLABLE, 2, 0, keys, 1, &all_valid);
        set_dictionary(item, texts("u", "", 2, 0, offsets, "annbert"));
        made[s] = make("+vl", "drivers", 0, 1, 0);
        add_buffer(made[s], NULL, 0);
        add_buffer(made[s], starts, 4);
        add_buffer(made[s], sizes, 4);
        add_child(made[s], item);
        list[s] = source_of(made[s]);
    }
    struct lafkuno_error error = refused_arrays(list, 13, NULL, 0, NULL, LAFKUNO_BAD_SOURCE,
                                         "source 11, node 1 'item' (C): row 1: key 2, and the dictionary has 2 entries (ground 12)");
    expect("source", error.source, 11);
    expect("node", error.node, 1);
    list[11] = list[0];
    struct ArrowArray array;
    expect("without it", lafkuno_join_arrays(list, 13, NULL, 0, NULL, NULL, &array, NULL), 0);
    array.release(&array);
    for (int s = 0; s < 13; s++) discard(made[s]);
}

static void differing(struct made *a, struct made *b, const char *text) {
    struct lafkuno_source list[2] = {source_of(a), source_of(b)};
    struct lafkuno_error error = refused_arrays(list, 2, NULL, 0, NULL, LAFKUNO_TYPES_DIFFER, text);
    expect("source", error.source, 1);
    discard(a);
    discard(b);
}

static struct made *union_of(const char *first, int64_t flags) {
    struct made *m = make("+us:0,1", "event", 0, 0, 0);
    add_buffer(m, "", 0);
    add_child(m, numbers("i", first, flags, 0, 0, "", 4, NULL));
    add_child(m, numbers("i", "stop", 0, 0, 0, "", 4, NULL));
    return m;
}

static struct made *keys_of(int64_t flags, const char *format) {
    const uint8_t key = 0;
    struct made *m = numbers("C", "driver", flags, 1, 0, &key, 1, NULL);
    set_dictionary(m, numbers(format, "", 0, 1, 0, &key, 1, NULL));
    return m;
}

static void types(void) {
    static const char extension[] = "\1\0\0\0\24\0\0\0ARROW:extension:name\4\0\0\0uuid";
    const int64_t time = 1;
    differing(numbers("tsu:UTC", "at", 0, 1, 0, &time, 8, NULL), numbers("tsu:Europe/Berlin", "at", 0, 1, 0, &time, 8, NULL),
              "source 1, node 0 'at' (tsu:Europe/Berlin): the format is 'tsu:Europe/Berlin', and 'tsu:UTC' in source 0 (ground 11)");
    differing(numbers("l", "at", 0, 1, 0, &time, 8, NULL), numbers("tsu:", "at", 0, 1, 0, &time, 8, NULL),
              "source 1, node 0 'at' (tsu:): the format is 'tsu:', and 'l' in source 0 (ground 11)");
    differing(union_of("litres", 0), union_of("metres", 0),
              "source 1, node 0 'event' (+us:0,1): field 0 of '+us:0,1' is named 'metres', and 'litres' in source 0 (ground 11)");
    differing(union_of("litres", 0), union_of("litres", 2),
              "source 1, node 1 'litres' (i): 'i' is nullable in one of this source and source 0 only (ground 11)");
    differing(keys_of(0, "c"), keys_of(ARROW_FLAG_DICTIONARY_ORDERED, "c"),
              "source 1, node 0 'driver' (C): the dictionary is ordered in one of this source and source 0 only (ground 11)");
    differing(keys_of(0, "c"), keys_of(0, "C"), "source 1, node 1 (C): the format is 'C', and 'c' in source 0 (ground 11)");
    differing(keys_of(0, "c"), numbers("C", "driver", 0, 1, 0, &time, 1, NULL),
              "source 1, node 0 'driver' (C): 'C' has a dictionary in one of this source and source 0 only (ground 11)");
    struct made *uuid = numbers("l", "id", 0, 1, 0, &time, 8, NULL);
    uuid->schema.metadata = extension;
    differing(uuid, numbers("l", "id", 0, 1, 0, &time, 8, NULL),
              "source 1, node 0 'id' (l): 'l' is an extension type in one, or of another name (ground 11)");
}

static void one_source(struct made *m, int code, const char *text) {
    struct lafkuno_source list[1] = {source_of(m)};
    refused_arrays(list, 1, NULL, 0, NULL, code, text);
    discard(m);
}

static struct made *nested(int depth) {
    const int32_t values[1] = {1}, starts[1] = {0}, sizes[1] = {1};
    if (depth == 1) return numbers("i", "leaf", 0, 1, 0, values, 4, NULL);
    struct made *m = make("+vl", "list", 0, 1, 0);
    add_buffer(m, NULL, 0);
    add_buffer(m, starts, 4);
    add_buffer(m, sizes, 4);
    add_child(m, nested(depth - 1));
    return m;
}

static void shapes(void) {
    const int32_t values[2] = {1, 2};
    struct made *m = numbers("b", "open", 0, 2, 0, values, 1, NULL);
    one_source(m, LAFKUNO_UNKNOWN_TYPE, "source 0, node 0 'open' (b): a type that is not taken (ground 10)");
    m = numbers("i", "driver", 0, 2, 0, values, 4, NULL);
    set_dictionary(m, nested(2));
    one_source(m, LAFKUNO_UNKNOWN_TYPE, "source 0, node 1 'list' (+vl): the values of a dictionary are numbers or byte strings (ground 10)");
    m = numbers("i", "fuel", 0, 1, 0, values, 4, NULL);
    m->array.length = -1;
    one_source(m, LAFKUNO_CEILING_PASSED, "source 0, node 0 'fuel' (i): a length of -1 and an offset of 0: neither is negative (ground 9)");
    m = numbers("i", NULL, 0, 1, 0, values, 4, NULL);
    m->array.release = NULL;
    one_source(m, LAFKUNO_BAD_STRUCT, "source 0, node 0 (i): a struct is missing or released, or it has no format");
    m = make("i", "fuel", 0, 1, 0);
    add_buffer(m, NULL, 0);
    one_source(m, LAFKUNO_BAD_STRUCT, "source 0, node 0 'fuel' (i): 1 buffers, and 2 are due");
    m = make("i", "fuel", 0, 1, 0);
    add_buffer(m, NULL, 0);
    add_buffer(m, NULL, 0);
    one_source(m, LAFKUNO_BAD_STRUCT, "source 0, node 0 'fuel' (i): a buffer is null, and 4 bytes are asked of it");
    one_source(nested(9), LAFKUNO_CEILING_PASSED, "source 0, node 8 'leaf' (i): 9 levels of nesting, and 8 are allowed (ground 9)");
    m = make("+us:0,1", "event", 0, 2, 0);
    add_buffer(m, "\0\1", 2);
    add_child(m, numbers("i", "a", 0, 2, 0, values, 4, NULL));
    add_child(m, numbers("i", "b", 0, 1, 0, values, 4, NULL));
    one_source(m, LAFKUNO_BAD_SOURCE, "source 0, node 0 'event' (+us:0,1): child 1 has 1 rows, and 2 are reached (ground 12)");
    m = make("+l", "stops", 0, 1, 0);
    add_buffer(m, NULL, 0);
    add_buffer(m, values, 8);
    one_source(m, LAFKUNO_UNKNOWN_TYPE, "source 0, node 0 'stops' (+l): 0 children, and 1 are due (ground 10)");
    m = make("+l", "stops", 0, 1, 0);
    add_buffer(m, NULL, 0);
    add_child(m, numbers("i", "item", 0, 2, 0, values, 4, NULL));
    one_source(m, LAFKUNO_BAD_STRUCT, "source 0, node 0 'stops' (+l): 1 buffers, and 2 are due");
    m = make("+vl", "stops", 0, 1, 0);
    add_buffer(m, NULL, 0);
    add_buffer(m, "\1\0\0\0", 4);
    add_buffer(m, "\2\0\0\0", 4);
    add_child(m, numbers("i", "item", 0, 2, 0, values, 4, NULL));
    one_source(m, LAFKUNO_BAD_SOURCE, "source 0, node 0 'stops' (+vl): row 0: offset 1 and size 2, and the child has 2 rows (ground 12)");
}

/* Ground 12 of every kind, in a slice: the row is that of the slice. */
static void broken_rows(void) {
    const int32_t values[4] = {1, 2, 2, 4}, offsets[4] = {0, 3, 5, 4}, positions[3] = {0, 0, 4};
    const uint32_t views[8] = {0, 0, 0, 0, 13, 0x64636261, 1, 0}, torn[4] = {13, 0x64636262, 0, 0};
    const int64_t size = 13;
    one_source(texts("u", "name", 2, 1, offsets, "abcd"), LAFKUNO_BAD_SOURCE,
               "source 0, node 0 'name' (u): row 1: bytes 5 to 4 (ground 12)");
    const int32_t falling[4] = {0, 3, 4, 2}, past[4] = {9, 1, 4, 5}, negative[3] = {0, -1, 1};
    one_source(lists("+l", "stops", 2, 1, falling, numbers("i", "item", 0, 4, 0, values, 4, NULL)), LAFKUNO_BAD_SOURCE,
               "source 0, node 0 'stops' (+l): row 1: offsets 4 and 2, and the child has 4 rows (ground 12)");
    one_source(lists("+l", "stops", 2, 1, past, numbers("i", "item", 0, 4, 0, values, 4, NULL)), LAFKUNO_BAD_SOURCE,
               "source 0, node 0 'stops' (+l): row 1: offsets 4 and 5, and the child has 4 rows (ground 12)");
    one_source(lists("+l", "stops", 1, 1, negative, numbers("i", "item", 0, 4, 0, values, 4, NULL)), LAFKUNO_BAD_SOURCE,
               "source 0, node 0 'stops' (+l): row 0: offsets -1 and 1, and the child has 4 rows (ground 12)");
    struct made *m = make("+ud:0,9", "event", 0, 2, 1);
    add_buffer(m, "\1\0\11", 3);
    add_buffer(m, positions, sizeof positions);
    add_child(m, numbers("i", "a", 0, 4, 0, values, 4, NULL));
    add_child(m, numbers("i", "b", 0, 4, 0, values, 4, NULL));
    one_source(m, LAFKUNO_BAD_SOURCE, "source 0, node 0 'event' (+ud:0,9): row 1: position 4 of field 1, which has 4 rows (ground 12)");
    m = make("+us:0", "event", 0, 1, 1);
    add_buffer(m, "\0\3", 2);
    add_child(m, numbers("i", "a", 0, 4, 0, values, 4, NULL));
    one_source(m, LAFKUNO_BAD_SOURCE, "source 0, node 0 'event' (+us:0): row 0: the id 3 is not declared (ground 12)");
    m = make("+r", "ignition", 0, 4, 0);
    add_child(m, numbers("i", "run_ends", 0, 4, 0, values, 4, NULL));
    add_child(m, numbers("i", "values", 0, 4, 0, values, 4, NULL));
    m->array.length = 4;
    one_source(m, LAFKUNO_BAD_SOURCE, "source 0, node 0 'ignition' (+r): run end 2 is 2 behind 2 (ground 12)");
    m = make("+r", "ignition", 0, 5, 0);
    add_child(m, numbers("i", "run_ends", 0, 2, 0, values, 4, NULL));
    add_child(m, numbers("i", "values", 0, 2, 0, values, 4, NULL));
    one_source(m, LAFKUNO_BAD_SOURCE, "source 0, node 0 'ignition' (+r): the last run ends at 2, and 5 rows are reached (ground 12)");
    for (int k = 0; k < 2; k++) {
        m = make("vu", "note", 0, 1, k ? 0 : 1);
        add_buffer(m, NULL, 0);
        add_buffer(m, k ? torn : views, k ? sizeof torn : sizeof views);
        add_buffer(m, "abcdefghijklm", 13);
        add_buffer(m, &size, 8);
        one_source(m, LAFKUNO_BAD_SOURCE,
                   k ? "source 0, node 0 'note' (vu): row 0: the prefix is not that of its bytes (ground 12)"
                     : "source 0, node 0 'note' (vu): row 0: data buffer 1 has not 13 bytes from 0 on (ground 12)");
    }
}

static void counts(void) {
    const int64_t value = 1;
    struct made *m = numbers("l", "at", 0, 1, 0, &value, 8, NULL);
    struct lafkuno_source list[17];
    const struct lafkuno_order gap = lafkuno_gap((uint64_t)1 << 60), lesser = lafkuno_gap((uint64_t)1 << 58);
    const struct lafkuno_options keep = {.keep_nulls = 1, .most_rows = UINT64_MAX};
    for (int s = 0; s < 17; s++) list[s] = source_of(m);
    refused_arrays(list, 0, NULL, 0, NULL, LAFKUNO_CEILING_PASSED, "there is no source (ground 9)");
    struct lafkuno_error error = refused_arrays(list, 17, NULL, 0, NULL, LAFKUNO_CEILING_PASSED, "17 sources, and 16 are allowed (ground 9)");
    expect("found", (long long)error.found, 17);
    expect("allowed", (long long)error.allowed, 16);
    refused_arrays(list, 1, &gap, 1, &keep, LAFKUNO_CEILING_PASSED, "9367487224930631680 bytes of the result, and 9223372036854775807 are allowed (ground 9)");
    refused_arrays(list, 1, &lesser, 1, &keep, LAFKUNO_NO_MEMORY, "there is no memory left");
    discard(m);
}

/* 64 KiB whose list-view rows each span the whole child, nested five deep: 10^18 rows and more, refused before any work. */
static void work(void) {
    enum { ROWS = 4096 };
    int32_t starts[ROWS] = {0}, sizes[ROWS];
    uint8_t leaves[ROWS] = {0};
    struct made *m = numbers("C", "leaf", 0, ROWS, 0, leaves, 1, NULL);
    for (int k = 0; k < ROWS; k++) sizes[k] = ROWS;
    for (int depth = 0; depth < 5; depth++) {
        struct made *list = make("+vl", "list", 0, ROWS, 0);
        add_buffer(list, NULL, 0);
        add_buffer(list, starts, sizeof starts);
        add_buffer(list, sizes, sizeof sizes);
        add_child(list, m);
        m = list;
    }
    struct lafkuno_source list[1] = {source_of(m)};
    struct lafkuno_order all = lafkuno_rows(0, 0, ROWS), one = lafkuno_rows(0, 0, 1);
    struct lafkuno_error error =
        refused_arrays(list, 1, &all, 1, NULL, LAFKUNO_TOO_MUCH_WORK,
                "node 2 'list' (+vl): 68719476736 rows are the bound of the orders here, and 4294967296 are allowed");
    expect("node", error.node, 2);
    expect("bound", (long long)error.found, 1LL << 36);
    struct lafkuno_options few = {.most_rows = 4095};
    refused_arrays(list, 1, &one, 1, &few, LAFKUNO_TOO_MUCH_WORK,
            "node 1 'list' (+vl): 4096 rows are the bound of the orders here, and 4095 are allowed");
    discard(m);
}

/* Lists that do not overlap come to no more rows than there are, however long the longest is. */
static void no_needless_bound(void) {
    enum { ROWS = 1000 };
    int32_t starts[ROWS], sizes[ROWS];
    uint8_t leaves[3 * ROWS] = {0};
    for (int k = 0; k < ROWS; k++) {
        starts[k] = k ? 2 * ROWS + k : 0;
        sizes[k] = k ? 1 : 2 * ROWS + 1;
    }
    struct made *m = make("+vl", "stops", 0, ROWS, 0);
    add_buffer(m, NULL, 0);
    add_buffer(m, starts, sizeof starts);
    add_buffer(m, sizes, sizeof sizes);
    add_child(m, numbers("C", "stop", 0, 3 * ROWS, 0, leaves, 1, NULL));
    struct lafkuno_source list[1] = {source_of(m)};
    struct lafkuno_order all = lafkuno_rows(0, 0, ROWS);
    struct lafkuno_options exactly = {.most_rows = 3 * ROWS}, less = {.most_rows = 3 * ROWS - 1};
    struct ArrowArray array;
    expect("bound", lafkuno_join_arrays(list, 1, &all, 1, &exactly, NULL, &array, NULL), 0);
    array.release(&array);
    refused_arrays(list, 1, &all, 1, &less, LAFKUNO_TOO_MUCH_WORK,
            "node 1 'stop' (C): 3000 rows are the bound of the orders here, and 2999 are allowed");
    discard(m);
}

/* A list's stretches stand one behind the other: the longest is not multiplied, and neighbours are one stretch of runs. */
static void lists_are_not_multiplied(void) {
    enum { ROWS = 1000, ITEMS = 100 };
    int32_t offsets[ROWS + 1], end = 3 * ROWS, items[2] = {0, ITEMS};
    uint8_t leaves[ITEMS] = {0};
    for (int k = 0; k <= ROWS; k++) offsets[k] = k ? 2 * ROWS + k : 0;
    struct made *runs = make("+r", "stop", 0, 3 * ROWS, 0);
    add_child(runs, numbers("i", "run_ends", 0, 1, 0, &end, 4, NULL));
    add_child(runs, lists("+l", "values", 1, 0, items, numbers("C", "leaf", 0, ITEMS, 0, leaves, 1, NULL)));
    struct made *m = lists("+l", "stops", ROWS, 0, offsets, runs);
    struct lafkuno_source list[1] = {source_of(m)};
    struct lafkuno_order all = lafkuno_rows(0, 0, ROWS);
    struct lafkuno_options exactly = {.most_rows = 3 * ROWS}, less = {.most_rows = 3 * ROWS - 1};
    struct ArrowArray array;
    expect("bound", lafkuno_join_arrays(list, 1, &all, 1, &exactly, NULL, &array, NULL), 0);
    expect("runs", array.children[0]->children[0]->length, 1);
    expect("leaves", array.children[0]->children[1]->children[0]->length, ITEMS);
    array.release(&array);
    refused_arrays(list, 1, &all, 1, &less, LAFKUNO_TOO_MUCH_WORK,
            "node 1 'stop' (+r): 3000 rows are the bound of the orders here, and 2999 are allowed");
    discard(m);
}

/* Two dictionaries of 200 and 57 entries: more than keys of a byte can name. */
static void too_many_entries(void) {
    const uint8_t key = 0, values[200] = {0};
    struct made *pair[2];
    struct lafkuno_source list[2];
    for (int s = 0; s < 2; s++) {
        pair[s] = numbers("C", "driver", 0, 1, 0, &key, 1, NULL);
        set_dictionary(pair[s], numbers("C", "", 0, s ? 57 : 200, 0, values, 1, NULL));
        list[s] = source_of(pair[s]);
    }
    refused_arrays(list, 2, NULL, 0, NULL, LAFKUNO_TOO_MANY_ENTRIES,
            "node 0 'driver' (C): the dictionary has more entries than its keys can name (ground 8)");
    for (int s = 0; s < 2; s++) discard(pair[s]);
}

/* A run that many lists name is copied for each of them, and what is in its value too. */
static void runs_below_lists(void) {
    enum { ROWS = 1000, ITEMS = 100 };
    int32_t starts[ROWS], sizes[ROWS], start = 0, size = ITEMS, end = ROWS;
    uint8_t leaves[ITEMS] = {0};
    for (int k = 0; k < ROWS; k++) {
        starts[k] = k;
        sizes[k] = 1;
    }
    struct made *value = make("+vl", "values", 0, 1, 0), *runs = make("+r", "item", 0, ROWS, 0), *m = make("+vl", "list", 0, ROWS, 0);
    add_buffer(value, NULL, 0);
    add_buffer(value, &start, 4);
    add_buffer(value, &size, 4);
    add_child(value, numbers("C", "leaf", 0, ITEMS, 0, leaves, 1, NULL));
    add_child(runs, numbers("i", "run_ends", 0, 1, 0, &end, 4, NULL));
    add_child(runs, value);
    add_buffer(m, NULL, 0);
    add_buffer(m, starts, sizeof starts);
    add_buffer(m, sizes, sizeof sizes);
    add_child(m, runs);
    struct lafkuno_source list[1] = {source_of(m)};
    struct lafkuno_order all = lafkuno_rows(0, 0, ROWS);
    struct lafkuno_options exactly = {.most_rows = ROWS * ITEMS}, less = {.most_rows = ROWS * ITEMS - 1};
    struct ArrowArray array;
    expect("runs", lafkuno_join_arrays(list, 1, &all, 1, &exactly, NULL, &array, NULL), 0);
    expect("leaves", array.children[0]->children[1]->children[0]->length, ROWS * ITEMS);
    array.release(&array);
    refused_arrays(list, 1, &all, 1, &less, LAFKUNO_TOO_MUCH_WORK,
            "node 4 'leaf' (C): 100000 rows are the bound of the orders here, and 99999 are allowed");
    discard(m);
}

/* What is copied or shared may be anybody's struct. */
static void foreign_structs(void) {
    const int32_t values[2] = {1, 2};
    struct made *m = nested(2);
    struct ArrowSchema copy, *child = m->schema.children[0];
    struct ArrowArray shared;
    expect("copy", lafkuno_copy_schema(&m->schema, &copy), 0);
    expect_text("child", copy.children[0]->format, "i");
    copy.release(&copy);
    m->schema.children[0] = NULL;
    expect("a child that is missing", lafkuno_copy_schema(&m->schema, &copy), LAFKUNO_BAD_STRUCT);
    m->schema.children[0] = child;
    child->release = NULL;
    expect("a child that is released", lafkuno_copy_schema(&m->schema, &copy), LAFKUNO_BAD_STRUCT);
    expect("another's array", lafkuno_share_array(&m->array, &shared), LAFKUNO_BAD_STRUCT);
    discard(m);
    /* of a negative count, as a broken producer may have it, nothing is read */
    m = numbers("i", "fuel", 0, 2, 0, values, 4, NULL);
    m->schema.n_children = -1;
    expect("negative", lafkuno_copy_schema(&m->schema, &copy), LAFKUNO_BAD_STRUCT);
    m->schema.n_children = 0;
    discard(m);
}

int main(void) {
    orders();
    bad_source();
    types();
    shapes();
    broken_rows();
    counts();
    work();
    no_needless_bound();
    lists_are_not_multiplied();
    too_many_entries();
    runs_below_lists();
    foreign_structs();
    expect_text("meaning", lafkuno_meaning(LAFKUNO_NOTHING_COUNTED), "no row of the range counts");
    expect_text("meaning", lafkuno_meaning(LAFKUNO_RUN_END_TOO_LARGE), "a run end does not fit its type");
    if (!failed) puts("refusals say where");
    return failed;
}
