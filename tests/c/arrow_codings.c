/* ArrowArrays as runs, as plain rows, and without unused dictionary entries: names and metadata, ownership, what is refused, and memory that runs
 * out. */
#include "arrow_arrays.h"
#include "arrow_memory.h"

/* One pair of metadata, of odd lengths. */
static const char unit[] = "\x01\0\0\0\x04\0\0\0unit\x05\0\0\0litre";
static const char extension[] = "\x01\0\0\0\x14\0\0\0ARROW:extension:name\x04\0\0\0fuel";

/* 5 5 null null 7 7, behind a row that is cut off; under the nulls stands anything. */
static struct made *fuel(const char *metadata) {
    const int64_t rows[] = {9, 5, 5, 1, 2, 7, 7};
    const uint8_t bits = 0x67;
    struct made *m = numbers("tsu:UTC", "fuel", ARROW_FLAG_NULLABLE, 6, 1, rows, 8, &bits);
    m->schema.metadata = metadata;
    return m;
}

/* What is known of an array's runs. */
static void expect_runs(const struct ArrowArray *runs, int64_t rows, int64_t count, int64_t nulls) {
    expect("rows", runs->length, rows);
    expect("offset", runs->offset, 0);
    expect("buffers", runs->n_buffers, 0);
    expect("runs", runs->children[0]->length, count);
    expect("values", runs->children[1]->length, count);
    expect("null runs", runs->children[1]->null_count, nulls);
}

static void as_runs(void) {
    struct made *from = fuel(unit);
    struct lafkuno_source source = source_of(from);
    struct ArrowSchema schema;
    struct ArrowArray runs, values;
    expect("runs", lafkuno_encode_array(&source, 1, 6, "s", &schema, &runs, NULL), 0);
    discard(from); /* nothing of the column is kept */
    expect_runs(&runs, 5, 3, 1);
    const int16_t ends[] = {1, 3, 5};
    expect("run ends", memcmp(runs.children[0]->buffers[1], ends, sizeof ends), 0);
    expect("validity", *(const uint8_t *)runs.children[1]->buffers[0] & 7, 5);
    expect("last value", ((const int64_t *)runs.children[1]->buffers[1])[2], 7);
    expect_text("format", schema.format, "+r");
    expect_text("name", schema.name, "fuel");
    expect("metadata", memcmp(schema.metadata, unit, sizeof unit - 1), 0);
    expect("nullable", schema.flags, ARROW_FLAG_NULLABLE);
    expect_text("ends", schema.children[0]->name, "run_ends");
    expect("ends are never null", schema.children[0]->flags, 0);
    expect_text("values", schema.children[1]->format, "tsu:UTC");
    expect("no metadata", schema.children[1]->metadata == NULL, 1);
    /* the values outlive the runs */
    values = *runs.children[1];
    runs.children[1]->release = NULL;
    release_both(&schema, &runs);
    expect("value", ((const int64_t *)values.buffers[1])[0], 5);
    values.release(&values);
}

static void and_back(void) {
    struct made *from = fuel(extension), runs = {.schema = {.release = NULL}};
    struct lafkuno_source source = source_of(from), made = {&runs.schema, &runs.array};
    struct ArrowSchema schema;
    struct ArrowArray rows;
    expect("runs", lafkuno_encode_array(&source, 0, 6, NULL, &runs.schema, &runs.array, NULL), 0);
    expect_runs(&runs.array, 6, 3, 1);
    expect_text("ends", runs.schema.children[0]->format, "i");
    expect("an extension type is the values'", runs.schema.metadata == NULL && runs.schema.children[1]->metadata != NULL, 1);
    expect("rows", lafkuno_expand_array(&made, 1, 6, NULL, &schema, &rows, NULL), 0);
    release_both(&runs.schema, &runs.array);
    const int64_t wanted[] = {5, 0, 0, 7, 7};
    expect("rows", rows.length, 5);
    expect("nulls", rows.null_count, 2);
    expect("values", memcmp(rows.buffers[1], wanted, sizeof wanted), 0);
    expect_text("format", schema.format, "tsu:UTC");
    expect_text("name", schema.name, "fuel");
    expect("metadata", memcmp(schema.metadata, extension, sizeof extension - 1), 0);
    release_both(&schema, &rows);
    discard(from);
}

/* Keys 3, 99 under a null, 1, over four names; an ordered dictionary. */
static struct made *drivers(void) {
    const int32_t offsets[] = {0, 1, 3, 6, 10};
    const uint8_t keys[] = {0, 3, 99, 1}, bits = 0x0b;
    struct made *m = numbers("C", "driver", ARROW_FLAG_NULLABLE | ARROW_FLAG_DICTIONARY_ORDERED, 3, 1, keys, 1, &bits);
    set_dictionary(m, texts("u", "", 4, 0, offsets, "abbcccdddd"));
    return m;
}

static void reclaimed(void) {
    struct made *from = drivers();
    struct lafkuno_source source = source_of(from);
    struct ArrowSchema schema;
    struct ArrowArray array;
    expect("reclaimed", lafkuno_reclaim_array(&source, &schema, &array, NULL), 0);
    discard(from);
    const uint8_t keys[] = {1, 0, 0};
    const int32_t offsets[] = {0, 2, 6};
    expect("rows", array.length, 3);
    expect("nulls", array.null_count, 1);
    expect("keys", memcmp(array.buffers[1], keys, sizeof keys), 0);
    expect("entries", array.dictionary->length, 2);
    expect("offsets", memcmp(array.dictionary->buffers[1], offsets, sizeof offsets), 0);
    expect("names", memcmp(array.dictionary->buffers[2], "bbdddd", 6), 0);
    expect("flags", schema.flags, ARROW_FLAG_NULLABLE | ARROW_FLAG_DICTIONARY_ORDERED);
    release_both(&schema, &array);
}

enum call { ENCODE, EXPAND, RECLAIM };

static int do_call(enum call call, const struct made *from, uint64_t start, uint64_t end, const char *ends, struct ArrowSchema *schema,
                   struct ArrowArray *array, struct lafkuno_error *error) {
    const struct lafkuno_source source = source_of(from);
    const struct lafkuno_options few = {.most_rows = 2};
    if (call == ENCODE) return lafkuno_encode_array(&source, start, end, ends, schema, array, error);
    if (call == EXPAND) return lafkuno_expand_array(&source, start, end, ends ? &few : NULL, schema, array, error);
    return lafkuno_reclaim_array(&source, schema, array, error);
}

/* Refused with this text; array and schema stay as they were. */
static void refused(enum call call, const struct made *from, uint64_t start, uint64_t end, const char *ends, int code, const char *text) {
    struct ArrowSchema schema = {.flags = 77};
    struct ArrowArray array = {.length = 77};
    struct lafkuno_error error;
    expect(text, do_call(call, from, start, end, ends, &schema, &array, &error), code);
    expect_text("text", error.message, text);
    expect("code", error.code, code);
    expect("untouched", schema.flags == 77 && array.length == 77, 1);
    expect("without error", do_call(call, from, start, end, ends, NULL, &array, NULL), code);
}

/* A run of 2^62 rows. */
static struct made *long_run(void) {
    const int64_t end = (int64_t)1 << 62;
    const uint8_t value = 7;
    struct made *m = make("+r", "ignition", 0, end, 0);
    add_child(m, numbers("l", "run_ends", 0, 1, 0, &end, 8, NULL));
    add_child(m, numbers("C", "values", 0, 1, 0, &value, 1, NULL));
    return m;
}

static void what_is_refused(void) {
    struct made *from = fuel(NULL), *names = drivers(), *run = long_run();
    refused(ENCODE, from, 2, 7, "i", 2, "rows 2..7, and the column has 6 (ground 2)");
    refused(ENCODE, from, 4, 3, "i", 2, "rows 4..3, and the column has 6 (ground 2)");
    refused(ENCODE, from, 0, 1, "u", 10, "run ends are 's', 'i' or 'l', and not 'u' (ground 10)");
    refused(ENCODE, names, 0, 1, "i", 10, "node 0 'driver' (C): it is no column of numbers (ground 10)");
    refused(EXPAND, from, 0, 1, NULL, 10, "node 0 'fuel' (tsu:UTC): it is no run-end column of numbers (ground 10)");
    refused(RECLAIM, from, 0, 0, NULL, 10, "node 0 'fuel' (tsu:UTC): it has no dictionary (ground 10)");
    refused(EXPAND, run, 1, 4, "few", LAFKUNO_TOO_MUCH_WORK, "3 rows are asked for, and 2 are allowed");
    refused(EXPAND, run, 0, (uint64_t)1 << 62, NULL, LAFKUNO_TOO_MUCH_WORK, "4611686018427387904 rows are asked for, and 4294967296 are allowed");
    ((uint8_t *)(uintptr_t)names->array.buffers[1])[1] = 4;
    refused(RECLAIM, names, 0, 0, NULL, 12, "source 0, node 0 'driver' (C): row 0: key 4, and the dictionary has 4 entries (ground 12)");
    ((int64_t *)(uintptr_t)run->array.children[0]->buffers[1])[0] = 0;
    refused(EXPAND, run, 0, 2, NULL, 12, "source 0, node 0 'ignition' (+r): run end 0 is 0 behind 0 (ground 12)");
    names->array.release = NULL;
    refused(RECLAIM, names, 0, 0, NULL, LAFKUNO_BAD_STRUCT, "node 0 'driver' (C): a struct is missing or released, or it has no format");
    names->array.release = released_array;
    discard(from);
    discard(names);
    discard(run);
}

/* Whichever allocation fails, the answer is 100 and nothing is left. */
static void out_of_memory(enum call call, struct made *from) {
    int code = LAFKUNO_NO_MEMORY;
    for (long long k = 0; code && k < 100; k++) {
        struct ArrowSchema schema;
        struct ArrowArray array;
        allocations_left = k;
        code = do_call(call, from, 0, 3, call == ENCODE ? "i" : NULL, &schema, &array, NULL);
        allocations_left = -1;
        if (code) expect("no memory", code, LAFKUNO_NO_MEMORY);
        else release_both(&schema, &array);
    }
    expect("made at last", code, 0);
    discard(from);
}

int main(void) {
    as_runs();
    and_back();
    reclaimed();
    what_is_refused();
    out_of_memory(ENCODE, fuel(unit));
    out_of_memory(EXPAND, long_run());
    out_of_memory(RECLAIM, drivers());
    return failed;
}
