/* Lafkuno for ArrowSchema and ArrowArray: joins ranges of Arrow columns, or of whole record batches, into one. The implementation is
 * bindings/c, plain C over the calls of lafkuno.h; `make` puts both into one library.
 *
 *     struct lafkuno_source trips[2] = {{&schema_a, &array_a}, {&schema_b, &array_b}};
 *     struct lafkuno_order orders[3] = {lafkuno_rows(0, 10, 20), lafkuno_gap(1), lafkuno_rows(1, 0, 5)};
 *     struct lafkuno_options options = {.keep_nulls = 1};
 *     struct lafkuno_error error;
 *     struct ArrowSchema schema;
 *     struct ArrowArray joined;
 *     if (lafkuno_join_arrays(trips, 2, orders, 3, &options, &schema, &joined, &error)) puts(error.message);
 *
 * Sources are only read: whoever owns them releases them, at any time after the call. Of each buffer only what the slice reaches is
 * read and copied, once, and memory that several sources share is copied once for all. What the caller must guarantee is what the
 * Arrow C Data Interface asks of a producer: structs that are not released, and buffers that hold what format, length and offset ask
 * for. Everything else is checked before a row is read. UTF-8 is not checked. Types are those of docs/FORMAT.md: numbers, byte strings,
 * views, lists and list-views, unions, run-end columns and dictionaries, and what is stored as numbers.
 *
 * No function keeps state: calls may run at the same time on several threads, also over the same sources. A joined array may be
 * released on any thread. Apache-2.0; see LICENSE and NOTICE. */
#ifndef LAFKUNO_ARROW_H
#define LAFKUNO_ARROW_H

#include <stddef.h>
#include <stdint.h>

#ifdef __cplusplus
extern "C" {
#endif

/* The functions that a shared library shows. */
#ifdef __GNUC__
#define LAFKUNO_API __attribute__((visibility("default")))
#else
#define LAFKUNO_API
#endif

/* The structs of the Arrow C Data Interface, as it publishes them. */
#ifndef ARROW_C_DATA_INTERFACE
#define ARROW_C_DATA_INTERFACE

#define ARROW_FLAG_DICTIONARY_ORDERED 1
#define ARROW_FLAG_NULLABLE 2
#define ARROW_FLAG_MAP_KEYS_SORTED 4

struct ArrowSchema {
    const char *format;
    const char *name;
    const char *metadata;
    int64_t flags;
    int64_t n_children;
    struct ArrowSchema **children;
    struct ArrowSchema *dictionary;
    void (*release)(struct ArrowSchema *);
    void *private_data;
};

struct ArrowArray {
    int64_t length;
    int64_t null_count;
    int64_t offset;
    int64_t n_buffers;
    int64_t n_children;
    const void **buffers;
    struct ArrowArray **children;
    struct ArrowArray *dictionary;
    void (*release)(struct ArrowArray *);
    void *private_data;
};

#endif

/* A column, or a record batch as a struct array. */
struct lafkuno_source {
    const struct ArrowSchema *schema;
    const struct ArrowArray *array;
};

/* The source of an order of nulls. */
#define LAFKUNO_GAP UINT32_MAX

/* An order: rows start to end - 1 of a source; or, where the source is LAFKUNO_GAP, end - start nulls. */
struct lafkuno_order {
    uint32_t source;
    uint64_t start;
    uint64_t end;
};

/* The order of rows start to end - 1 of a source. */
static inline struct lafkuno_order lafkuno_rows(uint32_t source, uint64_t start, uint64_t end) {
    struct lafkuno_order order = {source, start, end};
    return order;
}

/* The order of n nulls. */
static inline struct lafkuno_order lafkuno_gap(uint64_t n) {
    struct lafkuno_order order = {LAFKUNO_GAP, 0, n};
    return order;
}

/* The most rows at a node where the caller sets no limit. */
#define LAFKUNO_MOST_ROWS ((uint64_t)1 << 32)

/* All zeros, or no options at all (NULL), is the common case. */
struct lafkuno_options {
    int keep_nulls;       /* not 0: orders of nulls are taken even where no source has a null */
    int one_run_for_gaps; /* not 0: nulls lengthen the last run of a run-end node where orders of nulls alone have written it */
    uint64_t most_rows;   /* the most rows that any node may come to, by a bound that is computed first; 0: LAFKUNO_MOST_ROWS */
};

/* What a call answers: 0, a ground of lafkuno.h (1 to 99), or one of these. */
enum lafkuno_failure {
    LAFKUNO_NO_MEMORY = 100,
    LAFKUNO_BAD_STRUCT = 101,   /* a struct that is released, or that breaks the Arrow C Data Interface */
    LAFKUNO_TOO_MUCH_WORK = 102 /* the rows of a node may pass options.most_rows */
};

#define LAFKUNO_MESSAGE 512

/* Why a call was refused, and where. A number that does not apply is -1; after a call that answers 0 all are, and code is 0. */
struct lafkuno_error {
    int code;         /* what the call answered */
    int64_t column;   /* of the batches, from 0 on */
    int64_t source;   /* of the sources */
    int64_t order;    /* of the orders */
    int64_t node;     /* of the column, in depth-first order; 0 is the column itself */
    int64_t row;      /* at which an order stopped, within the range that the node was handed */
    uint64_t found;   /* for a ceiling or a bound that is passed, an offset or a run end that does not fit: what was found or needed ... */
    uint64_t allowed; /* ... and the most that is allowed; else two zeros */
    char message[LAFKUNO_MESSAGE]; /* all of it in words */
};

/* Joins columns: the orders, one after the other, over `count` sources of one type. Answers 0 and writes schema and array, or answers
 * error->code and writes nothing else: all orders are carried out, or none.
 *   orders    order_count of them.
 *   options   may be NULL.
 *   schema    may be NULL. The type of the result, with names, metadata and flags of source 0. A field is nullable where it is in any
 *             source, and the column (of runs: their values too) where options.keep_nulls is set.
 *   array     the result, of offset 0; it owns its memory. Whoever takes schema and array calls the release callback of each.
 *   error     may be NULL. */
LAFKUNO_API int lafkuno_join_arrays(const struct lafkuno_source *sources, size_t count, const struct lafkuno_order *orders,
                                    size_t order_count, const struct lafkuno_options *options, struct ArrowSchema *schema,
                                    struct ArrowArray *array, struct lafkuno_error *error);

/* Joins record batches, struct arrays of the same columns: the same orders over every column, all or none. Columns are matched by
 * place; names that differ are types that differ. A null order adds nulls to every column, and a null struct where a source has a null
 * struct, or options.keep_nulls is set and a source's struct is nullable. Parameters as above. */
LAFKUNO_API int lafkuno_join_batches(const struct lafkuno_source *batches, size_t count, const struct lafkuno_order *orders,
                                     size_t order_count, const struct lafkuno_options *options, struct ArrowSchema *schema,
                                     struct ArrowArray *array, struct lafkuno_error *error);

/* A column's rows in another type. In other widths: byte strings, lists and list-views with offsets of 32 or 64 bits, run ends of 16, 32 or 64, keys
 * of any integer format, each node by itself; or a list as a list-view of the same width and back, at the root. Rows read as before. The parts of
 * lists, list-views and unions that the rows do not reach are left out, as in a join. Answers 0 and writes schema and array, or answers error->code
 * and writes nothing else: 10 for a type that differs in more, 6, 7 or 8 where an offset or size, a run end or the entry count less one does not fit.
 *   type      the type of the result, with its names and metadata; flags below the root are the column's own.
 *   options   may be NULL. Of them most_rows counts, where list-views become lists: their rows may overlap.
 *   schema    may be NULL: a copy of type, nullable where the column is.
 *   array     the result, of offset 0; it owns its memory. */
LAFKUNO_API int lafkuno_convert_array(const struct lafkuno_source *source, const struct ArrowSchema *type, const struct lafkuno_options *options,
                                      struct ArrowSchema *schema, struct ArrowArray *array, struct lafkuno_error *error);

/* Rows start to end - 1 of a column of numbers (of dates, times and the like too) as a run-end column: the fewest runs that read the same.
 * Answers 0 and writes schema and array, or answers error->code and writes nothing else: 10 for another column, 2 for a range outside it, 7
 * for one longer than the largest run end.
 *   ends      the format of the run ends: "s", "i" or "l"; NULL stands for "i".
 *   schema    may be NULL. Name, metadata and nullability are the column's; its children are `run_ends` and `values`, which have the column's
 *             format. Where the column is an extension type, the values are.
 *   array     the result, of offset 0; it owns its memory. */
LAFKUNO_API int lafkuno_encode_array(const struct lafkuno_source *source, uint64_t start, uint64_t end, const char *ends,
                                     struct ArrowSchema *schema, struct ArrowArray *array, struct lafkuno_error *error);

/* Rows start to end - 1 of a run-end column of numbers as plain rows. Answers 0 and writes schema and array, or answers error->code and
 * writes nothing else: 10 for another column, 2 for a range outside it.
 *   options   may be NULL. Of them most_rows counts: a run may stand for any number of rows.
 *   schema    may be NULL. The values' type with the column's name, and its metadata unless the values are an extension type.
 *   array     the result, of offset 0; it owns its memory. */
LAFKUNO_API int lafkuno_expand_array(const struct lafkuno_source *source, uint64_t start, uint64_t end, const struct lafkuno_options *options,
                                     struct ArrowSchema *schema, struct ArrowArray *array, struct lafkuno_error *error);

/* A dictionary column with only the entries that some valid key of its rows names, in their old order, and its keys renumbered; keys under
 * nulls become 0, and rows read as before. Answers 0 and writes schema, which is the column's, and array, or answers error->code and writes
 * nothing else: 10 for a column without a dictionary at its root.
 *   schema    may be NULL.
 *   array     the result, of offset 0; it owns its memory. */
LAFKUNO_API int lafkuno_reclaim_array(const struct lafkuno_source *source, struct ArrowSchema *schema, struct ArrowArray *array,
                                      struct lafkuno_error *error);

/* Another ArrowArray over the memory of one that a call above made (else LAFKUNO_BAD_STRUCT): each is released by itself, in any order
 * and on any thread. Answers 0 and writes copy, or LAFKUNO_NO_MEMORY. */
LAFKUNO_API int lafkuno_share_array(const struct ArrowArray *array, struct ArrowArray *copy);

/* A copy of a schema with all that it holds, whoever made it. Answers 0 and writes copy, LAFKUNO_NO_MEMORY or LAFKUNO_BAD_STRUCT. */
LAFKUNO_API int lafkuno_copy_schema(const struct ArrowSchema *schema, struct ArrowSchema *copy);

/* What a number that a call answers means, in one line. */
LAFKUNO_API const char *lafkuno_meaning(int code);

/* LAFKUNO_VERSION of the library that is linked. */
LAFKUNO_API const char *lafkuno_version(void);

#ifdef __cplusplus
}
#endif

#endif
