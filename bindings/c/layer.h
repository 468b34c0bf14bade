/* What the files of the C layer share; nothing here is for users. A join of columns runs in this order:
 *   shape.c     counts nodes and looks whether the structs can be read at all
 *   import.c    fills the tables of every source with the window that its slice reaches (windows.c: of children and data buffers)
 *   lay.c       copies the windows into one body, memory that is shared once
 *   bound.c     the most rows that the orders can come to
 *   join.c      the calls of lafkuno.h (diagnose.c: which row of a source is refused)
 *   anew.c      what calls share that write one column anew: in another type (convert.c), as runs, as plain rows, or with fewer dictionary
 *               entries (codings.c)
 *   export.c    the finished ArrowArray; schema.c its type */
#ifndef LAFKUNO_LAYER_H
#define LAFKUNO_LAYER_H

#include <lafkuno_arrow.h>
#include <lafkuno_tables.h>
#include <stdbool.h>

#ifdef __GNUC__
#define LIKE_PRINTF(text, values) __attribute__((format(printf, text, values)))
#else
#define LIKE_PRINTF(text, values)
#endif

typedef lafkuno_position position;

enum {
    MOST_DEPTH = 8,
    MOST_FIELDS = 16, /* of a union */
    MOST_DATA = 32,   /* data buffers of a view node */
    LINE = 64         /* buffers of a body begin where they began in a line of this many bytes */
};

/* ---- formats.c */

enum kind { NOT_TAKEN, FIXED, STRING, VIEW, LIST, LIST_VIEW, SPARSE, DENSE, RUNS };

struct format {
    enum kind kind;
    unsigned width; /* the bytes of a number, an offset, a size or a view; of a union's or run-end node 0 */
};

/* The format as which a logical type is stored: the same where it is none. */
const char *storage_of(const char *format);
/* The kind of a storage format. */
struct format format_of(const char *format);
/* Which child each id of a union's format names, -1 where none; false where the ids can't be read. */
bool union_children(const char *format, int8_t child_of[256]);
/* The number of `width` bytes at `from`, with its sign. */
int64_t number_at(const void *from, uint64_t index, unsigned width);

/* ---- errors.c */

/* Where the layer is. Its numbers and names begin the message of a refusal. */
struct report {
    struct lafkuno_error *error;
    const char *column;             /* the column's name */
    const struct ArrowSchema *node; /* of error->node */
    const struct lafkuno_order *order;
};

/* No place yet. `spare` is written where the caller wants no error. */
struct report report_to(struct lafkuno_error *error, struct lafkuno_error *spare);
/* Writes the error, and answers its code. */
LIKE_PRINTF(3, 4) int refuse(struct report *report, int code, const char *text, ...);
/* The same in the words of lafkuno_meaning. */
int refuse_plainly(struct report *report, int code);
int refuse_memory(struct report *report);
/* The same, with what was found and the most that is allowed. */
int refuse_above(struct report *report, int code, uint64_t found, uint64_t allowed, const char *what);
void at_source(struct report *report, int64_t source);
void at_node(struct report *report, int64_t node, const struct ArrowSchema *schema);
void at_order(struct report *report, int64_t number, const struct lafkuno_order *order);

/* ---- shape.c */

/* What the tables must hold. */
struct shape {
    uint64_t nodes, format_bytes, data_buffers;
};

/* Rows of an array: `first` is counted from the array's own offset. */
struct window {
    uint64_t first, rows;
};

/* Looks whether the structs fit each other, are of types that are taken and below the ceilings (9, 10 or LAFKUNO_BAD_STRUCT), and adds
 * what they need to the shape. */
int shape_of(struct report *report, const struct lafkuno_source *source, struct shape *shape);
/* Whether two sources have the same logical types (11), which the calls of lafkuno.h don't see. */
int same_types(struct report *report, const struct ArrowSchema *first, const struct ArrowSchema *other);

/* ---- import.c, windows.c, lay.c */

/* How the bytes of a buffer are changed as they are laid. */
enum change { AS_THEY_ARE, LESS_FIRST, LIST_VIEW_OFFSETS, DENSE_POSITIONS, VIEWS };

/* What is subtracted, so that what a window does not reach need not be laid. */
struct rewrite {
    const uint8_t *beside;       /* list-view: the sizes; dense union: the ids; view: the validity, or NULL */
    uint64_t first;              /* subtracted from offsets; for views, where the validity's bits begin */
    uint64_t child[MOST_FIELDS]; /* of a dense union: subtracted from the positions in each child */
    const char *format;          /* of a dense union */
    size_t spans;                /* of a view node: its first span */
    uint64_t span_count;
};

/* Bytes of a source, and the pair of numbers that says where they are laid. */
struct stretch {
    const uint8_t *from;
    uint64_t bytes;
    position *place;
    enum change change;
    unsigned width;
    size_t node;
};

/* What of a data buffer is reached, and its number among those that are; UINT32_MAX where nothing is. */
struct span {
    uint64_t from, to;
    uint32_t number;
};

/* How the rows of a node spread to its children. */
struct spread {
    uint64_t largest, sum; /* of the sizes of a list or list-view */
    bool again;            /* list-view or dense union: rows of a child may be reached twice */
};

/* The tables of the sources while they are filled; one block of memory. */
struct import {
    struct report *report;
    void *block;
    size_t source_count, node_count, formats_len, buffer_count, stretch_count, span_count;
    uint32_t *sources, *schema;
    uint64_t *lengths;
    position *places, *buffers;
    uint8_t *formats;
    const struct ArrowSchema **schemas; /* of each node */
    struct rewrite *rewrites;           /* of each node */
    struct spread *spreads;             /* of each node */
    uint64_t *firsts;                   /* of each node: the row of its array that is row 0 here */
    struct stretch *stretches;
    struct span *spans;
    uint8_t *body;
    uint64_t body_len;
};

/* Room for what the shape asks. */
int import_begin(struct import *import, struct report *report, size_t sources, const struct shape *shape);
/* The rows of a source behind the sources before it. */
int import_source(struct import *import, const struct lafkuno_source *source, struct window rows);
void import_end(struct import *import);
/* The tables as they are lent. */
struct lafkuno_tables import_tables(const struct import *import);

/* A node while it is imported. */
struct node {
    const struct ArrowSchema *schema;
    const struct ArrowArray *array;
    struct format format;
    size_t index;          /* in the tables */
    uint64_t rows, offset; /* the window, from the array's first slot on */
    uint64_t cut;          /* slots in front that are not laid, a multiple of 8 */
    bool in_dictionary;
};

/* The bytes of buffer `b` of a node, from the cut on: `entries` of the node's width. */
int want_entries(struct import *import, const struct node *node, int64_t b, uint64_t entries, unsigned width, position *place,
                 enum change change);
/* Bytes anywhere. */
int want(struct import *import, const struct node *node, const void *from, uint64_t bytes, position *place);

/* What is reached of the children of a list, a list-view, a dense union and a run-end node; and the buffers that are changed by that. */
int import_list(struct import *import, const struct node *node, struct window *child);
int import_list_view(struct import *import, const struct node *node, struct window *child);
int import_dense(struct import *import, const struct node *node, struct window *children);
int runs_window(struct import *import, const struct node *node, struct window *child);
int import_views(struct import *import, const struct node *node);

/* Lays every stretch into one body. */
int lay(struct import *import);

/* One past the last node of the subtree of a node. */
uint32_t subtree_end(const struct import *import, uint32_t node);

/* ---- diagnose.c */

/* Ground 12 of a node, with the row that breaks its rule. */
int refuse_node(const struct import *import, uint32_t node);

/* ---- bound.c */

/* Refuses with LAFKUNO_TOO_MUCH_WORK where a node may come to more than `most` rows. */
int bound_rows(const struct import *import, const struct lafkuno_order *orders, size_t order_count, uint64_t most);

/* ---- join.c */

/* One column on its way. */
struct column {
    struct report *report;
    struct import import;
    struct lafkuno_tables tables;
    struct lafkuno_state state;
    const struct ArrowSchema *type; /* source 0's */
    bool keep, gaps;
};

/* The orders of a call, with its options. */
struct task {
    const struct lafkuno_order *orders;
    size_t order_count;
    bool keep, gaps;
    uint64_t most_rows;
};

struct task task_of(const struct lafkuno_order *orders, size_t order_count, const struct lafkuno_options *options);
/* Imports the rows of each source, checks them, and measures the orders. */
int column_prepare(struct column *column, struct report *report, const struct lafkuno_source *sources, const struct window *windows,
                   size_t count, const struct task *task);
/* Carries the orders out. */
int column_finish(struct column *column, const struct task *task, struct ArrowArray *array);
void column_end(struct column *column);

/* Tells of the sources the one that is refused, and its node. */
int refuse_sources(struct column *column, int code);
/* The room of all parts. */
int lend_room(struct column *column);
/* The tables of the finished array of so many nodes, in one block that is `tables->lengths`. */
int finish_tables(struct column *column, size_t nodes, struct lafkuno_finished *tables);

/* ---- anew.c */

/* The nodes of a type in depth-first order. */
struct type {
    const struct ArrowSchema *nodes[LAFKUNO_MOST_NODES];
    uint32_t count;
};

/* A column, and the type that it is to become, whose nodes stand behind its own in `formats` and `schema`. */
struct anew {
    struct column column;
    const struct ArrowSchema *from, *to;
    struct shape shape;
    struct type type;
    uint8_t *formats;
    uint32_t *schema;
    struct lafkuno_tables tables; /* the column's, with the type */
};

/* The limit of rows that the options set. */
uint64_t most_rows_of(const struct lafkuno_options *options);
/* Looks whether the structs of the column can be read, and those of the type, where there is one. */
int anew_shape(struct anew *anew, const struct lafkuno_source *source);
int anew_type(struct anew *anew, const struct ArrowSchema *type);
/* Imports the rows of the column, and lends the type behind it. */
int anew_import(struct anew *anew, const struct lafkuno_source *source, struct window rows);
/* Tells of 9, 10 and 12 the node, where they are the column's own; else answers 0. */
int anew_refuse(struct anew *anew, uint8_t ground);
void anew_end(struct anew *anew);

/* ---- export.c */

/* Memory of 64 bytes' alignment, freed by `free`; NULL where there is none. */
void *allocate_lines(uint64_t bytes);
/* What a finished array is made of. */
struct finished {
    struct lafkuno_finished tables;   /* with base 0 */
    bool copied[LAFKUNO_MOST_NODES];  /* the node's buffers are in the room; else, as those of a kept dictionary, in the body */
    uint8_t *body, *room;
};

/* The finished array, which owns room and body from now on, also where it is refused; the body goes at once where nothing names it. */
int export_array(struct report *report, const struct ArrowSchema *type, const struct finished *finished, struct ArrowArray *array);
/* The same of a column's room and body; frees the tables. */
int export_finished(struct column *column, const struct ArrowSchema *type, struct finished *finished, struct ArrowArray *array);
/* A struct array of these columns, which it owns if it is made; `own` is the column whose validity is the struct's, or NULL. */
int export_struct(struct report *report, struct ArrowArray *columns, int64_t count, struct ArrowArray *own, uint64_t rows,
                  struct ArrowArray *array);

/* ---- schema.c */

/* The type of the result. */
int export_schema(struct report *report, const struct lafkuno_source *sources, size_t count, bool keep, struct ArrowSchema *schema);
/* Marks what an order of nulls makes null. */
void mark_nullable(struct ArrowSchema *schema);
/* The value of a key of the schema's metadata, and its bytes; NULL where there is none. */
const char *metadata_value(const char *metadata, const char *key, int32_t *bytes);

#endif
