/* Lafkuno: joins ranges of Arrow columns into one column. Link with liblafkuno.a (`tools/staticlib lafkuno`).
 *
 * A call answers LAFKUNO_DONE or the number of a ground of refusal, and then has changed nothing. Whatever the numbers behind the
 * pointers are, a call ends, reads only the slices it is lent and writes only those that are not const.
 *
 * What C must guarantee, since no call can test it:
 * - each pointer leads to as many elements as the length behind it says; none is null, and where that length is 0, any aligned
 *   pointer will do;
 * - it is aligned for its type (uint64_t and double to 8, uint32_t to 4; bytes need no alignment);
 * - a slice that is written (plan, counters, room, new_*, tree, answer) overlaps no other slice of the same call;
 * - no other thread writes what a call is lent, or reads what it writes, before it returns.
 * Nothing is allocated and no pointer is kept; a call uses less than 32 KiB of stack (docs/BENCHMARKS.md). Calls on different memory may
 * run at the same time.
 *
 * The machine is little-endian with 64 bits. docs/FORMAT.md describes the tables, docs/USING.md shows a join in twenty lines.
 * Apache-2.0; see LICENSE and NOTICE. */
#ifndef LAFKUNO_H
#define LAFKUNO_H

#include <stddef.h>
#include <stdint.h>

#ifdef __cplusplus
extern "C" {
#endif

#define LAFKUNO_VERSION "0.2.0"

/* Why a call is refused. */
enum lafkuno_ground {
    LAFKUNO_DONE = 0,

    /* Whoever gives orders: */
    LAFKUNO_NO_SUCH_SOURCE = 1,         /* the source's number is not below the count of sources */
    LAFKUNO_NO_SUCH_ROWS = 2,           /* the end is before the start, or beyond the source's length; or no such row to read */
    LAFKUNO_KEEPS_NO_NULLS = 3,         /* an order of nulls, also of none, where the destination keeps no nulls */
    LAFKUNO_UNION_WITHOUT_FIELDS = 4,   /* nulls for a union without fields */
    LAFKUNO_UNION_NOT_NULLABLE = 5,     /* nulls for a union none of whose fields is nullable */

    /* Whoever has too much data: */
    LAFKUNO_OFFSET_TOO_LARGE = 6,       /* an offset or a dense union's position does not fit its type */
    LAFKUNO_RUN_END_TOO_LARGE = 7,      /* a run end does not fit its type */
    LAFKUNO_TOO_MANY_ENTRIES = 8,       /* the dictionary has more entries than its keys can name */

    /* Whoever prepares sources: */
    LAFKUNO_CEILING_PASSED = 9,         /* no source; more than 16 sources, 32 nodes, depth 8, 16 union fields, 32 data buffers a
                                           view node or 2^63-1 bytes a body; a negative length or offset; more than
                                           256 orders in a list */
    LAFKUNO_UNKNOWN_TYPE = 10,          /* a format, a number of children or a union's ids that are not taken */
    LAFKUNO_TYPES_DIFFER = 11,          /* formats, or flags of nodes other than the root and dictionary values */
    LAFKUNO_BAD_SOURCE = 12,            /* a source breaks the rules of its type, or a table is too short for it */

    /* Whoever lends room: */
    LAFKUNO_ROOM_TOO_SMALL = 13,        /* a part can't hold its bytes after the call */
    LAFKUNO_BAD_PARTS = 14,             /* a wrong number of parts, a part outside the room, two that overlap, a slice that is not of
                                           the size that the call asks for, or a plan that no opening wrote */

    /* Whoever has too much data: */
    LAFKUNO_SUM_TOO_LARGE = 15,         /* an exact sum is outside -2^63 to 2^63-1 */

    /* Whoever asks beside the join: */
    LAFKUNO_ZERO_DENOMINATOR = 16,      /* no row counts, or the second column's total is 0 */
    LAFKUNO_NOTHING_COUNTED = 17        /* no row of the range counts */
};

/* The state of a join: two slices of these many numbers. The opening writes both, orders change the counters alone. */
#define LAFKUNO_PLAN 872
#define LAFKUNO_COUNTERS 96
/* The tree of an opened column, a row's answer, a run's, and that of two rows. */
#define LAFKUNO_TREE 256
#define LAFKUNO_ANSWER 12
#define LAFKUNO_RUN 2
#define LAFKUNO_SAME 1
#define LAFKUNO_WHY 5

/* A list of orders: the most that it has, and the numbers of each: LAFKUNO_ORDER_COPY, the source, start and end; or LAFKUNO_ORDER_NULLS,
 * how many nulls, and two numbers that are not read. */
#define LAFKUNO_MOST_ORDERS 256
#define LAFKUNO_ORDER 4
#define LAFKUNO_ORDER_COPY 0
#define LAFKUNO_ORDER_NULLS 1
/* Of the answer to a list: the ground, and the place of the order that it is of, counted from 0. */
#define LAFKUNO_ANSWER_GROUND(answer) ((uint8_t)((answer) & 255))
#define LAFKUNO_ANSWER_PLACE(answer) ((answer) >> 8)

/* The numbers of a mean and of a ratio. */
#define LAFKUNO_MEAN 5
#define LAFKUNO_RATIO 6

/* Parameters that several calls share. X_len is how many elements X has.
 *   sources   2 numbers a source: its first node in the tables, and how many nodes it has.
 *   formats   the format strings of the Arrow C Data Interface, anywhere and in any order.
 *   schema    5 numbers a node: where its format begins in formats, its bytes, flags, children, 1 if it has a dictionary and else 0.
 *   lengths   2 numbers a node: length and offset, as two's complement.
 *   places    9 numbers a node: 1 if it has validity and else 0, start and bytes of validity, of buffer 1 and of buffer 2 in the body,
 *             its first data buffer in buffers, and how many it has.
 *   buffers   2 numbers a data buffer of a view node: where it begins in the body, its bytes.
 *   body      every buffer of every source.
 *   keep      not 0: nulls are kept, so that orders of nulls are taken, even where no source has one.
 *   gaps      not 0: one run for gaps. An order of nulls that reaches a run-end node lengthens the node's last run if an order of nulls
 *             wrote that run and nothing but orders of nulls has added to the node since; the values are then asked for nothing. 0: each
 *             such order adds a run.
 *   parts     2 numbers a part: where it begins in the room, its bytes; in the order of lafkuno_part_node.
 *   plan      LAFKUNO_PLAN numbers, as lafkuno_plan_parts or lafkuno_open wrote them.
 *   counters  LAFKUNO_COUNTERS numbers, as the last call left them.
 *   room      the bytes that the parts are in; need not be zero.
 * Every call of a join is given the sources, tables, parts and room that the opening was given, the last two as the last call left
 * them. Given others, a call is carried out whole or answers a refusal, 12 or 14 among them, and still touches nothing outside. */

/* ---- before any room is lent */

/* Checks the sources (9 to 12) and writes the plan, by which the parts can be asked. 14 where plan_len is not LAFKUNO_PLAN.
 *   plan      is written. */
uint8_t lafkuno_plan_parts(const uint32_t *sources, size_t sources_len, const uint8_t *formats, size_t formats_len,
                           const uint32_t *schema, size_t schema_len, const uint64_t *lengths, size_t lengths_len,
                           const uint64_t *places, size_t places_len, const uint64_t *buffers, size_t buffers_len,
                           const uint8_t *body, size_t body_len, uint8_t keep, uint8_t gaps, uint64_t *plan, size_t plan_len);

/* How many parts there are, at most 96. */
uint32_t lafkuno_part_count(const uint64_t *plan, size_t plan_len);

/* Of which node a part is; UINT64_MAX where there is no such part.
 *   p         the part's number. */
uint64_t lafkuno_part_node(const uint64_t *plan, size_t plan_len, uint32_t p);

/* Of which buffer of that node it is, 0 being the validity; UINT64_MAX where there is no such part.
 *   p         the part's number. */
uint64_t lafkuno_part_buffer(const uint64_t *plan, size_t plan_len, uint32_t p);

/* What an opening does to the counters: 6, 8 (or 12), or the counters are written.
 *   counters  is written; its numbers before are not read. */
uint8_t lafkuno_measure_open(const uint64_t *plan, size_t plan_len, const uint32_t *sources, size_t sources_len,
                             const uint64_t *lengths, size_t lengths_len, const uint64_t *places, size_t places_len,
                             const uint8_t *body, size_t body_len, uint64_t *counters, size_t counters_len);

/* What a copy does to the counters: its ground but for 13 and 14 of the parts, or the counters are changed.
 *   source    the number of the source.
 *   start     its first row that is copied.
 *   end       one past its last. */
uint8_t lafkuno_measure_copy(const uint64_t *plan, size_t plan_len, const uint32_t *sources, size_t sources_len,
                             const uint64_t *lengths, size_t lengths_len, const uint64_t *places, size_t places_len,
                             const uint8_t *body, size_t body_len, uint64_t *counters, size_t counters_len,
                             uint32_t source, uint64_t start, uint64_t end);

/* What an order of nulls does to the counters: its ground but for 13 and 14 of the parts, or the counters are changed.
 *   n         how many nulls. */
uint8_t lafkuno_measure_nulls(const uint64_t *plan, size_t plan_len, uint64_t *counters, size_t counters_len, uint64_t n);

/* What a list of orders does to the counters: the ground, but for 13 and 14 of the parts, and the place as lafkuno_orders answers them, or the
 * counters are changed.
 *   orders    LAFKUNO_ORDER numbers an order. */
uint32_t lafkuno_measure_orders(const uint64_t *plan, size_t plan_len, const uint32_t *sources, size_t sources_len,
                                const uint64_t *lengths, size_t lengths_len, const uint64_t *places, size_t places_len,
                                const uint8_t *body, size_t body_len, uint64_t *counters, size_t counters_len,
                                const uint64_t *orders, size_t orders_len);

/* The bytes that a part must hold for these counters, at most UINT64_MAX; 0 where there is no such part.
 *   p         the part's number. */
uint64_t lafkuno_needed_bytes(const uint64_t *plan, size_t plan_len, const uint64_t *counters, size_t counters_len, uint32_t p);

/* ---- the join */

/* Opens a join: 9, 10, 11, 12, 14, then for each dictionary 6 and 8, and 13 last.
 *   plan      is written: LAFKUNO_PLAN numbers.
 *   counters  is written: LAFKUNO_COUNTERS numbers.
 *   room      first offsets and joined dictionaries are written to their parts. */
uint8_t lafkuno_open(const uint32_t *sources, size_t sources_len, const uint8_t *formats, size_t formats_len,
                     const uint32_t *schema, size_t schema_len, const uint64_t *lengths, size_t lengths_len,
                     const uint64_t *places, size_t places_len, const uint64_t *buffers, size_t buffers_len,
                     const uint8_t *body, size_t body_len, uint8_t keep, uint8_t gaps, const uint64_t *parts, size_t parts_len,
                     uint64_t *plan, size_t plan_len, uint64_t *counters, size_t counters_len, uint8_t *room, size_t room_len);

/* Copies rows of a source behind the destination's rows: 1, 2, then 6 and 7 as they are met, and 13 last.
 *   source    the number of the source.
 *   start     its first row that is copied.
 *   end       one past its last. */
uint8_t lafkuno_copy(const uint64_t *plan, size_t plan_len, const uint64_t *parts, size_t parts_len,
                     const uint32_t *sources, size_t sources_len, const uint64_t *lengths, size_t lengths_len,
                     const uint64_t *places, size_t places_len, const uint8_t *body, size_t body_len,
                     uint64_t *counters, size_t counters_len, uint8_t *room, size_t room_len,
                     uint32_t source, uint64_t start, uint64_t end);

/* Adds nulls behind the destination's rows: 3, then 4, 5, 6 and 7 as they are met, and 13 last. It writes behind what is there; with one
 * run for gaps it may write the last run end anew.
 *   n         how many nulls. */
uint8_t lafkuno_nulls(const uint64_t *plan, size_t plan_len, const uint64_t *parts, size_t parts_len,
                      uint64_t *counters, size_t counters_len, uint8_t *room, size_t room_len, uint64_t n);

/* Carries out a list of up to LAFKUNO_MOST_ORDERS orders, all or none. Where each would be accepted when given one after the other, all are
 * carried out, and what they leave is the same; otherwise nothing is changed, and the answer has the ground of the first that is refused
 * (LAFKUNO_ANSWER_GROUND) and its place (LAFKUNO_ANSWER_PLACE). A longer list is 9 at place 0 before anything else; an empty one is
 * accepted, whatever is lent.
 *   orders    LAFKUNO_ORDER numbers an order; what is behind the last whole one is not read. A kind that is neither of the two is nulls. */
uint32_t lafkuno_orders(const uint64_t *plan, size_t plan_len, const uint64_t *parts, size_t parts_len,
                        const uint32_t *sources, size_t sources_len, const uint64_t *lengths, size_t lengths_len,
                        const uint64_t *places, size_t places_len, const uint8_t *body, size_t body_len,
                        uint64_t *counters, size_t counters_len, uint8_t *room, size_t room_len,
                        const uint64_t *orders, size_t orders_len);

/* ---- what stopped an order
 *
 * LAFKUNO_WHY numbers say it: the ground; the node in tree order, run ends and dictionary values counted; the row within the range that the
 * node was handed, from 0; and for 6, 7 and 13 the number needed, at most UINT64_MAX, and the largest allowed. Node and row are 0 where none
 * applies, the last two are 0 for any other ground, and all are 0 where nothing stops the order. The call answers the ground. It has the
 * parameters of the order, of the room its length alone, and writes nothing but the answer, which is left as it was where it is not of its
 * size. Of a single order it says 1 to 7 with no parts and no room too, since these come before 14. These calls are in liblafkuno_why.a
 * (`tools/staticlib lafkuno_why`), and in the library that `make` builds. */

/* What stops a copy.
 *   answer    LAFKUNO_WHY numbers. */
uint8_t lafkuno_why_copy(const uint64_t *plan, size_t plan_len, const uint64_t *parts, size_t parts_len,
                         const uint32_t *sources, size_t sources_len, const uint64_t *lengths, size_t lengths_len,
                         const uint64_t *places, size_t places_len, const uint8_t *body, size_t body_len,
                         const uint64_t *counters, size_t counters_len, uint64_t room,
                         uint32_t source, uint64_t start, uint64_t end, uint64_t *answer, size_t answer_len);

/* What stops an order of nulls.
 *   answer    LAFKUNO_WHY numbers. */
uint8_t lafkuno_why_nulls(const uint64_t *plan, size_t plan_len, const uint64_t *parts, size_t parts_len,
                          const uint64_t *counters, size_t counters_len, uint64_t room, uint64_t n,
                          uint64_t *answer, size_t answer_len);

/* What stops the first failing order of a list, from the counters that those before it leave; a list too long is 9 and zeros.
 *   answer    LAFKUNO_WHY numbers and the order's place. */
uint8_t lafkuno_why_orders(const uint64_t *plan, size_t plan_len, const uint64_t *parts, size_t parts_len,
                           const uint32_t *sources, size_t sources_len, const uint64_t *lengths, size_t lengths_len,
                           const uint64_t *places, size_t places_len, const uint8_t *body, size_t body_len,
                           const uint64_t *counters, size_t counters_len, uint64_t room,
                           const uint64_t *orders, size_t orders_len, uint64_t *answer, size_t answer_len);

/* Describes the finished array by tables like those of a source; its type is source 0's. 14 where a table is not of its size, 9 where
 * base is above 2^63-1. It can be lent again over a body that holds the room at base, behind the old body.
 *   base         where the room begins in the body that the new tables are about; the old body's bytes stay where they were.
 *   new_lengths  is written: 2 numbers a node of source 0.
 *   new_nulls    is written: the null count of each node, counted from the bits.
 *   new_places   is written: 9 numbers a node. View data and a kept dictionary are named by their places in the old body.
 *   new_buffers  is written: 2 numbers for each of lafkuno_buffer_total. */
uint8_t lafkuno_finish(const uint64_t *plan, size_t plan_len, const uint64_t *parts, size_t parts_len,
                       const uint32_t *sources, size_t sources_len, const uint64_t *lengths, size_t lengths_len,
                       const uint64_t *places, size_t places_len, const uint64_t *buffers, size_t buffers_len,
                       const uint8_t *body, size_t body_len, const uint64_t *counters, size_t counters_len,
                       const uint8_t *room, size_t room_len, uint64_t base, uint64_t *new_lengths, size_t new_lengths_len,
                       uint64_t *new_nulls, size_t new_nulls_len, uint64_t *new_places, size_t new_places_len,
                       uint64_t *new_buffers, size_t new_buffers_len);

/* How many data buffers the finished array names. */
uint64_t lafkuno_buffer_total(const uint64_t *plan, size_t plan_len, const uint32_t *sources, size_t sources_len,
                              const uint64_t *places, size_t places_len);

/* The running null count: nulls that were copied or ordered, also at a root that holds no validity. */
uint64_t lafkuno_running_nulls(const uint64_t *counters, size_t counters_len);

/* ---- one column */

/* The ground of one column: 9, 10 or 12.
 *   first     its first node in the tables.
 *   n         how many nodes it has. */
uint8_t lafkuno_column_ground(const uint8_t *formats, size_t formats_len, const uint32_t *schema, size_t schema_len,
                              const uint64_t *lengths, size_t lengths_len, const uint64_t *places, size_t places_len,
                              const uint64_t *buffers, size_t buffers_len, const uint8_t *body, size_t body_len,
                              uint32_t first, uint32_t n);

/* The same, then 14 where tree_len is below LAFKUNO_TREE; else writes the column's tree, over which its rows are read.
 *   first     its first node in the tables.
 *   n         how many nodes it has.
 *   tree      its first LAFKUNO_TREE numbers are written. */
uint8_t lafkuno_open_column(const uint8_t *formats, size_t formats_len, const uint32_t *schema, size_t schema_len,
                            const uint64_t *lengths, size_t lengths_len, const uint64_t *places, size_t places_len,
                            const uint64_t *buffers, size_t buffers_len, const uint8_t *body, size_t body_len,
                            uint32_t first, uint32_t n, uint64_t *tree, size_t tree_len);

/* What a row is. */
enum lafkuno_kind {
    LAFKUNO_NULL = 0,     /* also a dictionary's row whose key names a null entry */
    LAFKUNO_SIGNED = 1,   /* a whole number, as two's complement */
    LAFKUNO_UNSIGNED = 2, /* a whole number */
    LAFKUNO_SINGLE = 3,   /* the bits of an f32 */
    LAFKUNO_DOUBLE = 4,   /* the bits of an f64 */
    LAFKUNO_BYTES = 5,    /* where they begin in the body, how many */
    LAFKUNO_LIST = 6,     /* of a list or list-view: the child's node counted from the column's first, its first row, how many rows */
    LAFKUNO_REFUSED = 16  /* and above: the ground is added to it */
};

/* Reads one row of an opened column, and answers its kind; or LAFKUNO_REFUSED and a ground, and nothing is written: 2 where there is no
 * such row, then 14 where answer_len is not LAFKUNO_ANSWER. The rows of a list are those of its child, opened as a column of its own.
 *   tree      as lafkuno_open_column wrote it.
 *   first     the column's first node in the tables.
 *   row       the row's number.
 *   answer    is written: the three numbers of the kind (0 where it has fewer), how many unions are on the way to the row, and their
 *             ids in that order, 0 up to eight. */
uint8_t lafkuno_read_row(const uint64_t *tree, size_t tree_len, const uint64_t *lengths, size_t lengths_len,
                         const uint64_t *places, size_t places_len, const uint64_t *buffers, size_t buffers_len,
                         const uint8_t *body, size_t body_len, uint32_t first, uint64_t row,
                         uint64_t *answer, size_t answer_len);

/* The run of a row of a run-end column, and how many rows of the column from that one on stand in it: whoever goes through the rows asks
 * once a run. 9, 10 and 12 where the column is malformed; then 10 where it is no run-end column, 2 where there is no such row, and 14 where
 * answer_len is not LAFKUNO_RUN.
 *   first     its first node in the tables.
 *   n         how many nodes it has.
 *   row       the row's number.
 *   answer    is written: the run, counted from the first run end, and how many rows are left in it, at least 1 and none past the
 *             column's last. */
uint8_t lafkuno_run_at(const uint8_t *formats, size_t formats_len, const uint32_t *schema, size_t schema_len,
                       const uint64_t *lengths, size_t lengths_len, const uint64_t *places, size_t places_len,
                       const uint64_t *buffers, size_t buffers_len, const uint8_t *body, size_t body_len,
                       uint32_t first, uint32_t n, uint64_t row, uint64_t *answer, size_t answer_len);

/* The same of an opened column, which is not checked again.
 *   tree      as lafkuno_open_column wrote it.
 *   first     the column's first node in the tables.
 *   row       the row's number.
 *   answer    is written as by lafkuno_run_at. */
uint8_t lafkuno_read_run(const uint64_t *tree, size_t tree_len, const uint64_t *lengths, size_t lengths_len,
                         const uint64_t *places, size_t places_len, const uint8_t *body, size_t body_len,
                         uint32_t first, uint64_t row, uint64_t *answer, size_t answer_len);

/* Whether two rows read the same, of columns of numbers (c C s S i I l L f g, no keys) or run-end columns of such values: whole numbers by their
 * value, whatever their widths; floats by their bits, so that -0.0 is not 0.0, and a NaN is the same as one of the same bits; a null as a null,
 * whatever stands under it. A whole number, an f32 and an f64 are never the same. 9, 10 and 12 for a malformed column, then 2 for a row that is
 * not below its column's length, 10 for a column that is not one of numbers, each asked of both columns before the next; last 14 where answer_len
 * is not LAFKUNO_SAME.
 *   first_a   the first node of a column; n_a, how many nodes it has; row_a, its row.
 *   first_b   the first node of another, or of the same; n_b, how many nodes it has; row_b, its row.
 *   answer    is written: 1 where they read the same, else 0. */
uint8_t lafkuno_same_row(const uint8_t *formats, size_t formats_len, const uint32_t *schema, size_t schema_len,
                         const uint64_t *lengths, size_t lengths_len, const uint64_t *places, size_t places_len,
                         const uint64_t *buffers, size_t buffers_len, const uint8_t *body, size_t body_len,
                         uint32_t first_a, uint32_t n_a, uint32_t first_b, uint32_t n_b, uint64_t row_a, uint64_t row_b,
                         uint64_t *answer, size_t answer_len);

/* ---- beside the join */

/* The frame of the rows start .. end - 1 of a latitude and a longitude column, both of format g. Rows where either is null or not a
 * number don't count; of equal values the first stays. 9, 10 and 12 for a malformed column, then 2 for a range outside either column, 10 for
 * a column that is not of f64, 17 where no row counts, each asked of both columns before the next; last 14 where room_len is not 4.
 *   first_a   the first node of the latitudes; n_a, how many nodes they have.
 *   first_b   the first node of the longitudes; n_b, how many nodes they have.
 *   room      is written: smallest and largest latitude, smallest and largest longitude. */
uint8_t lafkuno_frame(const uint8_t *formats, size_t formats_len, const uint32_t *schema, size_t schema_len,
                      const uint64_t *lengths, size_t lengths_len, const uint64_t *places, size_t places_len,
                      const uint64_t *buffers, size_t buffers_len, const uint8_t *body, size_t body_len,
                      uint32_t first_a, uint32_t n_a, uint32_t first_b, uint32_t n_b, uint64_t start, uint64_t end,
                      double *room, size_t room_len);

/* The frame of two ranges from the frames of both; of equal sides the left one's stays. 14 where one of the three has not 4 numbers.
 *   left      as lafkuno_frame wrote it.
 *   right     likewise.
 *   room      is written. */
uint8_t lafkuno_join_frames(const double *left, size_t left_len, const double *right, size_t right_len,
                            double *room, size_t room_len);

/* ---- exact sums of whole-number columns, or of run-end columns of whole-number values */

/* The count of the rows start .. end - 1 that are not null, their exact sum, and the mean in lowest terms. Grounds: 9, 10 or 12 of the
 * column; then 2, 10 (no column of whole numbers), 15 and 16; last 14 where answer_len is not LAFKUNO_MEAN. Nothing is written then.
 *   first, n  the column's first node in the tables and how many nodes it has.
 *   answer    is written: the count, the sum as two's complement, 1 for minus (else 0), and the fraction's two magnitudes, of which the
 *             second is above 0; zero is 0, 0, 1. */
uint8_t lafkuno_mean(const uint8_t *formats, size_t formats_len, const uint32_t *schema, size_t schema_len,
                     const uint64_t *lengths, size_t lengths_len, const uint64_t *places, size_t places_len,
                     const uint64_t *buffers, size_t buffers_len, const uint8_t *body, size_t body_len,
                     uint32_t first, uint32_t n, uint64_t start, uint64_t end, uint64_t *answer, size_t answer_len);

/* Total over total of two columns of the same tables, over the rows start .. end - 1 in which both are not null. The grounds are those of
 * lafkuno_mean, each asked of both columns before the next; 14 where answer_len is not LAFKUNO_RATIO.
 *   answer    is written: the count, both totals as two's complement, 1 for minus, and the fraction's two magnitudes. */
uint8_t lafkuno_ratio(const uint8_t *formats, size_t formats_len, const uint32_t *schema, size_t schema_len,
                      const uint64_t *lengths, size_t lengths_len, const uint64_t *places, size_t places_len,
                      const uint64_t *buffers, size_t buffers_len, const uint8_t *body, size_t body_len,
                      uint32_t first_a, uint32_t n_a, uint32_t first_b, uint32_t n_b, uint64_t start, uint64_t end,
                      uint64_t *answer, size_t answer_len);

/* ---- one column written anew: these calls are in liblafkuno_anew.a (`tools/staticlib lafkuno_anew`), and in the library that `make` builds */

/* Before any room is lent: the runs of the rows start .. end - 1 of a fixed-width column. 9, 10 and 12 for a malformed column, then 10 for
 * any other column or another target, 2 for a range outside the column, 7 for one longer than the largest run end (32767 for s); last 14
 * where plan and counters have not LAFKUNO_PLAN and LAFKUNO_COUNTERS numbers. lafkuno_part_count, lafkuno_part_node, lafkuno_part_buffer and
 * lafkuno_needed_bytes then say what parts to lend.
 *   first, n  the column's first node in the tables and how many nodes it has.
 *   target    the first of three nodes of the same schema: +r, its run ends (s, i or l), and the column's own format.
 *   plan      is written, and so is counters, where the answer is 0. */
uint8_t lafkuno_plan_encode(const uint8_t *formats, size_t formats_len, const uint32_t *schema, size_t schema_len,
                            const uint64_t *lengths, size_t lengths_len, const uint64_t *places, size_t places_len,
                            const uint64_t *buffers, size_t buffers_len, const uint8_t *body, size_t body_len,
                            uint32_t first, uint32_t n, uint32_t target, uint64_t start, uint64_t end,
                            uint64_t *plan, size_t plan_len, uint64_t *counters, size_t counters_len);

/* Writes them: the same grounds, with 14 of the parts and then 13 last. What it leaves is finished by lafkuno_finish, with first and n as the
 * only source. Rows belong to one run where they are neighbours and read equal; a null slot is zeros. A refusal changes nothing.
 *   parts     as for lafkuno_open.
 *   room      is written. */
uint8_t lafkuno_encode(const uint8_t *formats, size_t formats_len, const uint32_t *schema, size_t schema_len,
                       const uint64_t *lengths, size_t lengths_len, const uint64_t *places, size_t places_len,
                       const uint64_t *buffers, size_t buffers_len, const uint8_t *body, size_t body_len,
                       uint32_t first, uint32_t n, uint32_t target, uint64_t start, uint64_t end, const uint64_t *parts, size_t parts_len,
                       uint64_t *plan, size_t plan_len, uint64_t *counters, size_t counters_len, uint8_t *room, size_t room_len);

/* Before any room is lent: the rows start .. end - 1 of a run-end column of fixed-width values, as plain rows. 9, 10 and 12 for a malformed
 * column, then 10 for any other column or another target, 2 for a range outside the column; last 14 as for lafkuno_plan_encode.
 *   target    a node of the same schema of the values' format; the column's own node first + 2 is one.
 *   plan      is written, and so is counters, where the answer is 0. */
uint8_t lafkuno_plan_expand(const uint8_t *formats, size_t formats_len, const uint32_t *schema, size_t schema_len,
                            const uint64_t *lengths, size_t lengths_len, const uint64_t *places, size_t places_len,
                            const uint64_t *buffers, size_t buffers_len, const uint8_t *body, size_t body_len,
                            uint32_t first, uint32_t n, uint32_t target, uint64_t start, uint64_t end,
                            uint64_t *plan, size_t plan_len, uint64_t *counters, size_t counters_len);

/* Writes them: the same grounds, with 14 of the parts and then 13 last; finished by lafkuno_finish. A refusal changes nothing. */
uint8_t lafkuno_expand(const uint8_t *formats, size_t formats_len, const uint32_t *schema, size_t schema_len,
                       const uint64_t *lengths, size_t lengths_len, const uint64_t *places, size_t places_len,
                       const uint64_t *buffers, size_t buffers_len, const uint8_t *body, size_t body_len,
                       uint32_t first, uint32_t n, uint32_t target, uint64_t start, uint64_t end, const uint64_t *parts, size_t parts_len,
                       uint64_t *plan, size_t plan_len, uint64_t *counters, size_t counters_len, uint8_t *room, size_t room_len);

/* A dictionary column with only the entries that some valid key of its rows names, each copied as an order copies it, in their old order, and
 * its keys renumbered; keys under nulls become 0, and every row reads as before. lafkuno_plan_reclaim is asked before any room is lent: 9, 10 or
 * 12 of the column, then 10 where it is no dictionary, and 14 where plan or counters have not their numbers. Then lafkuno_part_count,
 * lafkuno_part_node, lafkuno_part_buffer and lafkuno_needed_bytes say what room the result needs: the entries have parts, and a node has one for
 * its validity exactly where the column's own node has a null.
 *   first, n  the column's first node in the tables and how many nodes it has.
 *   plan      is written: LAFKUNO_PLAN numbers.
 *   counters  is written: LAFKUNO_COUNTERS numbers. */
uint8_t lafkuno_plan_reclaim(const uint8_t *formats, size_t formats_len, const uint32_t *schema, size_t schema_len,
                             const uint64_t *lengths, size_t lengths_len, const uint64_t *places, size_t places_len,
                             const uint64_t *buffers, size_t buffers_len, const uint8_t *body, size_t body_len,
                             uint32_t first, uint32_t n, uint64_t *plan, size_t plan_len, uint64_t *counters, size_t counters_len);

/* Writes it: 9 also where the room is too large, then the grounds of the question, 14 of the parts, and 13 last. lafkuno_finish finishes the
 * result, with first and n as its one source. It takes one pass over the rows for each 512 entries, and no memory but what is lent.
 *   parts     as for lafkuno_open.
 *   plan      is written; its numbers before are not read.
 *   counters  likewise.
 *   room      is written in the parts. */
uint8_t lafkuno_reclaim(const uint8_t *formats, size_t formats_len, const uint32_t *schema, size_t schema_len,
                        const uint64_t *lengths, size_t lengths_len, const uint64_t *places, size_t places_len,
                        const uint64_t *buffers, size_t buffers_len, const uint8_t *body, size_t body_len,
                        uint32_t first, uint32_t n, const uint64_t *parts, size_t parts_len, uint64_t *plan, size_t plan_len,
                        uint64_t *counters, size_t counters_len, uint8_t *room, size_t room_len);

/* ---- a list as a list-view, and back */

/* Before any room is lent: the rows of a list-view column as a list of the same width. Its child is laid out anew by one copy for each valid row,
 * in row order; a null row is an empty stretch. 9, 10 and 12 for a malformed column, then 10 for any other column or another target; row by row 6
 * for an offset that does not fit, before that row's child, and 6 or 7 for what the child's copy meets; last 14 where plan and counters have not
 * LAFKUNO_PLAN and LAFKUNO_COUNTERS numbers. A dictionary below is kept without a part, however many entries it has. Rows of list-views may overlap
 * and nested ones multiply: a small column can ask for more rows than any machine could copy.
 *   first, n          the column's first node in the tables and how many nodes it has.
 *   target, target_n  the result's type in the same schema, likewise: +l for +vl, +L for +vL, and below it the column's own types and flags, of
 *                     which that of the child itself may differ, as the root's may.
 *   plan              is written, and so is counters, where the answer is 0. */
uint8_t lafkuno_plan_list(const uint8_t *formats, size_t formats_len, const uint32_t *schema, size_t schema_len,
                          const uint64_t *lengths, size_t lengths_len, const uint64_t *places, size_t places_len,
                          const uint64_t *buffers, size_t buffers_len, const uint8_t *body, size_t body_len,
                          uint32_t first, uint32_t n, uint32_t target, uint32_t target_n, uint64_t *plan, size_t plan_len,
                          uint64_t *counters, size_t counters_len);

/* Writes it: 9 also where the room is too large, then the grounds of the question, 14 of the parts, and 13 last. A refusal changes nothing.
 * lafkuno_finish finishes the result, with first and n as its one source: target_n nodes, which can be lent again over a body that has the room
 * behind the old body.
 *   parts     as for lafkuno_open.
 *   plan      is written; its numbers before are not read, nor are those of counters.
 *   room      is written in the parts. */
uint8_t lafkuno_list(const uint8_t *formats, size_t formats_len, const uint32_t *schema, size_t schema_len,
                     const uint64_t *lengths, size_t lengths_len, const uint64_t *places, size_t places_len,
                     const uint64_t *buffers, size_t buffers_len, const uint8_t *body, size_t body_len,
                     uint32_t first, uint32_t n, uint32_t target, uint32_t target_n, const uint64_t *parts, size_t parts_len,
                     uint64_t *plan, size_t plan_len, uint64_t *counters, size_t counters_len,
                     uint8_t *room, size_t room_len);

/* Before any room is lent: a list column as a list-view of the same width over the same child, each row's offset and size kept, null rows' too. 9, 10
 * and 12 for a malformed column, then 10 for any other column or another target (+vl for +l, +vL for +L); last 14 as for lafkuno_plan_list. The
 * child is not copied: the plan has the root alone, whose parts are its validity, where the column has a null, its offsets and its sizes. */
uint8_t lafkuno_plan_list_view(const uint8_t *formats, size_t formats_len, const uint32_t *schema, size_t schema_len,
                               const uint64_t *lengths, size_t lengths_len, const uint64_t *places, size_t places_len,
                               const uint64_t *buffers, size_t buffers_len, const uint8_t *body, size_t body_len,
                               uint32_t first, uint32_t n, uint32_t target, uint32_t target_n, uint64_t *plan, size_t plan_len,
                               uint64_t *counters, size_t counters_len);

/* Writes the root: the grounds of lafkuno_list. lafkuno_finish describes it, with first and n as the one source, in tables of one node: 2 lengths, 1
 * null count, 9 places and no data buffer. They are the front of tables of n nodes, whose others lafkuno_list_view_child writes. */
uint8_t lafkuno_list_view(const uint8_t *formats, size_t formats_len, const uint32_t *schema, size_t schema_len,
                          const uint64_t *lengths, size_t lengths_len, const uint64_t *places, size_t places_len,
                          const uint64_t *buffers, size_t buffers_len, const uint8_t *body, size_t body_len,
                          uint32_t first, uint32_t n, uint32_t target, uint32_t target_n, const uint64_t *parts, size_t parts_len,
                          uint64_t *plan, size_t plan_len, uint64_t *counters, size_t counters_len,
                          uint8_t *room, size_t room_len);

/* The nodes below the root of the list column as those of its list-view, behind the finished root: lengths, null counts from their bits, and places as
 * the column's tables have them; a validity without a zero bit is not named. Their data buffers are those of the column's own table of buffers, and
 * the result has the types of target over a body that holds the room at base, behind the old body. 9, 10 and 12 for a malformed column, then 14 where
 * a table has not the numbers of n nodes. A refusal changes nothing.
 *   first, n     the list column, as it was given to lafkuno_list_view.
 *   new_lengths  2 n numbers, of which all but the first two are written.
 *   new_nulls    n numbers, of which all but the first are written.
 *   new_places   9 n numbers, of which all but the first nine are written. */
uint8_t lafkuno_list_view_child(const uint8_t *formats, size_t formats_len, const uint32_t *schema, size_t schema_len,
                                const uint64_t *lengths, size_t lengths_len, const uint64_t *places, size_t places_len,
                                const uint64_t *buffers, size_t buffers_len, const uint8_t *body, size_t body_len,
                                uint32_t first, uint32_t n, uint64_t *new_lengths, size_t new_lengths_len,
                                uint64_t *new_nulls, size_t new_nulls_len, uint64_t *new_places, size_t new_places_len);

/* ---- other widths of offsets, sizes, run ends and keys */

/* Before any room is lent: a column in other widths, wider or narrower: byte strings, lists and list-views with offsets of 32 or 64 bits, run ends of
 * s, i or l, keys of any integer format, each node by itself. The result is laid out as by one copy of the column's rows, save that a list-view or
 * dense union keeps its children's rows, offsets, sizes and positions as they are; keys under nulls become 0, and all entries are copied into parts.
 * 9, 10 and 12 for a malformed column, then 10 for a target that differs in more than these widths; in tree order 6, 7 or 8 where in the result an
 * offset or size, null rows' too, a run end, or the entry count less one (at least 0) does not fit; last 14 where plan and counters have not
 * LAFKUNO_PLAN and LAFKUNO_COUNTERS numbers. A column that was widened, laid with its view buffers in one body, is narrowed back where each
 * dictionary's entry count less one fits its first key type.
 *   first, n          the column's first node in the tables and how many nodes it has.
 *   target, target_n  the result's type in the same schema, likewise; flags are compared but for the root's and those of dictionary values. The
 *                     column's own nodes are a target too.
 *   plan              is written, and so is counters, where the answer is 0. */
uint8_t lafkuno_plan_convert(const uint8_t *formats, size_t formats_len, const uint32_t *schema, size_t schema_len,
                             const uint64_t *lengths, size_t lengths_len, const uint64_t *places, size_t places_len,
                             const uint64_t *buffers, size_t buffers_len, const uint8_t *body, size_t body_len,
                             uint32_t first, uint32_t n, uint32_t target, uint32_t target_n, uint64_t *plan, size_t plan_len,
                             uint64_t *counters, size_t counters_len);

/* Writes it: 9 also where the room is too large, then the grounds of the question, 14 of the parts, and 13 last. A refusal changes nothing.
 * lafkuno_finish finishes the result, with first and n as its one source: target_n nodes, which can be lent again over a body that has the room
 * behind the old body, where the data buffers of views still are.
 *   parts     as for lafkuno_open.
 *   plan      is written; its numbers before are not read, nor are those of counters.
 *   room      is written in the parts. */
uint8_t lafkuno_convert(const uint8_t *formats, size_t formats_len, const uint32_t *schema, size_t schema_len,
                        const uint64_t *lengths, size_t lengths_len, const uint64_t *places, size_t places_len,
                        const uint64_t *buffers, size_t buffers_len, const uint8_t *body, size_t body_len,
                        uint32_t first, uint32_t n, uint32_t target, uint32_t target_n, const uint64_t *parts, size_t parts_len,
                        uint64_t *plan, size_t plan_len, uint64_t *counters, size_t counters_len,
                        uint8_t *room, size_t room_len);

#ifdef __cplusplus
}
#endif

#endif
