#include "vectors.h"
#include <stdio.h>

enum { MOST_SHOWN = 12, MOST_DIGITS = 48, MOST_DEPTH = 8 };

/* ---- bytes */

static void put_digits(const uint8_t *s, size_t n) {
    for (size_t i = 0; i < n; i++) printf("%02x", s[i]);
}

/* Up to 48 bytes as digits, more by their number and a sum. */
static void put_buffer(const uint8_t *s, size_t n) {
    uint64_t sum = 0;
    putchar(' ');
    if (n == 0) putchar('-');
    else if (n <= MOST_DIGITS) put_digits(s, n);
    else {
        for (size_t i = 0; i < n; i++) sum = 31 * sum + s[i];
        printf("%zu#%016llx", n, (unsigned long long)sum);
    }
}

/* n bytes of the body, from `at` on; none where it has not as many. */
static const uint8_t *body_at(const struct join *j, uint64_t at, uint64_t *n) {
    size_t size = j->lent[BODY].size;
    if (size < at || size - at < *n) at = *n = 0;
    return j->lent[BODY].start + at;
}

static int is_text(const uint8_t *s, size_t n) {
    for (size_t i = 0; i < n; i++)
        if (s[i] < 32 || 126 < s[i]) return 0;
    return 0 < n;
}

static void put_bytes(const struct join *j, uint64_t at, uint64_t n) {
    const uint8_t *s = body_at(j, at, &n);
    if (is_text(s, n)) printf("'%.*s'", (int)n, (const char *)s);
    else {
        putchar('x');
        put_digits(s, n);
    }
}

/* ---- the finished array */

/* The buffer whose two numbers stand in a table from number `at` on. */
static void show_place(const struct join *j, int table, size_t at) {
    uint64_t n = long_at(j, table, at + 1);
    const uint8_t *s = body_at(j, long_at(j, table, at), &n);
    put_buffer(s, n);
}

static void show_node(const struct join *j, size_t i) {
    size_t node = j->first + i, at = 9 * node;
    printf(" | %llu+%llu %llu", (unsigned long long)long_at(j, LENGTHS, 2 * node), (unsigned long long)long_at(j, LENGTHS, 2 * node + 1),
           (unsigned long long)long_at(j, NEW_NULLS, i));
    if (long_at(j, PLACES, at) == 0) fputs(" no", stdout);
    else show_place(j, PLACES, at + 1);
    show_place(j, PLACES, at + 3);
    show_place(j, PLACES, at + 5);
    for (uint64_t d = 0; d < long_at(j, PLACES, at + 8); d++) {
        fputs(" d", stdout);
        show_place(j, BUFFERS, 2 * (size_t)(long_at(j, PLACES, at + 7) + d));
    }
}

void show_finished(struct join *j) {
    slices_keep(j->lent, SLICES);
    printf(" %llu", (unsigned long long)lafkuno_running_nulls(LONGS(COUNTERS)));
    slices_kept(j->lent, SLICES, 0);
    for (size_t i = 0; i < j->nodes; i++) show_node(j, i);
    fputs(" room", stdout);
    put_buffer(BYTES(ROOM));
}

/* ---- rows */

/* How many nodes stand in the subtree of a node: it, then its dictionary or its children. */
static uint32_t nodes_of(const struct join *j, uint32_t node) {
    uint32_t below = word_at(j, SCHEMA, 5 * (size_t)node + 4) ? 1 : word_at(j, SCHEMA, 5 * (size_t)node + 3), n = 1;
    while (below-- > 0) n += nodes_of(j, node + n);
    return n;
}

/* Reads a row of the column of n nodes from node `first` on: its kind, and the numbers in the answer. */
static uint8_t read_row(struct join *j, uint32_t first, uint32_t n, uint64_t row) {
    slice_resize(&j->lent[TREE], 8 * LAFKUNO_TREE);
    slice_resize(&j->lent[ANSWER], 8 * LAFKUNO_ANSWER);
    slices_keep(j->lent, SLICES);
    uint8_t g = lafkuno_open_column(BYTES(FORMATS), WORDS(SCHEMA), LONGS(LENGTHS), LONGS(PLACES), LONGS(BUFFERS), BYTES(BODY), first, n, LONGS(TREE));
    int kept = slices_kept(j->lent, SLICES, (uint32_t)1 << TREE);
    if (g != LAFKUNO_DONE) return kept ? LAFKUNO_REFUSED + g : UINT8_MAX;
    slices_keep(j->lent, SLICES);
    uint8_t kind = lafkuno_read_row(LONGS(TREE), LONGS(LENGTHS), LONGS(PLACES), LONGS(BUFFERS), BYTES(BODY), first, row, LONGS(ANSWER));
    kept = slices_kept(j->lent, SLICES, (uint32_t)1 << ANSWER);
    return kind < LAFKUNO_REFUSED || kept ? kind : UINT8_MAX;
}

static void show_list(struct join *j, uint32_t first, uint32_t n, uint64_t start, uint64_t len, int depth);

static void show_row(struct join *j, uint32_t first, uint32_t n, uint64_t row, int depth) {
    uint8_t kind = read_row(j, first, n, row);
    if (kind >= LAFKUNO_REFUSED) {
        printf("refused %d", kind - LAFKUNO_REFUSED);
        return;
    }
    uint64_t a = long_at(j, ANSWER, 0), b = long_at(j, ANSWER, 1), c = long_at(j, ANSWER, 2);
    for (uint64_t i = 0; i < 8 && i < long_at(j, ANSWER, 3); i++) printf("%llu:", (unsigned long long)long_at(j, ANSWER, 4 + i));
    switch (kind) {
    case LAFKUNO_NULL: fputs("null", stdout); break;
    case LAFKUNO_SIGNED: printf("%lld", (long long)(int64_t)a); break;
    case LAFKUNO_UNSIGNED: printf("%llu", (unsigned long long)a); break;
    case LAFKUNO_SINGLE: printf("f%08llx", (unsigned long long)a); break;
    case LAFKUNO_DOUBLE: printf("f%016llx", (unsigned long long)a); break;
    case LAFKUNO_BYTES: put_bytes(j, a, b); break;
    case LAFKUNO_LIST: show_list(j, first + (uint32_t)a, nodes_of(j, first + (uint32_t)a), b, c, depth + 1); break;
    default: printf("kind %d", kind);
    }
}

/* The rows start .. start + len - 1 of a column. */
static void show_list(struct join *j, uint32_t first, uint32_t n, uint64_t start, uint64_t len, int depth) {
    if (depth > MOST_DEPTH) {
        fputs("deep", stdout);
        return;
    }
    putchar('[');
    for (uint64_t i = 0; i < len && i < MOST_SHOWN; i++) {
        if (i > 0) putchar(' ');
        show_row(j, first, n, start + i, depth);
    }
    fputs(len > MOST_SHOWN ? " ..]" : "]", stdout);
}

void show_rows(struct join *j) {
    putchar(' ');
    show_list(j, j->first, j->nodes, 0, long_at(j, LENGTHS, 2 * (size_t)j->first), 0);
}
