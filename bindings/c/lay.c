/* The body: every stretch of memory that is asked for, copied once. */
#include "layer.h"

#include <stdlib.h>
#include <string.h>

/* ---- buffers that are changed as they are laid */

static void put_number(uint8_t *to, uint64_t index, unsigned width, uint64_t number) { memcpy(to + index * width, &number, width); }

static void lay_less(uint8_t *to, const struct stretch *s, const struct rewrite *w) {
    uint64_t n = s->bytes / s->width;
    for (uint64_t k = 0; k < n; k++) put_number(to, k, s->width, (uint64_t)number_at(s->from, k, s->width) - w->first);
}

/* A list-view row of no rows begins at 0: nothing of it is read, and where it began need not be in the window. */
static void lay_list_view_offsets(uint8_t *to, const struct stretch *s, const struct rewrite *w) {
    uint64_t n = s->bytes / s->width;
    for (uint64_t k = 0; k < n; k++) {
        uint64_t offset = (uint64_t)number_at(s->from, k, s->width) - w->first;
        put_number(to, k, s->width, number_at(w->beside, k, s->width) ? offset : 0);
    }
}

static void lay_positions(uint8_t *to, const struct stretch *s, const struct rewrite *w) {
    int8_t child_of[256];
    union_children(w->format, child_of);
    for (uint64_t k = 0; k < s->bytes / 4; k++) {
        int8_t child = child_of[w->beside[k]];
        put_number(to, k, 4, (uint64_t)number_at(s->from, k, 4) - (child < 0 ? 0 : w->child[child]));
    }
}

static void lay_views(uint8_t *to, const struct stretch *s, const struct rewrite *w, const struct span *spans) {
    memcpy(to, s->from, s->bytes);
    for (uint64_t k = 0; k < s->bytes / 16; k++) {
        uint32_t word[4];
        memcpy(word, to + 16 * k, 16);
        uint64_t bit = w->first + k;
        if (word[0] <= 12 || word[2] >= w->span_count || (w->beside && !(w->beside[bit / 8] >> bit % 8 & 1))) continue;
        const struct span *span = &spans[w->spans + word[2]];
        if (span->number == UINT32_MAX) continue;
        word[2] = span->number;
        word[3] -= (uint32_t)span->from;
        memcpy(to + 16 * k, word, 16);
    }
}

static void lay_changed(const struct import *import, const struct stretch *s) {
    const struct rewrite *w = &import->rewrites[s->node];
    uint8_t *to = import->body + s->place[0];
    switch (s->change) {
        case LESS_FIRST: lay_less(to, s, w); break;
        case LIST_VIEW_OFFSETS: lay_list_view_offsets(to, s, w); break;
        case DENSE_POSITIONS: lay_positions(to, s, w); break;
        case VIEWS: lay_views(to, s, w, import->spans); break;
        default: break;
    }
}

/* ---- where everything is laid */

/* By address, those that are changed last. */
static int by_address(const void *x, const void *y) {
    const struct stretch *a = x, *b = y;
    bool p = a->change != AS_THEY_ARE, q = b->change != AS_THEY_ARE;
    uintptr_t m = (uintptr_t)a->from, n = (uintptr_t)b->from;
    if (p != q) return p - q;
    return (m > n) - (m < n);
}

/* The stretches from `i` on whose memory overlaps: one past the last, and how many bytes they are together. */
static size_t group_end(const struct import *import, size_t i, uint64_t *bytes) {
    const struct stretch *s = import->stretches;
    uintptr_t start = (uintptr_t)s[i].from;
    size_t k = i + 1;
    *bytes = s[i].bytes;
    if (s[i].change != AS_THEY_ARE) return k;
    for (; k < import->stretch_count && s[k].change == AS_THEY_ARE && (uintptr_t)s[k].from - start < *bytes; k++) {
        uint64_t before = (uintptr_t)s[k].from - start, end = s[k].bytes < UINT64_MAX - before ? before + s[k].bytes : UINT64_MAX;
        if (end > *bytes) *bytes = end;
    }
    return k;
}

/* Places every stretch, and answers the bytes of the body, UINT64_MAX where they are too many to be placed. No buffer begins at 0, where
 * empty ones do; each keeps its alignment. */
static uint64_t place_all(struct import *import) {
    uint64_t at = LINE, bytes;
    for (size_t i = 0, end; i < import->stretch_count; i = end) {
        struct stretch *s = import->stretches;
        uintptr_t start = (uintptr_t)s[i].from;
        end = group_end(import, i, &bytes);
        at = (at + LINE - 1) / LINE * LINE + (s[i].change == AS_THEY_ARE ? start % LINE : 0);
        for (size_t k = i; k < end; k++) s[k].place[0] = at + ((uintptr_t)s[k].from - start);
        if (at > LAFKUNO_MOST_BYTES || bytes > LAFKUNO_MOST_BYTES - at) return UINT64_MAX;
        at += bytes;
    }
    return at;
}

int lay(struct import *import) {
    uint64_t bytes;
    if (import->stretch_count > 1) qsort(import->stretches, import->stretch_count, sizeof *import->stretches, by_address);
    import->body_len = place_all(import);
    if (import->body_len > LAFKUNO_MOST_BYTES)
        return refuse_above(import->report, LAFKUNO_CEILING_PASSED, import->body_len, LAFKUNO_MOST_BYTES, "bytes of all sources");
    import->body = allocate_lines(import->body_len);
    if (!import->body) return refuse_memory(import->report);
    for (size_t i = 0, end; i < import->stretch_count; i = end) {
        const struct stretch *s = &import->stretches[i];
        end = group_end(import, i, &bytes);
        if (s->change == AS_THEY_ARE) memcpy(import->body + s->place[0], s->from, bytes);
        else lay_changed(import, s);
    }
    return 0;
}
