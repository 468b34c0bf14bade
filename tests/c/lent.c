#include "lent.h"
#include <stdio.h>
#include <stdlib.h>
#include <string.h>

enum { GUARD = 64, MARK = 0xc5 };

int lent_bare;

void *lent_memory(size_t size) {
    void *memory = malloc(size ? size : 1);
    if (!memory) exit(2);
    return memory;
}

static size_t guard(void) {
    return lent_bare ? 0 : GUARD;
}

void slice_resize(struct slice *s, size_t size) {
    uint8_t *memory = lent_memory(size + 2 * guard());
    size_t stays = s->size < size ? s->size : size;
    memset(memory, MARK, guard());
    memset(memory + guard() + size, MARK, guard());
    if (stays) memcpy(memory + guard(), s->start, stays);
    memset(memory + guard() + stays, 0, size - stays);
    slice_free(s);
    s->start = memory + guard();
    s->size = size;
}

void slice_free(struct slice *s) {
    if (s->start) free(s->start - guard());
    free(s->old);
    memset(s, 0, sizeof *s);
}

void slices_keep(struct slice *s, size_t n) {
    for (size_t k = 0; k < n; k++) {
        free(s[k].old);
        s[k].old = lent_memory(s[k].size);
        memcpy(s[k].old, s[k].start, s[k].size);
    }
}

static int guarded(const struct slice *s) {
    for (size_t i = 0; i < guard(); i++)
        if (s->start[s->size + i] != MARK || s->start[-1 - (ptrdiff_t)i] != MARK) return 0;
    return 1;
}

int slices_kept(const struct slice *s, size_t n, uint32_t written) {
    int kept = 1;
    for (size_t k = 0; k < n; k++) {
        int same = memcmp(s[k].start, s[k].old, s[k].size) == 0, held = guarded(&s[k]);
        if (!held || (!same && !(written >> k & 1))) {
            fflush(stdout);
            fprintf(stderr, "slice %d: %s\n", (int)k, held ? "was lent to be read alone, and has changed" : "a byte outside has changed");
            exit(1);
        }
        kept &= same;
    }
    return kept;
}
