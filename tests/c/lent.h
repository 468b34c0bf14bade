/* Memory that is lent to calls: each slice has exactly the bytes that are asked for, between guards that no call may touch. */
#ifndef LENT_H
#define LENT_H

#include <stddef.h>
#include <stdint.h>

struct slice {
    uint8_t *start; /* aligned to 8 */
    size_t size;    /* in bytes */
    uint8_t *old;   /* what it held when it was last kept */
};

/* Not 0: no guards, so that valgrind sees every step outside, reads too. */
extern int lent_bare;

void *lent_memory(size_t size);
/* Another size, in memory of its own; the bytes that fit stay, the others are 0. */
void slice_resize(struct slice *s, size_t size);
void slice_free(struct slice *s);
/* Remembers the bytes of n slices before a call. */
void slices_keep(struct slice *s, size_t n);
/* After it: whether the slices of the set `written` (bit k is slice k) are as they were. Ends the program where a guard, or a slice
 * that is not of the set, has changed. */
int slices_kept(const struct slice *s, size_t n, uint32_t written);

#endif
