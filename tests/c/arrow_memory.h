/* Memory that is counted, and runs out. Linked with
 *     -Wl,--wrap=malloc,--wrap=calloc,--wrap=aligned_alloc */
#ifndef ARROW_MEMORY_H
#define ARROW_MEMORY_H

#include <stddef.h>

void *__real_malloc(size_t size);
void *__real_calloc(size_t count, size_t size);
void *__real_aligned_alloc(size_t alignment, size_t size);
void *__wrap_malloc(size_t size);
void *__wrap_calloc(size_t count, size_t size);
void *__wrap_aligned_alloc(size_t alignment, size_t size);

static long long allocations_left = -1; /* none fails where it is negative */
static size_t allocated;

static int runs_out(size_t size) {
    allocated += size;
    return allocations_left >= 0 && allocations_left-- == 0;
}

void *__wrap_malloc(size_t size) { return runs_out(size) ? NULL : __real_malloc(size); }
void *__wrap_calloc(size_t count, size_t size) { return runs_out(count * size) ? NULL : __real_calloc(count, size); }
void *__wrap_aligned_alloc(size_t alignment, size_t size) { return runs_out(size) ? NULL : __real_aligned_alloc(alignment, size); }

#endif
