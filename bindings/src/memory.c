/* The memory of devices: what a caller has given, or the allocator's, in large pages where the system has them. This file is plain C, and not proved.
 * The kit's lines of C that the proved calls take memory by call these three in place of malloc, realloc and free. */
#define _DEFAULT_SOURCE
#include "given.h"
#include <errno.h>
#include <stdlib.h>
#include <sys/mman.h>

/* A large page of x86-64. */
enum { LARGE_PAGE = 2 << 20 };

void *mtl_malloc(size_t bytes);
void *mtl_realloc(void *old, size_t bytes);
void mtl_free(void *old);

/* Asks for large pages where they fit into this memory. The system may refuse: nothing depends on it. */
static void *advised(void *memory, size_t bytes)
{
    uintptr_t begin = ((uintptr_t)memory + LARGE_PAGE - 1) & ~(uintptr_t)(LARGE_PAGE - 1);
    uintptr_t end = ((uintptr_t)memory + bytes) & ~(uintptr_t)(LARGE_PAGE - 1);
    int kept = errno;
    if (memory && begin < end)
        madvise((void *)begin, end - begin, MADV_HUGEPAGE);
    errno = kept;
    return memory;
}

void *mtl_malloc(size_t bytes)
{
    return mtl_core_given ? mtl_lend(mtl_core_given, bytes) : advised(malloc(bytes), bytes);
}

void *mtl_realloc(void *old, size_t bytes)
{
    return mtl_core_given ? mtl_lend_again(mtl_core_given, old, bytes) : advised(realloc(old, bytes), bytes);
}

void mtl_free(void *old)
{
    if (mtl_core_given)
        mtl_take_back(old);
    else
        free(old);
}
