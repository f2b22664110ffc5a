/* An allocator that counts its live blocks and refuses one allocation: linked with --wrap=malloc, realloc and free. */
#ifndef COUNTED_H
#define COUNTED_H

#include <stddef.h>
#include <stdint.h>

void *__real_malloc(size_t size);
void *__real_realloc(void *old, size_t size);
void __real_free(void *block);

/* how many blocks are live; how many allocations are granted before one is refused, or -1 for all; how many were refused */
static long live, granted = -1, refusals;
/* the block that was granted last */
static uint8_t *last;
static size_t last_bytes;

static void *noted(void *block, size_t size)
{
    last = block;
    last_bytes = size;
    return block;
}

static int is_refused(void)
{
    refusals += granted == 0;
    if (granted == 0)
        return 1;
    if (granted > 0)
        granted--;
    return 0;
}

void *__wrap_malloc(size_t size)
{
    void *block = is_refused() ? NULL : __real_malloc(size);
    live += block != NULL;
    return noted(block, size);
}

void *__wrap_realloc(void *old, size_t size)
{
    void *block = is_refused() ? NULL : __real_realloc(old, size);
    live += block != NULL && old == NULL;
    return noted(block, size);
}

void __wrap_free(void *block)
{
    live -= block != NULL;
    __real_free(block);
}

#endif
