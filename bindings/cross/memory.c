/* What the core takes its memory by, for processors without an operating system: what a caller has given, or C's malloc, realloc and free. This file is
 * plain C, and not proved. The step to 32 bits (narrow) leaves names of its own; with 64 bits these are the kit's. */
#include "given.h"
#include "mintlintel_durable.h"
#include <stdlib.h>

/* A handle's place in memory is the same for C of 32 bits as for the core, which keeps 8 bytes for a pointer. */
_Static_assert(offsetof(struct mintlintel_core, is_open) == 8 && sizeof(struct mintlintel_core) == 16, "a handle of the core has 16 bytes");
_Static_assert(offsetof(struct mintlintel_command, number) == 24 && sizeof(struct mintlintel_command) == 32, "a command has 32 bytes");

static void *taken(size_t bytes, size_t align)
{
    bytes = bytes ? bytes : align;
    return mtl_core_given ? mtl_lend(mtl_core_given, bytes) : malloc(bytes);
}

static void *taken_again(void *at, size_t bytes, size_t align)
{
    bytes = bytes ? bytes : align;
    return mtl_core_given ? mtl_lend_again(mtl_core_given, at, bytes) : realloc(at, bytes);
}

void rattle_dealloc(void *at)
{
    if (mtl_core_given)
        mtl_take_back(at);
    else
        free(at);
}

#if UINTPTR_MAX > UINT32_MAX

struct tried { uint64_t is_made; void *at; };
static char none[16];

static struct tried tried(void *at)
{
    return (struct tried){at != NULL, at ? at : none};
}

struct tried rattle_alloc(size_t bytes, size_t align)
{
    return tried(taken(bytes, align));
}

struct tried rattle_realloc(void *at, size_t kept, size_t bytes, size_t align)
{
    (void)kept;
    return tried(taken_again(at, bytes, align));
}

#else

void *rattle_narrow_alloc(size_t bytes, size_t align)
{
    return taken(bytes, align);
}

void *rattle_narrow_realloc(void *at, size_t kept, size_t bytes, size_t align)
{
    (void)kept;
    return taken_again(at, bytes, align);
}

#endif
