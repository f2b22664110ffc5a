/* Memory that a caller gives a device: first fit over blocks in the order of their places. This file is plain C, and not proved. */
#include "given.h"
#include <string.h>

/* What stands before a block. */
struct head { size_t bytes, is_free; };

/* Blocks, and what is lent of one, are aligned to this. */
enum { UNIT = sizeof(struct head) };
struct mtl_given { size_t bytes, end; };

#if __STDC_HOSTED__
__thread struct mtl_given *mtl_core_given;
#else
struct mtl_given *mtl_core_given;
#endif

static size_t rounded(size_t bytes)
{
    return (bytes + UNIT - 1) / UNIT * UNIT;
}

uint64_t mtl_given_head(void)
{
    return UNIT;
}

uint64_t mtl_lent(uint64_t bytes)
{
    return UNIT + (bytes + UNIT - 1) / UNIT * UNIT;
}

static struct head *head_at(struct mtl_given *given, size_t at)
{
    return (struct head *)((uint8_t *)(given + 1) + at);
}

struct mtl_given *mtl_given_from(void *memory, size_t bytes, uint64_t needed)
{
    size_t skipped = (UNIT - (uintptr_t)memory % UNIT) % UNIT;
    if (!memory || bytes < skipped || bytes - skipped < needed || needed < sizeof(struct mtl_given))
        return NULL;
    struct mtl_given *given = (struct mtl_given *)(void *)((uint8_t *)memory + skipped);
    *given = (struct mtl_given){(bytes - skipped - sizeof *given) / UNIT * UNIT, 0};
    return given;
}

/* Joins the free blocks behind a free one to it; the last one ends to be a block. */
static void join(struct mtl_given *given, size_t at)
{
    struct head *head = head_at(given, at);
    size_t next = at + UNIT + head->bytes;
    for (; next < given->end && head_at(given, next)->is_free; next = at + UNIT + head->bytes)
        head->bytes += UNIT + head_at(given, next)->bytes;
    if (next == given->end)
        given->end = at;
}

/* The place of a free block that is large enough, or the end. */
static size_t place_for(struct mtl_given *given, size_t bytes)
{
    size_t at = 0;
    for (; at < given->end; at += UNIT + head_at(given, at)->bytes) {
        if (!head_at(given, at)->is_free)
            continue;
        join(given, at);
        if (at == given->end || head_at(given, at)->bytes >= bytes)
            return at;
    }
    return at;
}

void *mtl_lend(struct mtl_given *given, size_t bytes)
{
    if (bytes > given->bytes)
        return NULL;
    size_t room = rounded(bytes), at = place_for(given, room);
    struct head *head = head_at(given, at);
    if (at == given->end) {
        if (given->bytes - at < UNIT || room > given->bytes - at - UNIT)
            return NULL;
        given->end = at + UNIT + room;
    } else if (head->bytes > room) {
        *head_at(given, at + UNIT + room) = (struct head){head->bytes - room - UNIT, 1};
    } else
        room = head->bytes;
    *head = (struct head){room, 0};
    return head + 1;
}

void mtl_take_back(void *block)
{
    if (block)
        ((struct head *)block - 1)->is_free = 1;
}

void *mtl_lend_again(struct mtl_given *given, void *old, size_t bytes)
{
    size_t had = old ? ((struct head *)old - 1)->bytes : 0;
    void *new = mtl_lend(given, bytes);
    if (new && old)
        memcpy(new, old, had < bytes ? had : bytes);
    if (new)
        mtl_take_back(old);
    return new;
}
