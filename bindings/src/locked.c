/* Devices for one thread behind locks, over their proved calls. This file is plain C, and not proved. */
#define _POSIX_C_SOURCE 200809L
#include "mintlintel_locked.h"
#include <pthread.h>
#include <stdlib.h>

/* Two parts share no line of a cache, nor the line next to it. */
enum { APART = 128 };

struct part {
    struct mintlintel_one device;
    pthread_mutex_t mutex;
    unsigned char apart[APART];
};

struct parts {
    uint32_t count, blocks;
    struct part each[];
};

static void close_parts(struct parts *parts)
{
    for (uint32_t i = 0; i < parts->count; i++) {
        mintlintel_one_close(&parts->each[i].device);
        pthread_mutex_destroy(&parts->each[i].mutex);
    }
    free(parts);
}

uint32_t mintlintel_locked_open(struct mintlintel_locked *handle, uint32_t parts, uint32_t luns, uint32_t blocks, uint32_t pages, uint32_t words,
                                uint32_t sectors, uint32_t endurance)
{
    uint32_t count = parts > 0 ? parts : 1, code = MINTLINTEL_DONE;
    struct parts *all = handle->at ? NULL : malloc(sizeof *all + count * sizeof *all->each);
    if (!all)
        return handle->at ? MINTLINTEL_ALREADY_OPEN : MINTLINTEL_NO_MEMORY;
    all->blocks = blocks;
    for (all->count = 0; code == MINTLINTEL_DONE && all->count < count;) {
        struct part *part = &all->each[all->count];
        part->device = (struct mintlintel_one){NULL, 0};
        code = mintlintel_one_open(&part->device, luns, blocks, pages, words, sectors, endurance);
        if (code == MINTLINTEL_DONE && pthread_mutex_init(&part->mutex, NULL) != 0) {
            mintlintel_one_close(&part->device);
            code = MINTLINTEL_NO_MEMORY;
        }
        all->count += code == MINTLINTEL_DONE;
    }
    if (code == MINTLINTEL_DONE)
        handle->at = all;
    else
        close_parts(all);
    return code;
}

void mintlintel_locked_close(struct mintlintel_locked *handle)
{
    if (handle->at)
        close_parts(handle->at);
    handle->at = NULL;
}

/* Takes the lock of a sector's part, and gives the sector its number there; NULL of a closed handle. */
static struct part *take(struct mintlintel_locked *handle, uint32_t *sector)
{
    struct parts *parts = handle->at;
    if (!parts)
        return NULL;
    struct part *part = &parts->each[*sector % parts->count];
    *sector /= parts->count;
    pthread_mutex_lock(&part->mutex);
    return part;
}

/* Gives the lock back, and passes on what was returned under it. */
static uint32_t give(struct part *part, uint32_t code)
{
    pthread_mutex_unlock(&part->mutex);
    return code;
}

uint32_t mintlintel_locked_read(struct mintlintel_locked *handle, uint32_t sector, uint8_t *out, size_t bytes)
{
    struct part *part = take(handle, &sector);
    return part ? give(part, mintlintel_one_read(&part->device, sector, out, bytes)) : MINTLINTEL_CLOSED;
}

uint32_t mintlintel_locked_write(struct mintlintel_locked *handle, uint32_t sector, const uint8_t *bytes, size_t count)
{
    struct part *part = take(handle, &sector);
    return part ? give(part, mintlintel_one_write(&part->device, sector, bytes, count)) : MINTLINTEL_CLOSED;
}

uint32_t mintlintel_locked_write_new(struct mintlintel_locked *handle, uint32_t sector, const uint8_t *bytes, size_t count)
{
    struct part *part = take(handle, &sector);
    return part ? give(part, mintlintel_one_write_new(&part->device, sector, bytes, count)) : MINTLINTEL_CLOSED;
}

uint32_t mintlintel_locked_trim(struct mintlintel_locked *handle, uint32_t sector)
{
    struct part *part = take(handle, &sector);
    return part ? give(part, mintlintel_one_trim(&part->device, sector)) : MINTLINTEL_CLOSED;
}

uint32_t mintlintel_locked_counts(struct mintlintel_locked *handle, struct mintlintel_totals *totals)
{
    struct parts *parts = handle->at;
    struct mintlintel_totals sum = {0, 0, 0}, own;
    if (!parts)
        return MINTLINTEL_CLOSED;
    for (uint32_t i = 0; i < parts->count; i++) {
        pthread_mutex_lock(&parts->each[i].mutex);
        give(&parts->each[i], mintlintel_one_counts(&parts->each[i].device, &own));
        sum.programs += own.programs;
        sum.copies += own.copies;
        sum.erases += own.erases;
    }
    *totals = sum;
    return MINTLINTEL_DONE;
}

uint32_t mintlintel_locked_block(struct mintlintel_locked *handle, uint32_t block, struct mintlintel_block *report)
{
    struct parts *parts = handle->at;
    if (!parts)
        return MINTLINTEL_CLOSED;
    uint32_t number = block / parts->blocks;
    if (number >= parts->count)
        return MINTLINTEL_NO_SUCH_BLOCK;
    struct part *part = &parts->each[number];
    pthread_mutex_lock(&part->mutex);
    return give(part, mintlintel_one_block(&part->device, block % parts->blocks, report));
}
