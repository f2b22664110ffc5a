#define _GNU_SOURCE
#include "designs.h"

#include <pthread.h>
#include <stdlib.h>
#include <string.h>

#include "mintlintel_locked.h"
#include "plain.h"
#include "tables.h"

/* A host waits for a block so long; a device has so many erases that it lasts; a broom collects while fewer than FEW blocks are free, MANY at once. */
enum { WAIT = 60000, ENDURANCE = 1000000, FEW = 12, MANY = 16, MOST_HOSTS = 16, MOST_BROOMS = 8, PARTS = 16, STRIPES = 64 };

struct luns luns;

/* How many LUNs the device has, and the LUN of the part that a thread's call goes to. */
static uint32_t device_luns;
static _Thread_local uint32_t lun_of_part;

/* ---- Commands that take time: the linker puts these in front of the library's calls. */

/* The clock of the LUNs has a lock, which is no design's: a thread that has it isn't stopped. */
void command(enum command command, uint32_t block, uint32_t count)
{
    static uint64_t (*const ends[])(struct luns *, uint32_t, uint64_t) = {luns_read, luns_program, luns_erase};
    uint32_t place = block % count * luns.blocks + block / count;
    sigset_t stop;
    if (!luns.is_timed)
        return;
    sigemptyset(&stop);
    sigaddset(&stop, STOP);
    pthread_sigmask(SIG_BLOCK, &stop, NULL);
    uint64_t end = command == COPY ? luns_copy(&luns, place, place, 0) : ends[command](&luns, place, 0);
    pthread_sigmask(SIG_UNBLOCK, &stop, NULL);
    luns_sleep(end);
}

static void take_copies(uint32_t block, uint32_t count, uint64_t copies)
{
    for (uint64_t i = 0; i < copies; i++)
        command(COPY, block, count);
}

uint32_t __real_mintlintel_one_read(struct mintlintel_one *handle, uint32_t sector, uint8_t *out, size_t bytes);
uint32_t __wrap_mintlintel_one_read(struct mintlintel_one *handle, uint32_t sector, uint8_t *out, size_t bytes);

uint32_t __wrap_mintlintel_one_read(struct mintlintel_one *handle, uint32_t sector, uint8_t *out, size_t bytes)
{
    uint32_t code = __real_mintlintel_one_read(handle, sector, out, bytes);
    if (luns.is_timed && code == MINTLINTEL_WRITTEN)
        command(READ, lun_of_part, device_luns);
    return code;
}

uint32_t __real_mintlintel_one_write(struct mintlintel_one *handle, uint32_t sector, const uint8_t *bytes, size_t count);
uint32_t __wrap_mintlintel_one_write(struct mintlintel_one *handle, uint32_t sector, const uint8_t *bytes, size_t count);

uint32_t __wrap_mintlintel_one_write(struct mintlintel_one *handle, uint32_t sector, const uint8_t *bytes, size_t count)
{
    struct mintlintel_totals before, after;
    if (!luns.is_timed)
        return __real_mintlintel_one_write(handle, sector, bytes, count);
    mintlintel_one_counts(handle, &before);
    uint32_t code = __real_mintlintel_one_write(handle, sector, bytes, count);
    mintlintel_one_counts(handle, &after);
    take_copies(lun_of_part, device_luns, after.copies - before.copies);
    if (after.erases > before.erases)
        command(ERASE, lun_of_part, device_luns);
    command(PROGRAM, lun_of_part, device_luns);
    return code;
}

/* What the brooms of a shared device have copied, and from how many blocks. */
static _Atomic uint64_t shared_copies, shared_drained;

#define DRAINS(name)                                                                                                    \
    uint32_t __real_mintlintel_broom_##name(struct mintlintel_seat *handle, uint32_t *block, uint32_t *moved);          \
    uint32_t __wrap_mintlintel_broom_##name(struct mintlintel_seat *handle, uint32_t *block, uint32_t *moved);          \
    uint32_t __wrap_mintlintel_broom_##name(struct mintlintel_seat *handle, uint32_t *block, uint32_t *moved)           \
    {                                                                                                                   \
        uint32_t code = __real_mintlintel_broom_##name(handle, block, moved);                                           \
        if (code == MINTLINTEL_DONE) {                                                                                  \
            shared_copies += *moved;                                                                                    \
            shared_drained++;                                                                                           \
            take_copies(*block, device_luns, luns.is_timed ? *moved : 0);                                               \
        }                                                                                                               \
        return code;                                                                                                    \
    }
DRAINS(drain)
DRAINS(drain_next)

uint32_t __real_mintlintel_broom_erase(struct mintlintel_seat *handle, uint32_t block);
uint32_t __wrap_mintlintel_broom_erase(struct mintlintel_seat *handle, uint32_t block);

uint32_t __wrap_mintlintel_broom_erase(struct mintlintel_seat *handle, uint32_t block)
{
    uint32_t code = __real_mintlintel_broom_erase(handle, block);
    if (code == MINTLINTEL_DONE || code == MINTLINTEL_KEPT)
        command(ERASE, block, device_luns);
    return code;
}

/* ---- A shared device. Its handles stand apart, so that no two threads write to one line of a cache. */

struct seat { _Alignas(128) struct mintlintel_seat handle; };
struct shared { struct seat hosts[MOST_HOSTS], brooms[MOST_BROOMS]; uint32_t host_count, broom_count, page_bytes; };

static void *shared_open(const struct geometry *g)
{
    struct mintlintel_seat hosts[MOST_HOSTS] = {{0}}, brooms[MOST_BROOMS] = {{0}};
    if (mintlintel_shared_open(hosts, g->hosts, brooms, g->brooms, g->luns, g->blocks, g->pages, g->words, g->sectors, ENDURANCE) != MINTLINTEL_DONE)
        return NULL;
    struct shared *shared = aligned_alloc(_Alignof(struct shared), sizeof *shared);
    for (uint32_t i = 0; i < g->hosts; i++)
        shared->hosts[i].handle = hosts[i];
    for (uint32_t i = 0; i < g->brooms; i++)
        shared->brooms[i].handle = brooms[i];
    shared->host_count = g->hosts;
    shared->broom_count = g->brooms;
    shared->page_bytes = g->words * 8;
    device_luns = g->luns;
    return shared;
}

static void shared_close(void *device)
{
    struct shared *shared = device;
    for (uint32_t i = 0; i < shared->host_count; i++)
        mintlintel_seat_close(&shared->hosts[i].handle);
    for (uint32_t i = 0; i < shared->broom_count; i++)
        mintlintel_seat_close(&shared->brooms[i].handle);
    free(shared);
}

/* The block of a sector, which the host holds from now on; 0 if it is empty. */
static int hold(struct mintlintel_seat *host, uint32_t sector, uint32_t *block)
{
    struct mintlintel_page page;
    if (mintlintel_host_hold(host, sector) != MINTLINTEL_WRITTEN)
        return 0;
    mintlintel_host_held(host, &page);
    *block = page.block;
    return 1;
}

static uint32_t shared_read(void *device, uint32_t number, uint32_t sector, uint8_t *out)
{
    struct shared *shared = device;
    struct mintlintel_seat *host = &shared->hosts[number].handle;
    uint32_t block;
    if (!luns.is_timed)
        return mintlintel_host_read(host, sector, out, shared->page_bytes);
    if (!hold(host, sector, &block))
        return MINTLINTEL_EMPTY;
    command(READ, block, device_luns);
    uint32_t code = mintlintel_host_copy(host, out, shared->page_bytes);
    mintlintel_host_release(host);
    return code;
}

static uint32_t shared_write(void *device, uint32_t number, uint32_t sector, const uint8_t *page)
{
    struct shared *shared = device;
    struct mintlintel_seat *host = &shared->hosts[number].handle;
    uint32_t block, code = mintlintel_write_within(host, sector, page, shared->page_bytes, WAIT);
    if (luns.is_timed && code <= MINTLINTEL_WRITTEN && hold(host, sector, &block)) {
        mintlintel_host_release(host);
        command(PROGRAM, block, device_luns);
    }
    return code;
}

static int shared_collect(void *device, uint32_t number)
{
    struct mintlintel_seat *broom = &((struct shared *)device)->brooms[number].handle;
    struct mintlintel_counts counts;
    struct mintlintel_collected did;
    return mintlintel_broom_counts(broom, &counts) != MINTLINTEL_DONE || counts.free >= FEW || mintlintel_collect(broom, MANY, &did) != MINTLINTEL_DONE;
}

static void shared_moved(void *device, uint64_t moved[2])
{
    (void)device;
    moved[0] = shared_copies;
    moved[1] = shared_drained;
}

/* ---- Devices for one thread behind locks. */

struct locked { struct mintlintel_locked device; uint32_t parts, page_bytes; };

/* Whether the locks spin before they wait. */
static int is_spinning;
int __real_pthread_mutex_init(pthread_mutex_t *mutex, const pthread_mutexattr_t *attributes);
int __wrap_pthread_mutex_init(pthread_mutex_t *mutex, const pthread_mutexattr_t *attributes);

int __wrap_pthread_mutex_init(pthread_mutex_t *mutex, const pthread_mutexattr_t *attributes)
{
    pthread_mutexattr_t spinning;
    pthread_mutexattr_init(&spinning);
    pthread_mutexattr_settype(&spinning, PTHREAD_MUTEX_ADAPTIVE_NP);
    return __real_pthread_mutex_init(mutex, is_spinning ? &spinning : attributes);
}

static void *locked_open(const struct geometry *g, uint32_t parts, int spins)
{
    struct locked *locked = calloc(1, sizeof *locked);
    uint32_t sectors = (g->sectors + parts - 1) / parts;
    is_spinning = spins;
    uint32_t code = mintlintel_locked_open(&locked->device, parts, 1, g->blocks / parts, g->pages, g->words, sectors, ENDURANCE);
    is_spinning = 0;
    locked->parts = parts;
    device_luns = g->luns;
    locked->page_bytes = g->words * 8;
    if (code == MINTLINTEL_DONE)
        return locked;
    free(locked);
    return NULL;
}

static void *lock_open(const struct geometry *g)
{
    return locked_open(g, 1, 0);
}

static void *spinning_open(const struct geometry *g)
{
    return locked_open(g, 1, 1);
}

static void *parts_open(const struct geometry *g)
{
    return locked_open(g, PARTS, 0);
}

static void locked_close(void *device)
{
    struct locked *locked = device;
    mintlintel_locked_close(&locked->device);
    free(locked);
}

static uint32_t locked_read(void *device, uint32_t number, uint32_t sector, uint8_t *out)
{
    struct locked *locked = device;
    (void)number;
    lun_of_part = sector % locked->parts % device_luns;
    return mintlintel_locked_read(&locked->device, sector, out, locked->page_bytes);
}

static uint32_t locked_write(void *device, uint32_t number, uint32_t sector, const uint8_t *page)
{
    struct locked *locked = device;
    (void)number;
    lun_of_part = sector % locked->parts % device_luns;
    return mintlintel_locked_write(&locked->device, sector, page, locked->page_bytes);
}

/* Each block that is collected is erased. */
static void locked_moved(void *device, uint64_t moved[2])
{
    struct mintlintel_totals totals;
    mintlintel_locked_counts(&((struct locked *)device)->device, &totals);
    moved[0] = totals.copies;
    moved[1] = totals.erases;
}

/* ---- The plain layer behind a lock that readers share. */

struct readers { pthread_rwlock_t lock; struct plain *layer; };

static void *readers_open(const struct geometry *g)
{
    struct readers *readers = calloc(1, sizeof *readers);
    pthread_rwlock_init(&readers->lock, NULL);
    readers->layer = plain_open(g->blocks, g->pages, g->words, g->sectors, ENDURANCE);
    device_luns = g->luns;
    return readers;
}

static void readers_close(void *device)
{
    struct readers *readers = device;
    plain_close(readers->layer);
    pthread_rwlock_destroy(&readers->lock);
    free(readers);
}

static uint32_t readers_read(void *device, uint32_t number, uint32_t sector, uint8_t *out)
{
    struct readers *readers = device;
    (void)number;
    pthread_rwlock_rdlock(&readers->lock);
    uint32_t code = plain_read(readers->layer, sector, out);
    if (luns.is_timed && code == PLAIN_WRITTEN)
        command(READ, plain_block_of(readers->layer, sector), device_luns);
    pthread_rwlock_unlock(&readers->lock);
    return code;
}

static uint32_t readers_write(void *device, uint32_t number, uint32_t sector, const uint8_t *page)
{
    struct readers *readers = device;
    uint64_t before[3], after[3];
    (void)number;
    pthread_rwlock_wrlock(&readers->lock);
    plain_counts(readers->layer, before);
    uint32_t code = plain_write(readers->layer, sector, page);
    plain_counts(readers->layer, after);
    if (luns.is_timed) {
        uint32_t block = plain_block_of(readers->layer, sector);
        take_copies(block, device_luns, after[1] - before[1]);
        if (after[2] > before[2])
            command(ERASE, block, device_luns);
        command(PROGRAM, block, device_luns);
    }
    pthread_rwlock_unlock(&readers->lock);
    return code;
}

static void readers_moved(void *device, uint64_t moved[2])
{
    uint64_t counts[3];
    plain_counts(((struct readers *)device)->layer, counts);
    moved[0] = counts[1];
    moved[1] = counts[2];
}

/* ---- Locks round the tables alone: one, or many. */

static void *table_open(const struct geometry *g)
{
    return tables_open(g, 1);
}

static void *stripes_open(const struct geometry *g)
{
    return tables_open(g, STRIPES);
}

static uint32_t table_read(void *device, uint32_t number, uint32_t sector, uint8_t *out)
{
    (void)number;
    return tables_read(device, sector, out);
}

static uint32_t table_write(void *device, uint32_t number, uint32_t sector, const uint8_t *page)
{
    return tables_write(device, number, sector, page);
}

static int table_collect(void *device, uint32_t number)
{
    return tables_collect(device, number);
}

static void table_moved(void *device, uint64_t moved[2])
{
    tables_moved(device, moved);
}

static void table_close(void *device)
{
    tables_close(device);
}

const struct design designs[] = {
    {"shared", 1, shared_open, shared_read, shared_write, shared_collect, shared_moved, shared_close},
    {"table", 1, table_open, table_read, table_write, table_collect, table_moved, table_close},
    {"stripes", 1, stripes_open, table_read, table_write, table_collect, table_moved, table_close},
    {"lock", 0, lock_open, locked_read, locked_write, NULL, locked_moved, locked_close},
    {"spinning", 0, spinning_open, locked_read, locked_write, NULL, locked_moved, locked_close},
    {"parts", 0, parts_open, locked_read, locked_write, NULL, locked_moved, locked_close},
    {"readers", 0, readers_open, readers_read, readers_write, NULL, readers_moved, readers_close},
    {0},
};
