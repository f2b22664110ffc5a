/* What an engineer would write beside one lock: locks round the tables alone, which nobody holds while a command works or a page is copied; a count
 * of the readers of each block; an open block for each host; and collectors in threads of their own, which drain a block page by page.
 *
 * A sector's word of the map changes under the lock of its stripe. A reader counts itself there, so a collector that has seen no live page in a block,
 * and then no reader, erases it. What a free block is has a lock of its own. */
#define _GNU_SOURCE
#include "tables.h"

#include <pthread.h>
#include <stdatomic.h>
#include <stdlib.h>
#include <string.h>

#include "designs.h"

enum { FREE, OPEN, CLOSED, DRAINING };
enum { FEW = 12, MANY = 16, MOST_STRIPES = 64, MOST_WRITERS = 16, MOST_DRAINED = 64 };
static const uint32_t NO_PAGE = UINT32_MAX, NO_BLOCK = UINT32_MAX;

/* What threads write to shares no line of a cache. */
struct stripe { _Alignas(128) pthread_mutex_t lock; };
struct readers { _Alignas(64) _Atomic uint32_t count; };
/* The block that a host or a collector fills, and how many of its pages are written; and the blocks that it has drained and not erased. */
struct writer { _Alignas(128) uint32_t block, written, count, drained[MOST_DRAINED]; };

struct tables {
    struct stripe stripes[MOST_STRIPES];
    struct writer hosts[MOST_WRITERS], collectors[MOST_WRITERS];
    pthread_mutex_t lock; /* of the ring of free blocks, of which the one that has been free longest is taken first, and of the hosts' turns at it */
    pthread_cond_t has_free;
    _Atomic uint32_t free_count;
    uint32_t first_free, *free, next_turn, turn;
    uint32_t stripe_count, collector_count, block_count, pages, luns;
    size_t page_bytes;
    struct readers *readers;
    _Atomic uint32_t *live, *map;
    _Atomic uint8_t *states;
    uint8_t *data;
    uint32_t *stamps;
    _Atomic uint64_t copies, drained;
};

static void begin_lock(pthread_mutex_t *lock)
{
    pthread_mutexattr_t spins_first;
    pthread_mutexattr_init(&spins_first);
    pthread_mutexattr_settype(&spins_first, PTHREAD_MUTEX_ADAPTIVE_NP);
    pthread_mutex_init(lock, &spins_first);
}

struct tables *tables_open(const struct geometry *g, uint32_t stripes)
{
    struct tables *t = aligned_alloc(_Alignof(struct tables), sizeof *t);
    size_t pages = (size_t)g->blocks * g->pages;
    memset(t, 0, sizeof *t);
    t->stripe_count = stripes;
    t->collector_count = g->brooms;
    t->block_count = t->free_count = g->blocks;
    t->pages = g->pages;
    t->luns = g->luns;
    t->page_bytes = g->words * 8;
    t->readers = aligned_alloc(_Alignof(struct readers), g->blocks * sizeof *t->readers);
    memset(t->readers, 0, g->blocks * sizeof *t->readers);
    t->live = calloc(g->blocks, sizeof *t->live);
    t->states = calloc(g->blocks, sizeof *t->states);
    t->data = calloc(pages, t->page_bytes);
    t->stamps = calloc(pages, sizeof *t->stamps);
    t->map = malloc(g->sectors * sizeof *t->map);
    t->free = malloc(g->blocks * sizeof *t->free);
    for (uint32_t i = 0; i < g->sectors; i++)
        t->map[i] = NO_PAGE;
    for (uint32_t i = 0; i < g->blocks; i++)
        t->free[i] = i;
    for (uint32_t i = 0; i < MOST_STRIPES; i++)
        begin_lock(&t->stripes[i].lock);
    for (uint32_t i = 0; i < MOST_WRITERS; i++)
        t->hosts[i].block = t->collectors[i].block = NO_BLOCK;
    begin_lock(&t->lock);
    pthread_cond_init(&t->has_free, NULL);
    return t;
}

void tables_close(struct tables *t)
{
    free(t->readers);
    free((void *)t->live);
    free((void *)t->states);
    free(t->data);
    free(t->stamps);
    free((void *)t->map);
    free(t->free);
    free(t);
}

static pthread_mutex_t *lock_of(struct tables *t, uint32_t sector)
{
    return &t->stripes[sector % t->stripe_count].lock;
}

uint32_t tables_read(struct tables *t, uint32_t sector, uint8_t *out)
{
    pthread_mutex_t *lock = lock_of(t, sector);
    pthread_mutex_lock(lock);
    uint32_t page = t->map[sector], block = page / t->pages;
    if (page != NO_PAGE)
        atomic_fetch_add_explicit(&t->readers[block].count, 1, memory_order_relaxed);
    pthread_mutex_unlock(lock);
    if (page == NO_PAGE)
        return MINTLINTEL_EMPTY;
    command(READ, block, t->luns);
    memcpy(out, t->data + page * t->page_bytes, t->page_bytes);
    atomic_fetch_sub_explicit(&t->readers[block].count, 1, memory_order_release);
    return MINTLINTEL_WRITTEN;
}

/* The oldest free block. Collectors take the last ones too; hosts wait for more, in the order in which they came. */
static uint32_t take_block(struct tables *t, int is_host)
{
    pthread_mutex_lock(&t->lock);
    uint32_t own = is_host ? t->next_turn++ : 0;
    while (t->free_count <= (is_host ? t->collector_count : 0) || (is_host && own != t->turn))
        pthread_cond_wait(&t->has_free, &t->lock);
    t->turn += is_host;
    uint32_t block = t->free[t->first_free];
    t->first_free = (t->first_free + 1) % t->block_count;
    t->free_count--;
    t->states[block] = OPEN;
    if (t->next_turn != t->turn)
        pthread_cond_broadcast(&t->has_free);
    pthread_mutex_unlock(&t->lock);
    return block;
}

static void give_block(struct tables *t, uint32_t block)
{
    pthread_mutex_lock(&t->lock);
    t->states[block] = FREE;
    t->free[(t->first_free + t->free_count++) % t->block_count] = block;
    pthread_cond_broadcast(&t->has_free);
    pthread_mutex_unlock(&t->lock);
}

/* The next page of a writer. */
static uint32_t next_page(struct tables *t, struct writer *writer, int is_host)
{
    if (writer->block == NO_BLOCK) {
        writer->block = take_block(t, is_host);
        writer->written = 0;
    }
    return writer->block * t->pages + writer->written++;
}

static void close_if_full(struct tables *t, struct writer *writer)
{
    if (writer->written < t->pages)
        return;
    t->states[writer->block] = CLOSED;
    writer->block = NO_BLOCK;
}

/* Maps a sector to a page, if `is_wanted` or if it is still at `from`; the page where it was. */
static uint32_t map_to(struct tables *t, uint32_t sector, uint32_t to, int is_wanted, uint32_t from)
{
    pthread_mutex_t *lock = lock_of(t, sector);
    pthread_mutex_lock(lock);
    uint32_t was = t->map[sector];
    int maps = is_wanted || was == from;
    if (maps && was != NO_PAGE)
        atomic_fetch_sub_explicit(&t->live[was / t->pages], 1, memory_order_relaxed);
    if (maps) {
        atomic_fetch_add_explicit(&t->live[to / t->pages], 1, memory_order_relaxed);
        atomic_store_explicit(&t->map[sector], to, memory_order_release);
    }
    pthread_mutex_unlock(lock);
    return was;
}

uint32_t tables_write(struct tables *t, uint32_t host, uint32_t sector, const uint8_t *page)
{
    struct writer *writer = &t->hosts[host];
    uint32_t to = next_page(t, writer, 1);
    memcpy(t->data + to * t->page_bytes, page, t->page_bytes);
    t->stamps[to] = sector;
    command(PROGRAM, writer->block, t->luns);
    uint32_t was = map_to(t, sector, to, 1, NO_PAGE);
    close_if_full(t, writer);
    return was == NO_PAGE ? MINTLINTEL_EMPTY : MINTLINTEL_WRITTEN;
}

/* The closed block with the fewest live pages, which nobody else drains from now on; NO_BLOCK if none has a dead one. */
static uint32_t take_victim(struct tables *t)
{
    uint32_t victim = NO_BLOCK, least = t->pages;
    pthread_mutex_lock(&t->lock);
    for (uint32_t block = 0; block < t->block_count; block++) {
        uint32_t live = atomic_load_explicit(&t->live[block], memory_order_relaxed);
        if (live < least && t->states[block] == CLOSED) {
            least = live;
            victim = block;
        }
    }
    if (victim != NO_BLOCK)
        t->states[victim] = DRAINING;
    pthread_mutex_unlock(&t->lock);
    return victim;
}

static void drain(struct tables *t, struct writer *writer, uint32_t victim)
{
    for (uint32_t from = victim * t->pages; from < (victim + 1) * t->pages; from++) {
        uint32_t sector = t->stamps[from];
        if (t->map[sector] != from)
            continue;
        uint32_t to = next_page(t, writer, 0);
        memcpy(t->data + to * t->page_bytes, t->data + from * t->page_bytes, t->page_bytes);
        t->stamps[to] = sector;
        command(COPY, victim, t->luns);
        map_to(t, sector, to, 0, from);
        t->copies++;
        close_if_full(t, writer);
    }
    t->drained++;
}

/* Erases what is drained and not read. What is read waits until later: the collector doesn't. */
static void erase_drained(struct tables *t, struct writer *writer)
{
    uint32_t kept = 0;
    for (uint32_t i = 0; i < writer->count; i++) {
        uint32_t block = writer->drained[i];
        if (atomic_load_explicit(&t->readers[block].count, memory_order_acquire) > 0) {
            writer->drained[kept++] = block;
            continue;
        }
        command(ERASE, block, t->luns);
        give_block(t, block);
    }
    writer->count = kept;
}

int tables_collect(struct tables *t, uint32_t collector)
{
    struct writer *writer = &t->collectors[collector];
    if (t->free_count >= FEW)
        return 1;
    erase_drained(t, writer);
    for (int i = 0; i < MANY && writer->count < MOST_DRAINED; i++) {
        /* It would wait for blocks that it has to erase itself. */
        if (writer->count > 0 && t->free_count <= t->collector_count)
            return 0;
        uint32_t victim = take_victim(t);
        if (victim == NO_BLOCK)
            return 1;
        drain(t, writer, victim);
        writer->drained[writer->count++] = victim;
        erase_drained(t, writer);
    }
    return 0;
}

void tables_moved(struct tables *t, uint64_t moved[2])
{
    moved[0] = t->copies;
    moved[1] = t->drained;
}
