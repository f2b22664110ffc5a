/* What each call has to return, while one thread calls: two models, written from the descriptions of docs/ARCHITECTURE.md and not from the
 * library. They know where each block's pages are, so they determine the one code that each call may return. */
#ifndef MODELS_H
#define MODELS_H

#include "testing.h"

enum { SECTORS = 6, WORDS = 2, PAGE = 8 * WORDS, BLOCKS = 10, PAGES = 2, ENDURANCE = 4, HOSTS = 2, BROOMS = 2, NONE = -1 };

/* a page's place, or block NONE for an empty sector */
struct place { int block, page; };

/* ---- A device for one thread ---- */

struct one_block { int programmed, live, stamps[PAGES]; uint32_t erases; };

/* Blocks are opened from the lowest, and the last one is the spare. Without a block, the one with the fewest live pages is copied into the
 * spare, and erased. `value` is the byte of a sector's page. */
struct one_model {
    struct one_block blocks[BLOCKS];
    struct place places[SECTORS];
    int value[SECTORS], opened, spare, unused;
    struct mintlintel_totals totals;
};

static inline void one_begin(struct one_model *m)
{
    memset(m, 0, sizeof *m);
    m->opened = NONE;
    m->spare = BLOCKS - 1;
    for (int sector = 0; sector < SECTORS; sector++)
        m->places[sector].block = NONE;
}

static inline uint32_t one_was(const struct one_model *m, uint32_t sector)
{
    return m->places[sector].block != NONE;
}

static inline void one_forget(struct one_model *m, uint32_t sector)
{
    if (one_was(m, sector))
        m->blocks[m->places[sector].block].live--;
    m->places[sector].block = NONE;
}

static inline void one_program(struct one_model *m, int block, uint32_t sector)
{
    struct one_block *b = &m->blocks[block];
    one_forget(m, sector);
    m->places[sector] = (struct place){block, b->programmed};
    b->stamps[b->programmed++] = (int)sector;
    b->live++;
}

static inline void one_collect(struct one_model *m)
{
    int victim = NONE;
    for (int block = 0; block < BLOCKS; block++)
        if (block != m->spare && (victim == NONE || m->blocks[block].live < m->blocks[victim].live))
            victim = block;
    struct one_block *b = &m->blocks[victim];
    for (int page = 0; page < PAGES; page++) {
        struct place at = m->places[b->stamps[page]];
        if (at.block == victim && at.page == page) {
            one_program(m, m->spare, (uint32_t)b->stamps[page]);
            m->totals.copies++;
        }
    }
    b->programmed = 0;
    m->opened = m->spare;
    m->spare = ++b->erases == ENDURANCE ? NONE : victim;
    m->totals.erases++;
}

static inline uint32_t one_write(struct one_model *m, uint32_t sector, int value, int only_new)
{
    uint32_t was = one_was(m, sector);
    if (only_new && was)
        return MINTLINTEL_WRITTEN;
    if (m->opened == NONE && m->unused < BLOCKS - 1)
        m->opened = m->unused++;
    else if (m->opened == NONE && m->spare != NONE)
        one_collect(m);
    if (m->opened == NONE)
        return MINTLINTEL_WORN_OUT;
    one_program(m, m->opened, sector);
    m->value[sector] = value;
    m->totals.programs++;
    if (m->blocks[m->opened].programmed == PAGES)
        m->opened = NONE;
    return was;
}

static inline uint32_t one_trim(struct one_model *m, uint32_t sector)
{
    uint32_t was = one_was(m, sector);
    one_forget(m, sector);
    return was;
}

/* ---- A shared device ---- */

enum phase { FREE, OPENED, FULL, DRAINED, RETIRED };
struct state { enum phase phase; int readers; uint32_t generation; };
struct shared_block { struct state state; int programmed, stamps[PAGES]; };
/* the blocks that were full at a broom's last survey, as they were then, and how many of their pages were live */
struct survey { int marked[BLOCKS], live[BLOCKS]; struct state states[BLOCKS]; };
struct broom_model { int spare, destination; struct survey survey; struct mintlintel_tally tally; };

struct shared_model {
    struct shared_block blocks[BLOCKS];
    struct place places[SECTORS];
    int value[SECTORS], opened[HOSTS], holds[HOSTS], broom_count;
    struct broom_model brooms[BROOMS];
};

static inline void shared_begin(struct shared_model *m, int brooms)
{
    memset(m, 0, sizeof *m);
    m->broom_count = brooms;
    for (int sector = 0; sector < SECTORS; sector++)
        m->places[sector].block = NONE;
    for (int host = 0; host < HOSTS; host++)
        m->opened[host] = m->holds[host] = NONE;
    for (int broom = 0; broom < brooms; broom++) {
        m->brooms[broom].destination = NONE;
        m->brooms[broom].spare = BLOCKS - brooms + broom;
        m->blocks[BLOCKS - brooms + broom].state.phase = OPENED;
    }
}

static inline uint32_t shared_was(const struct shared_model *m, uint32_t sector)
{
    return m->places[sector].block != NONE;
}

/* Opens the lowest free block, or NONE. */
static inline int lowest_free(struct shared_model *m)
{
    for (int block = 0; block < BLOCKS; block++)
        if (m->blocks[block].state.phase == FREE) {
            m->blocks[block].state.phase = OPENED;
            return block;
        }
    return NONE;
}

static inline int has_free(const struct shared_model *m)
{
    for (int block = 0; block < BLOCKS; block++)
        if (m->blocks[block].state.phase == FREE)
            return 1;
    return 0;
}

/* Programs the next page of an open block, which is full and open no more after its last one. */
static inline struct place shared_program(struct shared_model *m, int *opened, uint32_t sector)
{
    struct shared_block *b = &m->blocks[*opened];
    struct place at = {*opened, b->programmed};
    b->stamps[b->programmed++] = (int)sector;
    if (b->programmed == PAGES) {
        b->state.phase = FULL;
        *opened = NONE;
    }
    return at;
}

static inline uint32_t shared_write(struct shared_model *m, int host, uint32_t sector, int value, int only_new)
{
    if (m->opened[host] == NONE)
        m->opened[host] = lowest_free(m);
    if (m->opened[host] == NONE)
        return MINTLINTEL_NO_BLOCK;
    struct place at = shared_program(m, &m->opened[host], sector);
    uint32_t was = shared_was(m, sector);
    if (!only_new || !was) {
        m->places[sector] = at;
        m->value[sector] = value;
    }
    return was;
}

static inline uint32_t shared_trim(struct shared_model *m, uint32_t sector)
{
    uint32_t was = shared_was(m, sector);
    m->places[sector].block = NONE;
    return was;
}

static inline uint32_t shared_hold(struct shared_model *m, int host, uint32_t sector, struct mintlintel_page *page)
{
    if (!shared_was(m, sector))
        return MINTLINTEL_EMPTY;
    struct state *state = &m->blocks[m->places[sector].block].state;
    state->readers++;
    m->holds[host] = m->places[sector].block;
    *page = (struct mintlintel_page){(uint32_t)m->holds[host], state->generation};
    return MINTLINTEL_WRITTEN;
}

static inline void shared_release(struct shared_model *m, int host)
{
    if (m->holds[host] != NONE)
        m->blocks[m->holds[host]].state.readers--;
    m->holds[host] = NONE;
}

static inline int is_live(const struct shared_model *m, int block, int page)
{
    struct place at = m->places[m->blocks[block].stamps[page]];
    return at.block == block && at.page == page;
}

static inline void make_survey(const struct shared_model *m, struct survey *s)
{
    for (int block = 0; block < BLOCKS; block++) {
        s->states[block] = m->blocks[block].state;
        s->marked[block] = m->blocks[block].state.phase == FULL;
        s->live[block] = 0;
        for (int page = 0; page < m->blocks[block].programmed; page++)
            s->live[block] += is_live(m, block, page);
    }
}

/* The marked block with the fewest live pages, the lowest on a tie, or NONE if there is nothing to gain. */
static inline int victim_of(const struct survey *s)
{
    int victim = NONE;
    for (int i = 0; i < BLOCKS; i++)
        if (s->marked[i] && (victim == NONE || s->live[i] < s->live[victim]))
            victim = i;
    return victim == NONE || s->live[victim] == PAGES ? NONE : victim;
}

/* Whether a block has another state than the survey has. */
static inline int has_changed(const struct shared_model *m, const struct survey *s, int block)
{
    const struct state *now = &m->blocks[block].state, *then = &s->states[block];
    return now->phase != then->phase || now->readers != then->readers || now->generation != then->generation;
}

/* Moves a page that is live to the destination, which is the spare if there is none yet. */
static inline void move_page(struct shared_model *m, struct broom_model *b, int block, int page)
{
    uint32_t sector = (uint32_t)m->blocks[block].stamps[page];
    if (b->destination == NONE) {
        b->destination = b->spare;
        b->spare = NONE;
    }
    m->places[sector] = shared_program(m, &b->destination, sector);
    b->tally.programs++;
    b->tally.moved++;
}

/* A drain: by a new survey, or by the last one. */
static inline uint32_t shared_drain(struct shared_model *m, int broom, int anew, uint32_t *block, uint32_t *moved)
{
    struct broom_model *b = &m->brooms[broom];
    struct survey *s = &b->survey;
    if (b->spare == NONE)
        return MINTLINTEL_NO_SPARE;
    if (anew)
        make_survey(m, s);
    int victim = victim_of(s);
    if (victim == NONE)
        return MINTLINTEL_NOTHING_TO_GAIN;
    s->marked[victim] = 0;
    struct state *now = &m->blocks[victim].state;
    if (has_changed(m, s, victim))
        return MINTLINTEL_LOST;
    *block = (uint32_t)victim;
    *moved = 0;
    for (int page = 0; page < m->blocks[victim].programmed; page++)
        if (is_live(m, victim, page)) {
            move_page(m, b, victim, page);
            ++*moved;
        }
    now->phase = DRAINED;
    return MINTLINTEL_DONE;
}

/* A drain of the block with the fewest live pages, by a new survey, if it has none. It needs no spare. */
static inline uint32_t shared_drain_dead(struct shared_model *m, int broom, uint32_t *block, uint32_t *moved)
{
    struct survey *s = &m->brooms[broom].survey;
    make_survey(m, s);
    int victim = victim_of(s);
    if (victim == NONE)
        return MINTLINTEL_NOTHING_TO_GAIN;
    if (s->live[victim] > 0)
        return MINTLINTEL_NO_SPARE;
    s->marked[victim] = 0;
    m->blocks[victim].state.phase = DRAINED;
    *block = (uint32_t)victim;
    *moved = 0;
    return MINTLINTEL_DONE;
}

static inline uint32_t shared_erase(struct shared_model *m, int broom, uint32_t block)
{
    struct shared_block *b = &m->blocks[block];
    m->brooms[broom].survey.marked[block] = 0;
    if (b->state.phase != DRAINED)
        return MINTLINTEL_STALE;
    if (b->state.readers > 0)
        return MINTLINTEL_PINNED;
    b->state.generation++;
    m->brooms[broom].tally.erases++;
    if (b->state.generation == ENDURANCE) {
        b->state.phase = RETIRED;
        return MINTLINTEL_RETIRED;
    }
    b->programmed = 0;
    if (m->brooms[broom].spare == NONE) {
        b->state.phase = OPENED;
        m->brooms[broom].spare = (int)block;
        return MINTLINTEL_KEPT;
    }
    b->state.phase = FREE;
    return MINTLINTEL_DONE;
}

static inline uint32_t shared_restock(struct shared_model *m, int broom)
{
    if (m->brooms[broom].spare == NONE)
        m->brooms[broom].spare = lowest_free(m);
    return m->brooms[broom].spare == NONE ? MINTLINTEL_NO_SPARE : MINTLINTEL_DONE;
}

/* The state of a block, whose mark goes if the survey has another one. */
static inline struct mintlintel_state shared_block(struct shared_model *m, int broom, uint32_t block)
{
    static const uint32_t phases[] = {
        [FREE] = MINTLINTEL_PHASE_FREE, [OPENED] = MINTLINTEL_PHASE_OPEN, [FULL] = MINTLINTEL_PHASE_CLOSED, [DRAINED] = MINTLINTEL_PHASE_DRAINED,
        [RETIRED] = MINTLINTEL_PHASE_RETIRED,
    };
    const struct shared_block *b = &m->blocks[block];
    struct survey *s = &m->brooms[broom].survey;
    s->marked[block] &= !has_changed(m, s, (int)block);
    return (struct mintlintel_state){phases[b->state.phase], (uint32_t)b->state.readers, (uint32_t)b->programmed, b->state.generation};
}

/* The counts of the blocks, and the code: of a device's only broom, without a spare, and with no block that is free or to be erased, only a dead
 * one can become free. */
static inline uint32_t shared_counts(struct shared_model *m, int broom, struct mintlintel_counts *counts)
{
    int blocks[RETIRED + 1] = {0};
    uint64_t erases = 0;
    for (uint32_t block = 0; block < BLOCKS; block++) {
        erases += shared_block(m, broom, block).erases;
        blocks[m->blocks[block].state.phase]++;
    }
    *counts = (struct mintlintel_counts){
        .erases = erases, .free = (uint32_t)blocks[FREE], .open = (uint32_t)blocks[OPENED], .closed = (uint32_t)blocks[FULL],
        .drained = (uint32_t)blocks[DRAINED], .retired = (uint32_t)blocks[RETIRED], .spares = m->brooms[broom].spare != NONE,
    };
    return m->broom_count > 1 || counts->spares + counts->free + counts->drained > 0 ? MINTLINTEL_DONE : MINTLINTEL_EXHAUSTED;
}

/* A collection erases each block that is drained, and then drains and erases one block after the other, until the goal is reached: by one survey,
 * and by a new one where it looks for a block without live pages, since it has no spare and no block is free. */
static inline uint32_t shared_erase_counted(struct shared_model *m, int broom, uint32_t block, struct mintlintel_collected *did)
{
    uint32_t code = shared_erase(m, broom, block);
    did->freed += code == MINTLINTEL_DONE;
    did->kept += code == MINTLINTEL_KEPT;
    did->retired += code == MINTLINTEL_RETIRED;
    did->pinned += code == MINTLINTEL_PINNED;
    return code;
}

static inline uint32_t shared_restock_counted(struct shared_model *m, int broom, struct mintlintel_collected *did)
{
    struct mintlintel_counts counts;
    uint32_t block, moved;
    if (shared_restock(m, broom) == MINTLINTEL_DONE) {
        did->restocked++;
        return MINTLINTEL_DONE;
    }
    if (shared_drain_dead(m, broom, &block, &moved) == MINTLINTEL_DONE) {
        shared_erase_counted(m, broom, block, did);
        return MINTLINTEL_DONE;
    }
    return shared_counts(m, broom, &counts) == MINTLINTEL_EXHAUSTED ? MINTLINTEL_EXHAUSTED : MINTLINTEL_NO_SPARE;
}

static inline uint32_t shared_collect(struct shared_model *m, int broom, uint32_t goal, struct mintlintel_collected *did)
{
    int has_survey = 0;
    memset(did, 0, sizeof *did);
    for (uint32_t block = 0; block < BLOCKS; block++)
        shared_erase_counted(m, broom, block, did);
    while (did->freed < goal) {
        uint32_t block, moved, code;
        if (m->brooms[broom].spare == NONE) {
            has_survey |= !has_free(m);
            code = shared_restock_counted(m, broom, did);
        } else {
            code = shared_drain(m, broom, !has_survey, &block, &moved);
            has_survey = 1;
            if (code == MINTLINTEL_DONE) {
                did->moved += moved;
                shared_erase_counted(m, broom, block, did);
            }
        }
        if (code != MINTLINTEL_DONE && code != MINTLINTEL_LOST)
            return did->pinned > 0 ? MINTLINTEL_PINNED : code;
    }
    return MINTLINTEL_DONE;
}

/* A block that a seat has open counts as full as soon as the seat is closed. */
static inline void give_up(struct shared_model *m, int *opened)
{
    if (*opened != NONE)
        m->blocks[*opened].state.phase = FULL;
    *opened = NONE;
}

static inline void shared_close_host(struct shared_model *m, int host)
{
    shared_release(m, host);
    give_up(m, &m->opened[host]);
}

static inline void shared_close_broom(struct shared_model *m, int broom)
{
    give_up(m, &m->brooms[broom].destination);
    give_up(m, &m->brooms[broom].spare);
}

#endif
