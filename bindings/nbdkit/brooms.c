#define _GNU_SOURCE
#define NBDKIT_API_VERSION 2
#include "brooms.h"

#include <errno.h>
#include <inttypes.h>
#include <nbdkit-plugin.h>
#include <sched.h>
#include <stdio.h>
#include <stdlib.h>
#include <string.h>
#include <sys/resource.h>

#include "budget.h"
#include "cold.h"

enum {
    DRAINS_OF_A_SURVEY = 64,
    EVEN_PART = 16, // on a device that is more than half full no block has many more erases than others: this part of all that a block has
    MOST_WAITING = 2, // drained blocks that a broom keeps for copies
    MOST_LOOSE = 8, // blocks of cold data that are loosened ahead
    TURNS_OF_A_TRIAL = 8, // each so many choices the other one is tried
    DRAINS_REMEMBERED = 8, // an average of costs is over about so many
    POOR_PART = 8, // a drain that wins back less than this part of a block is made when a write waits, and not ahead of it
    LOOKS_OF_A_LIFE = 16, // so often a broom that isn't the first looks whether it is needed
    HEAD_START = 10, // how many nice values a broom's thread is below those of the requests
};

int brooms_begin(struct brooms *brooms, const struct options *options, struct stock *stock, struct luns *luns, struct sector_locks *locks,
                 struct mintlintel_seat *seats) {
    uint64_t most = options->blocks * (uint64_t) (options->endurance - 1), pages = options->blocks * (uint64_t) options->pages;
    *brooms = (struct brooms){.stock = stock, .luns = luns, .locks = locks, .count = options->brooms, .blocks = options->blocks, .pages = options->pages};
    brooms->page = options->page;
    brooms->sectors = options->sectors;
    brooms->endurance = options->endurance;
    brooms->is_crowded = 2 * (uint64_t) options->sectors > pages;
    brooms->unevenness = brooms->is_crowded ? options->endurance / EVEN_PART : options->endurance;
    brooms->warn_at = (most * options->warn + 99) / 100;
    pthread_rwlock_init(&brooms->choosing, NULL);
    brooms->brooms = aligned_alloc(_Alignof(struct broom), (options->brooms + 1) * sizeof *brooms->brooms);
    brooms->erases = calloc(options->blocks, sizeof *brooms->erases);
    brooms->is_loose = calloc(options->blocks, sizeof *brooms->is_loose);
    brooms->can_be_erased = calloc(options->blocks, sizeof *brooms->can_be_erased);
    int is_short = !brooms->brooms || !brooms->erases || !brooms->is_loose || !brooms->can_be_erased;
    for (uint32_t i = 0; i < options->brooms && brooms->brooms; i++) {
        struct broom *broom = &brooms->brooms[i];
        *broom = (struct broom){.seat = &seats[i], .all = brooms, .number = i, .destination = NO_BLOCK, .random = options->seed + i};
        broom->spare = options->blocks - options->brooms + i; // the library's choice on a new device
        broom->drained = calloc(options->blocks, sizeof *broom->drained);
        is_short |= !broom->drained;
    }
    if (!is_short)
        return 0;
    nbdkit_error("there is no memory for the brooms");
    brooms_end(brooms);
    return -1;
}

void brooms_end(struct brooms *brooms) {
    for (uint32_t i = 0; i < brooms->count && brooms->brooms; i++)
        free(brooms->brooms[i].drained);
    free(brooms->brooms);
    free((void *) brooms->erases);
    free((void *) brooms->is_loose);
    free(brooms->can_be_erased);
    pthread_rwlock_destroy(&brooms->choosing);
}

uint64_t brooms_copies(const struct brooms *brooms) {
    uint64_t copies = 0;
    for (uint32_t i = 0; i < brooms->count; i++)
        copies += tally_of(&brooms->brooms[i].copies) + tally_of(&brooms->brooms[i].renewed);
    return copies;
}

int brooms_retire(const struct brooms *brooms, uint32_t erases) {
    return erases + 1 >= brooms->endurance;
}

uint32_t *brooms_erases(const struct brooms *brooms, uint64_t *sum, uint64_t *retired) {
    uint32_t *erases = calloc(brooms->blocks, sizeof *erases);
    *sum = *retired = 0;
    for (uint32_t i = 0; erases && i < brooms->blocks; i++) {
        *sum += erases[i] = atomic_load_explicit(&brooms->erases[i], memory_order_relaxed);
        *retired += (uint64_t) brooms_retire(brooms, erases[i]);
    }
    return erases;
}

// A code that no call of a broom should return. It is reported once.
static void fail(struct broom *broom, const char *call, uint32_t code) {
    if (!broom->has_failed)
        nbdkit_error("broom %" PRIu32 ": %s: %s (%" PRIu32 ")", broom->number, call, mintlintel_code_name(code), code);
    broom->has_failed = 1;
}

static void count_erase(struct broom *broom, uint32_t block) {
    struct brooms *all = broom->all;
    uint32_t erases = atomic_fetch_add(&all->erases[block], 1) + 1, most = atomic_load(&all->most_erases);
    while (most < erases && !atomic_compare_exchange_weak(&all->most_erases, &most, erases))
        ;
    if (brooms_retire(all, erases))
        stock_count_retired(all->stock);
    uint64_t done = atomic_fetch_add_explicit(&all->all_erases, 1, memory_order_relaxed) + 1;
    if (done == all->warn_at)
        nbdkit_error("warning: %" PRIu64 " erases are done, and all %" PRIu32 " blocks together have %" PRIu64 ": the device is near its end", done,
                     all->blocks, all->blocks * (uint64_t) (all->endurance - 1));
}

// ---- The time that commands take.

static void sleep_until(struct broom *broom, uint64_t until) {
    if (until > 0 && !stock_is_stopping(broom->all->stock))
        luns_sleep(until);
}

// The block of the next copy.
static uint32_t next_destination(struct broom *broom) {
    if (broom->destination == NO_BLOCK || broom->filled == broom->all->pages) {
        broom->destination = broom->spare;
        broom->spare = NO_BLOCK;
        broom->filled = 0;
    }
    broom->filled++;
    return broom->destination;
}

// The pages that the broom has programmed for copies since it was asked last, also those whose sectors were written or trimmed meanwhile.
static uint32_t new_copies(struct broom *broom) {
    struct mintlintel_tally tally = {0, 0, 0};
    mintlintel_broom_tally(announced(broom->seat), &tally);
    uint64_t copies = tally.programs - tally_of(&broom->copies);
    tally_add(&broom->copies, copies);
    return (uint32_t) copies;
}

// The copies of a drain take their time one after the other, so that requests come between them.
static void take_copies(struct broom *broom, uint32_t victim, uint32_t count) {
    uint64_t until = 0;
    for (uint32_t i = 0; i < count; i++) {
        uint32_t to = next_destination(broom);
        until = luns_copy(broom->all->luns, victim, to == NO_BLOCK ? victim : to, until);
        sleep_until(broom, until);
    }
}

// ---- Which block is drained.

// Loosens blocks of cold data, if blocks are soon filled for the last time.
static void loosen(struct broom *broom) {
    struct brooms *all = broom->all;
    uint64_t until = 0;
    if (!all->is_crowded || !brooms_retire(all, atomic_load(&all->most_erases) + 1))
        return;
    while (atomic_load(&all->loose_count) < MOST_LOOSE && cold_loosen(broom, &until))
        sleep_until(broom, until);
}

static void forget_loose(struct brooms *all, uint32_t block) {
    if (atomic_exchange(&all->is_loose[block], 0))
        atomic_fetch_sub(&all->loose_count, 1);
}

// Notes a block that the broom has drained. The code is that of the drain.
static void note_drained(struct broom *broom, uint32_t code, uint32_t block) {
    if (code != MINTLINTEL_DONE)
        return;
    broom->drained[broom->drained_count++] = block;
    forget_loose(broom->all, block);
}

static int is_drained(const struct brooms *all, uint32_t block) {
    for (uint32_t i = 0; i < all->count; i++)
        for (uint32_t at = 0; at < all->brooms[i].drained_count; at++)
            if (all->brooms[i].drained[at] == block)
                return 1;
    return 0;
}

// Takes the marks of a survey away from all blocks but one or, if none is given, from those that have more erases than this or are loose. Retired
// blocks lose theirs in any case. The erase of a block that isn't drained does nothing else.
static void pass_over(struct broom *broom, uint64_t most, uint32_t only) {
    struct brooms *all = broom->all;
    for (uint32_t block = 0; block < all->blocks; block++) {
        uint32_t erases = atomic_load(&all->erases[block]);
        int is_passed = only != NO_BLOCK ? block != only : erases > most || atomic_load(&all->is_loose[block]);
        if ((is_passed || brooms_retire(all, erases)) && !is_drained(all, block))
            mintlintel_broom_erase(announced(broom->seat), block);
    }
}

// The most erases of a block that may be drained while others have something to gain.
static uint64_t even_erases(const struct brooms *all) {
    return atomic_load(&all->all_erases) / all->blocks + all->unevenness;
}

// Whether blocks have to be passed over.
static int is_uneven(const struct brooms *all) {
    uint32_t most = atomic_load(&all->most_erases);
    return brooms_retire(all, most) || most > even_erases(all);
}

// Drains a block by a new survey, one that isn't passed over. A drain of a dead block makes a survey, also where each block is live; a dead block is
// drained in any case.
static uint32_t drain_chosen(struct broom *broom, uint64_t most, uint32_t only, uint32_t *block, uint32_t *moved) {
    uint32_t code = mintlintel_broom_drain_dead(announced(broom->seat), block, moved);
    note_drained(broom, code, *block);
    pass_over(broom, most, only);
    if (code == MINTLINTEL_NO_SPARE) {
        code = mintlintel_broom_drain_next(announced(broom->seat), block, moved);
        note_drained(broom, code, *block);
    }
    return code;
}

// Whether the broom's next copies are to be cold data: they go to a block that is filled for the last time.
static int wants_cold(const struct broom *broom) {
    struct brooms *all = broom->all;
    uint32_t next = broom->destination != NO_BLOCK && broom->filled < all->pages ? broom->destination : broom->spare;
    return next != NO_BLOCK && brooms_retire(all, atomic_load(&all->erases[next])) && atomic_load(&all->loose_count) > 0;
}

// Drains a loose block.
static uint32_t drain_loose(struct broom *broom, uint32_t *block, uint32_t *moved) {
    struct brooms *all = broom->all;
    uint32_t loose = 0;
    while (loose < all->blocks && !atomic_load(&all->is_loose[loose]))
        loose++;
    if (loose == all->blocks)
        return MINTLINTEL_NOTHING_TO_GAIN;
    broom->drains_of_survey = 0;
    broom->choice = LOOSE;
    uint32_t code = drain_chosen(broom, UINT64_MAX, loose, block, moved);
    if (code != MINTLINTEL_DONE)
        forget_loose(all, loose);
    return code;
}

static void note_cost(struct broom *broom, uint32_t copies) {
    uint32_t *cost = &broom->costs[broom->choice];
    *cost += copies - *cost / DRAINS_REMEMBERED;
}

// Wears the blocks evenly, unless this costs an eighth of a block more. Now and then a single drain tells what the other choice costs.
static enum choice choose(struct broom *broom) {
    int is_dear = broom->costs[EVEN] > broom->costs[PLAIN] + broom->all->pages * DRAINS_REMEMBERED / POOR_PART;
    int is_trial = ++broom->choices % TURNS_OF_A_TRIAL == 0;
    if (is_trial)
        broom->drains_of_survey = DRAINS_OF_A_SURVEY;
    return is_dear == is_trial ? EVEN : PLAIN;
}

// Drains a block by a new survey: one with few erases, or if these gain nothing or cost much one with more erases. A loose one is drained where cold data
// is wanted, or when nothing else is left.
static uint32_t drain_evenly(struct broom *broom, uint32_t *block, uint32_t *moved) {
    uint32_t code = wants_cold(broom) ? drain_loose(broom, block, moved) : MINTLINTEL_NOTHING_TO_GAIN;
    if (code == MINTLINTEL_NOTHING_TO_GAIN && (broom->choice = choose(broom)) == EVEN)
        code = drain_chosen(broom, even_erases(broom->all), NO_BLOCK, block, moved);
    if (code == MINTLINTEL_NOTHING_TO_GAIN) {
        broom->choice = PLAIN;
        code = drain_chosen(broom, UINT64_MAX, NO_BLOCK, block, moved);
    }
    return code == MINTLINTEL_NOTHING_TO_GAIN && broom->drained_count == 0 ? drain_loose(broom, block, moved) : code;
}

// Drains the best block of the survey that the broom keeps.
static uint32_t drain_next(struct broom *broom, uint32_t *block, uint32_t *moved) {
    if (broom->drains_of_survey == 0 || broom->drains_of_survey >= DRAINS_OF_A_SURVEY)
        return MINTLINTEL_NOTHING_TO_GAIN;
    broom->drains_of_survey++;
    uint32_t code = mintlintel_broom_drain_next(announced(broom->seat), block, moved);
    note_drained(broom, code, *block);
    return code;
}

static uint32_t drain_by_survey(struct broom *broom, uint32_t *block, uint32_t *moved) {
    uint32_t code = mintlintel_broom_drain(announced(broom->seat), block, moved);
    broom->choice = PLAIN;
    note_drained(broom, code, *block);
    return code;
}

// Drains the best block of the survey that the broom keeps, or of a new one if that has none. Nobody else drains or erases a block while some are
// passed over.
static uint32_t drain_one(struct broom *broom, uint32_t *block, uint32_t *moved) {
    struct brooms *all = broom->all;
    loosen(broom);
    pthread_rwlock_rdlock(&all->choosing);
    uint32_t code = wants_cold(broom) ? MINTLINTEL_NOTHING_TO_GAIN : drain_next(broom, block, moved);
    int is_alone = code == MINTLINTEL_NOTHING_TO_GAIN && is_uneven(all);
    if (is_alone) {
        pthread_rwlock_unlock(&all->choosing);
        pthread_rwlock_wrlock(&all->choosing);
    }
    if (code == MINTLINTEL_NOTHING_TO_GAIN) {
        broom->drains_of_survey = 1;
        code = is_alone ? drain_evenly(broom, block, moved) : drain_by_survey(broom, block, moved);
    }
    pthread_rwlock_unlock(&all->choosing);
    return code;
}

// ---- What a broom does.

// Erases a drained block, the one with this number of those that wait. While a block is retired nobody drains or erases another one, so that
// whoever chooses a block afterwards passes over it.
static uint32_t erase_waiting(struct broom *broom, uint32_t at) {
    struct brooms *all = broom->all;
    uint32_t block = broom->drained[at];
    if (brooms_retire(all, atomic_load(&all->erases[block]) + 1))
        pthread_rwlock_wrlock(&all->choosing);
    else
        pthread_rwlock_rdlock(&all->choosing);
    uint32_t code = mintlintel_broom_erase(announced(broom->seat), block);
    if (code == MINTLINTEL_DONE || code == MINTLINTEL_KEPT)
        count_erase(broom, block);
    if (code != MINTLINTEL_PINNED)
        broom->drained[at] = broom->drained[--broom->drained_count];
    pthread_rwlock_unlock(&all->choosing);
    return code;
}

// Erases a drained block, and says what came of it. 0 if a host reads it, so that it has to wait.
static int erase(struct broom *broom, uint32_t at) {
    uint32_t block = broom->drained[at], code = erase_waiting(broom, at);
    if (code == MINTLINTEL_PINNED) {
        tally_add(&broom->pinned, 1);
        return 0;
    }
    if (code != MINTLINTEL_DONE && code != MINTLINTEL_KEPT && code != MINTLINTEL_RETIRED) {
        fail(broom, "erase", code);
        return 1;
    }
    sleep_until(broom, luns_erase(broom->all->luns, block, 0));
    if (code == MINTLINTEL_DONE) {
        stock_add_free(broom->all->stock);
        loosen(broom);
    }
    if (code == MINTLINTEL_KEPT) {
        tally_add(&broom->kept, 1);
        broom->spare = block;
    }
    return 1;
}

// Whether a drained block goes on waiting until it can be the broom's spare: it is filled only once more, and copies stay live longer than what
// clients write.
static int waits_for_copies(const struct broom *broom, uint32_t at) {
    struct brooms *all = broom->all;
    return all->is_crowded && at < MOST_WAITING && broom->spare != NO_BLOCK && brooms_retire(all, atomic_load(&all->erases[broom->drained[at]]) + 1);
}

// Erases the blocks that wait, all or those that don't wait for copies. 1 if there were any, even if a host still reads one: then a later round will
// erase it.
static int erase_drained(struct broom *broom, int are_all) {
    uint32_t pinned = 0, at = 0;
    int was_there = 0;
    while (at < broom->drained_count) {
        int waits = !are_all && waits_for_copies(broom, at), is_pinned = !waits && !erase(broom, at);
        was_there |= !waits;
        pinned += (uint32_t) is_pinned;
        at += (uint32_t) (waits || is_pinned);
    }
    if (pinned > 0)
        sched_yield();
    return was_there;
}

// Drains a block. 0 if there is nothing to gain, or the broom's next spare still waits to be erased.
static int drain(struct broom *broom) {
    uint32_t block = 0, moved = 0, code = drain_one(broom, &block, &moved), copies = new_copies(broom);
    broom->was_poor = copies > broom->all->pages - broom->all->pages / POOR_PART;
    switch (code) {
    case MINTLINTEL_DONE:
        tally_add(&broom->drains, 1);
        note_cost(broom, copies);
        take_copies(broom, block, copies);
        return 1;
    case MINTLINTEL_LOST:
        tally_add(&broom->lost, 1);
        return 1;
    case MINTLINTEL_NOTHING_TO_GAIN:
        return 0;
    default:
        if (code != MINTLINTEL_NO_SPARE || broom->drained_count == 0)
            fail(broom, "drain", code);
        return 0;
    }
}

// Whether the device has a broom too many. Each keeps blocks, so that the others find more live pages in those that are left. What it gives back it never
// gets again, so it looks only a few times in the life of a device: one that lasts keeps its brooms.
static int is_needless(struct broom *broom) {
    struct brooms *all = broom->all;
    uint64_t most = all->blocks * (uint64_t) (all->endurance - 1), part = most > 0 ? atomic_load(&all->all_erases) * LOOKS_OF_A_LIFE / most : 0;
    if (broom->number == 0 || broom->drained_count > 0 || part == broom->looked_at)
        return 0;
    broom->looked_at = part;
    return stock_is_calm(all->stock, &broom->load);
}

// Gives the broom's blocks back: they are closed, and another one collects them.
static void leave(struct broom *broom) {
    mintlintel_seat_close(announced(broom->seat));
    broom->destination = broom->spare = NO_BLOCK;
    stock_leave(broom->all->stock, broom->number);
}

// Erases, drains and erases: whether it has gained anything.
static int collect(struct broom *broom) {
    int was_fruitful = erase_drained(broom, 0);
    was_fruitful |= drain(broom);
    was_fruitful |= erase_drained(broom, 0);
    return was_fruitful || erase_drained(broom, 1);
}

// What a broom does in a round that it has begun. 0 if it has left.
static int go_round(struct broom *broom, uint64_t known) {
    struct stock *stock = broom->all->stock;
    int is_spared = stock_spares(stock, broom->number), counts = stock_wants_count(stock, broom->number);
    int was_fruitful = counts ? budget_count(broom) : is_spared ? erase_drained(broom, 1) : collect(broom);
    if (!was_fruitful)
        tally_add(&broom->fruitless, 1);
    if (is_spared ? broom->drained_count == 0 : is_needless(broom)) {
        leave(broom);
        return 0;
    }
    stock_end_round(stock, broom->number, known, !was_fruitful, broom->was_poor);
    return 1;
}

static void *sweep(void *argument) {
    struct broom *broom = argument;
    char name[16];
    snprintf(name, sizeof name, "broom-%" PRIu32, broom->number);
    pthread_setname_np(pthread_self(), name);
    // Writes wait for this thread, and if many go on at once, they would take the processors from it. Linux sets the nice value of a thread alone.
    // Without the right to do so the value stays.
    setpriority(PRIO_PROCESS, 0, getpriority(PRIO_PROCESS, 0) - HEAD_START);
    uint64_t known;
    while (stock_begin_round(broom->all->stock, broom->number, &known) && go_round(broom, known))
        ;
    return NULL;
}

int brooms_start(struct brooms *brooms) {
    while (brooms->started < brooms->count) {
        struct broom *broom = &brooms->brooms[brooms->started];
        int error = pthread_create(&broom->thread, NULL, sweep, broom);
        if (error) {
            nbdkit_error("no thread for broom %" PRIu32 ": %s", broom->number, strerror(error));
            return -1;
        }
        brooms->started++;
    }
    return 0;
}

void brooms_join(struct brooms *brooms) {
    for (uint32_t i = 0; i < brooms->started; i++)
        pthread_join(brooms->brooms[i].thread, NULL);
    brooms->started = 0;
}
