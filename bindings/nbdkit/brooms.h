// Brooms: threads that collect garbage. Each drains a block and erases it, and rests while there are blocks enough.
//
// The last erase of a block would fail. So a block that has only this one left is retired: it is filled once more, and then no broom drains it
// while it has a live page. That way no broom loses the block that it copies to.
//
// On a device that is more than half full brooms wear the blocks evenly, too: a block with more erases than others is drained when these have nothing to
// gain. And since a retired block keeps its dead pages, it is filled with what stays live: by copies if a broom can wait for them, and best of all by
// cold data, whose block then has its erases for others.
#ifndef NBDKIT_BROOMS_H
#define NBDKIT_BROOMS_H

#include <pthread.h>
#include <stdint.h>

#include "luns.h"
#include "sector_locks.h"
#include "stock.h"

// How a block is chosen that is drained: the one with the fewest live pages, one of those with few erases, or a loose one.
enum choice { PLAIN, EVEN, LOOSE, CHOICES };

struct broom {
    _Alignas(64) struct mintlintel_seat *seat;
    struct brooms *all;
    uint32_t number;
    pthread_t thread;
    uint32_t *drained; // blocks that wait to be erased, under the lock of `choosing`
    uint32_t drained_count;
    uint32_t drains_of_survey; // drains by the survey that it keeps
    int has_failed;
    enum choice choice;       // that of its survey
    uint32_t costs[CHOICES];  // the copies of a drain by each choice of late, eight times the average
    uint32_t choices;         // how often it has chosen between the first two
    int was_poor; // its last drain moved nearly a whole block
    uint32_t destination, filled; // the block that it copies to, and how many of its pages are copies; or NO_BLOCK
    uint32_t spare;               // the block after that, or NO_BLOCK
    uint64_t random;              // for the sectors whose blocks are compared
    uint64_t looked_at;           // parts of all erases that were used when it last looked whether it is needed
    struct load load;             // and what had been waited for then
    tally copies;                 // its programs, by the library's tally of its seat
    tally renewed;                // pages that a host's seat has written anew for it
    tally drains, kept, pinned, lost, fruitless;
};

struct brooms {
    struct stock *stock;
    struct luns *luns;
    struct sector_locks *locks;
    struct broom *brooms;
    uint32_t count, started;
    uint32_t blocks, pages, page, sectors, endurance;
    uint64_t warn_at;         // at this many erases of all blocks a warning is given, or 0
    int is_crowded;           // more than half of the pages are in use
    uint32_t unevenness;      // erases that a block may have more than the blocks have on average
    pthread_rwlock_t choosing; // shared for a drain and for an erase; alone to pass over blocks, and to retire one
    _Atomic uint64_t all_erases;
    _Atomic uint32_t most_erases; // of a block
    _Atomic uint32_t *erases;     // of each block
    _Atomic uint8_t *is_loose;    // of each block: it has cold data and a dead page, and is drained into a block that is filled for the last time
    _Atomic uint32_t loose_count;
    uint8_t *can_be_erased; // of each block, for a count of the pages
};

// 0, or -1 with an error reported if there is no memory.
int brooms_begin(struct brooms *brooms, const struct options *options, struct stock *stock, struct luns *luns, struct sector_locks *locks,
                 struct mintlintel_seat *seats);
void brooms_end(struct brooms *brooms);

// The pages that were programmed for collection.
uint64_t brooms_copies(const struct brooms *brooms);

// Whether a block that was erased so often is retired.
int brooms_retire(const struct brooms *brooms, uint32_t erases);

// The erases of each block, at one moment, and of these the sum and how many blocks are retired. NULL if there is no memory.
uint32_t *brooms_erases(const struct brooms *brooms, uint64_t *sum, uint64_t *retired);

// Starts the threads: 0, or -1 with an error reported. They end after stock_stop, and brooms_join waits for them.
int brooms_start(struct brooms *brooms);
void brooms_join(struct brooms *brooms);

#endif
