// The stock: handles for the requests, and the free blocks.
//
// Whoever takes a handle holds no other, waits for nothing while holding it, and gives it back. A sector's lock is taken before
// a handle, never after.
//
// The stock counts the free blocks. The library's count (mintlintel_broom_counts) is a broom's, loads each block, and has blocks
// that a handle is about to take; a write has to know at once, and without a broom. The count tells who has to wait, and when
// brooms may rest; that a write is done or refused is said by the library alone.
//
// A request that finds a handle takes and gives it back without the mutex. Who has to wait counts itself first, and looks once
// more before it waits; who gives a handle back, or changes something, looks afterwards whether somebody waits. All these steps
// are in one order, so one of the two sees the other.
#ifndef NBDKIT_STOCK_H
#define NBDKIT_STOCK_H

#include <pthread.h>
#include <stdatomic.h>
#include <stdint.h>

#include "library.h"
#include "options.h"
#include "waits.h"

// A count that one thread at a time adds to, and any thread may load.
typedef _Atomic uint64_t tally;

static inline void tally_add(tally *count, uint64_t more) {
    atomic_store_explicit(count, atomic_load_explicit(count, memory_order_relaxed) + more, memory_order_relaxed);
}

static inline uint64_t tally_of(tally *count) {
    return atomic_load_explicit(count, memory_order_relaxed);
}

// The page that a write has with its handle, until it is programmed: any one, or one of the budget.
enum page { NO_PAGE, ANY_PAGE, PAGE_OF_BUDGET };

// A host's handle. Only the thread that has taken it uses it.
struct host {
    _Alignas(64) struct mintlintel_seat *seat;
    uint32_t room; // pages that are left in its open block
    _Atomic enum page page;
    tally reads, writes, trims, refusals;
    tally filled, emptied; // writes of a sector that was empty, and trims of one that was written
};

// Idle handles: the bit of each is set.
enum { HOSTS_OF_A_WORD = 64, IDLE_WORDS = (MINTLINTEL_MAX_HOSTS + HOSTS_OF_A_WORD - 1) / HOSTS_OF_A_WORD };
struct idle {
    _Alignas(64) _Atomic uint64_t words[IDLE_WORDS];
};

struct stock {
    struct idle roomy, roomless;           // idle handles with room in an open block, and without
    _Alignas(64) _Atomic uint64_t changes; // what was done so far, from 1 on: after each a broom may find something new
    _Atomic uint32_t waiting, listening;   // requests that wait, and brooms that wait for a change
    _Atomic int is_rationed;               // hosts program pages of the budget alone
    _Atomic int64_t budget;                // those that no handle has taken

    _Alignas(64) pthread_mutex_t mutex; // of all fields below that change
    pthread_cond_t for_any, for_write, for_broom;
    struct host *hosts;
    uint32_t host_count, broom_count, pages, low, high, batch;
    struct {
        uint32_t low, high, spare, retired;
    } marks; // as they were at first, with the spare blocks then and those that were retired since
    uint64_t wait_ns;
    _Atomic uint32_t open_count; // handles with room, idle or not
    _Atomic uint32_t own_most;   // while fewer have room, a client opens a block of its own
    int32_t free_count;  // free blocks that no handle is about to take; below 0 while a block was taken that isn't counted yet
    uint32_t waiting_for_any, waiting_to_write;
    uint32_t starving;      // writes that wait while no block is free
    uint32_t pausing;       // brooms that looked in vain a moment ago
    uint32_t opened;        // blocks that handles have opened
    uint32_t *poor_at;      // of each broom, one more than the blocks that were opened as it last gained little, or 0
    uint32_t resting;       // brooms that rest since they gained little
    uint64_t *fruitless_at; // of each broom, the changes that it knew as it last found nothing to do, or 0
    uint64_t gained_at;     // when a broom last gained something
    int is_collecting, is_stopping;
    int is_held;             // brooms work only for a write that waits
    uint32_t working;        // brooms in a round
    uint8_t *has_left;       // of each broom, whether it collects no more
    uint64_t counted_at;     // the changes that were known as a count found no page for hosts, or 0
    int is_scarce;           // a count found none, so brooms leave up to the first
    int is_gathering; // writes wait until some blocks are free, since one at a time wakes a thread for each page
    uint64_t waits, gave_up, miscounts;
    struct waits waited; // of writes that have ended
    uint64_t wake_ups;      // how often waiting writes were woken, one or all
    uint64_t lost_wake_ups; // waits that ended by time, with room there and nobody woken meanwhile
};

// 0, or -1 with an error reported if there is no memory. The seats are those of an open device.
int stock_begin(struct stock *stock, const struct options *options, struct mintlintel_seat *seats);
void stock_end(struct stock *stock);

// A handle to read or trim with.
struct host *stock_take(struct stock *stock);
void stock_give(struct stock *stock, struct host *host);

// A handle for the rest of a long request: if another request waits for a handle, it is served first.
struct host *stock_yield(struct stock *stock, struct host *host);

// A write's way to a handle. Pages that a client writes one after the other often die so. Where each client fills blocks of its own, they die together,
// though another client writes faster.
struct attempt {
    uint32_t own;   // the number of the handle that its client prefers
    uint64_t began; // when no block was free for it, or no page in the budget, or 0
    uint64_t known; // the changes when it began to look for a handle, or 0 if it found one at once
    int is_last;    // it has waited in vain, so this try is its last
};

// A handle with room for a page, or, if no block comes free, any handle for a last try. NULL if hosts may program none: then the attempt has ended.
struct host *stock_take_to_write(struct stock *stock, struct attempt *attempt);

// A handle with room for a page that hosts may program, if there is one now, also while writes wait until more blocks are free: otherwise NULL.
struct host *stock_try_to_write(struct stock *stock);

// Gives a handle back after a write, a write for which the library found no block, or other changes.
void stock_give_written(struct stock *stock, struct host *host, const struct attempt *attempt);
void stock_give_refused(struct stock *stock, struct host *host, struct attempt *attempt);
void stock_give_changed(struct stock *stock, struct host *host);

// The same after a write or another change, but the handle is kept for the next page of a long request: NULL if it was given back, since somebody
// waits or it has no room for a page more. Who keeps one waits for nothing, and gives it back by stock_give_changed.
struct host *stock_keep_written(struct stock *stock, struct host *host, const struct attempt *attempt);
struct host *stock_keep_changed(struct stock *stock, struct host *host);

// The handle that was kept, with another page for it: NULL if hosts may program none, so that it was given back.
struct host *stock_use_kept(struct stock *stock, struct host *host);

// A broom waits for work: 0 if the brooms have to stop. `known` is what it passes on at the end of its round.
int stock_begin_round(struct stock *stock, uint32_t broom, uint64_t *known);
void stock_end_round(struct stock *stock, uint32_t broom, uint64_t known, int was_fruitless, int was_poor);

// The budget (budget.h). Whether this broom has to count the pages for it; a write waits for that. The count has what the stock knew as it began.
struct count {
    uint64_t known, kept; // the changes, and the pages that hosts may not program, or may already
    int is_final;         // no write goes on, and one broom is left: if it finds no page, there is none
};
int stock_wants_count(struct stock *stock, uint32_t broom);
void stock_begin_count(struct stock *stock, struct count *count);

// Ends a count that found so many pages, or UINT64_MAX if no page has to be kept any more: whether hosts may program some.
int stock_end_count(struct stock *stock, const struct count *count, uint64_t pages);

// Whether this broom has to leave since the pages are scarce.
int stock_spares(struct stock *stock, uint32_t broom);

// How often writes have waited for a block or were refused, and how many blocks were opened.
struct load {
    uint64_t waits;
    uint32_t opened;
};

// Whether one broom is enough: since `last`, which becomes now, few of the blocks that were opened were waited for, and none is kept free ahead of writes.
int stock_is_calm(struct stock *stock, struct load *last);

// Ends the round of a broom that has given its blocks back, and collects no more. The others look for these.
void stock_leave(struct stock *stock, uint32_t broom);

// A block was erased and is free.
void stock_add_free(struct stock *stock);

// A block was retired: it isn't erased any more. From the first one on there is a budget.
void stock_count_retired(struct stock *stock);

// From now on brooms work only for a write that waits; a turn lets them do all that they find to do, and waits for its end.
void stock_hold_brooms(struct stock *stock, int is_held);
void stock_turn_of_brooms(struct stock *stock);

// Brooms and writers wait no longer.
void stock_stop(struct stock *stock);
int stock_is_stopping(struct stock *stock);

#endif
