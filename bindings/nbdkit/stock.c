#define NBDKIT_API_VERSION 2
#include "stock.h"

#include <nbdkit-plugin.h>
#include <stdlib.h>
#include <time.h>

#ifndef LOOK_AGAIN_MS // a test makes it so long that only a wake-up ends a wait
enum { LOOK_AGAIN_MS = 10 }; // a waiting write looks again by itself
#endif

enum {
    PAUSE_MS = 2,       // a broom that found nothing while no request waits
    MAX_WAITS = 10,     // a write waits at most this many times the wait, even if blocks do become free
    TURN_MS = 1,        // a long request that lets others have its handle takes one again
    MAX_BATCH = 8,      // free blocks that waiting writes wait for, if brooms can win as many
    OWN_PART = 4,       // clients open blocks of their own up to this part of the spare ones
    CALM_PART = 4,      // where writes wait for less than this part of the blocks that are opened, one broom is enough
};

static uint64_t now(void) {
    struct timespec time;
    clock_gettime(CLOCK_MONOTONIC, &time);
    return (uint64_t) time.tv_sec * 1000000000 + (uint64_t) time.tv_nsec;
}

// Waits for a signal, or until some milliseconds have gone: then 0.
static int wait_at_most(pthread_cond_t *signal, pthread_mutex_t *mutex, uint32_t milliseconds) {
    uint64_t end = now() + milliseconds * (uint64_t) 1000000;
    struct timespec time = {.tv_sec = (time_t) (end / 1000000000), .tv_nsec = (long) (end % 1000000000)};
    return pthread_cond_timedwait(signal, mutex, &time) == 0;
}

static void begin_signals(struct stock *stock) {
    pthread_condattr_t monotonic;
    pthread_condattr_init(&monotonic);
    pthread_condattr_setclock(&monotonic, CLOCK_MONOTONIC);
    pthread_mutex_init(&stock->mutex, NULL);
    pthread_cond_init(&stock->for_any, &monotonic);
    pthread_cond_init(&stock->for_write, &monotonic);
    pthread_cond_init(&stock->for_broom, &monotonic);
    pthread_condattr_destroy(&monotonic);
}

static void put_idle(struct stock *stock, struct host *host);

int stock_begin(struct stock *stock, const struct options *options, struct mintlintel_seat *seats) {
    uint32_t hosts = options->hosts;
    *stock = (struct stock){
        .host_count = hosts,
        .broom_count = options->brooms,
        .pages = options->pages,
        .low = options->low,
        .high = options->high,
        .marks = {.low = options->low, .high = options->high, .spare = options->spare_blocks},
        .own_most = options->spare_blocks / OWN_PART,
        .batch = options->low < MAX_BATCH ? options->low : MAX_BATCH,
        .wait_ns = options->wait * (uint64_t) 1000000,
        .changes = 1,
        .free_count = (int32_t) (options->blocks - options->brooms), // each broom begins with a spare
    };
    stock->is_collecting = stock->free_count < (int32_t) stock->low;
    begin_signals(stock);
    stock->hosts = aligned_alloc(_Alignof(struct host), hosts * sizeof *stock->hosts);
    stock->fruitless_at = calloc(options->brooms + 1, sizeof *stock->fruitless_at);
    stock->poor_at = calloc(options->brooms + 1, sizeof *stock->poor_at);
    stock->has_left = calloc(options->brooms + 1, sizeof *stock->has_left);
    if (!stock->hosts || !stock->fruitless_at || !stock->poor_at || !stock->has_left) {
        nbdkit_error("there is no memory for the handles");
        stock_end(stock);
        return -1;
    }
    for (uint32_t i = 0; i < hosts; i++) {
        stock->hosts[i] = (struct host){.seat = &seats[i]};
        put_idle(stock, &stock->hosts[i]);
    }
    return 0;
}

void stock_end(struct stock *stock) {
    free(stock->hosts);
    free(stock->fruitless_at);
    free(stock->poor_at);
    free(stock->has_left);
    pthread_cond_destroy(&stock->for_any);
    pthread_cond_destroy(&stock->for_write);
    pthread_cond_destroy(&stock->for_broom);
    pthread_mutex_destroy(&stock->mutex);
}

// ---- Idle handles, with or without the mutex.

static void put_idle(struct stock *stock, struct host *host) {
    uint32_t number = (uint32_t) (host - stock->hosts);
    struct idle *idle = host->room > 0 ? &stock->roomy : &stock->roomless;
    atomic_fetch_or(&idle->words[number / HOSTS_OF_A_WORD], (uint64_t) 1 << number % HOSTS_OF_A_WORD);
}

// The idle handle with the lowest number, so that few blocks are open. NULL if none is idle.
static struct host *take_idle(struct stock *stock, struct idle *idle) {
    for (uint32_t at = 0; at * HOSTS_OF_A_WORD < stock->host_count; at++) {
        uint64_t bits = atomic_load(&idle->words[at]);
        while (bits != 0) {
            uint64_t bit = bits & -bits;
            bits = atomic_fetch_and(&idle->words[at], ~bit);
            if (bits & bit)
                return &stock->hosts[at * HOSTS_OF_A_WORD + (uint32_t) __builtin_ctzll(bit)];
        }
    }
    return NULL;
}

// Whether the handle with this number is idle, with or without room.
static int is_idle(struct idle *idle, uint32_t number) {
    return (atomic_load(&idle->words[number / HOSTS_OF_A_WORD]) >> number % HOSTS_OF_A_WORD & 1) != 0;
}

// The handle with this number, or NULL if it isn't idle.
static struct host *take_this(struct stock *stock, struct idle *idle, uint32_t number) {
    uint64_t bit = (uint64_t) 1 << number % HOSTS_OF_A_WORD;
    int is_taken = is_idle(idle, number) && (atomic_fetch_and(&idle->words[number / HOSTS_OF_A_WORD], ~bit) & bit) != 0;
    return is_taken ? &stock->hosts[number] : NULL;
}

static int has_idle(struct stock *stock, struct idle *idle) {
    for (uint32_t at = 0; at * HOSTS_OF_A_WORD < stock->host_count; at++)
        if (atomic_load(&idle->words[at]) != 0)
            return 1;
    return 0;
}

static struct host *take_any_idle(struct stock *stock) {
    struct host *host = take_idle(stock, &stock->roomless);
    return host ? host : take_idle(stock, &stock->roomy);
}

// Whether a client whose own handle is idle without room opens a block, though others have room.
static int opens_own(struct stock *stock, uint32_t own) {
    return is_idle(&stock->roomless, own) && atomic_load(&stock->open_count) < atomic_load(&stock->own_most);
}

// A client's own handle if it has room, and otherwise another one with room, unless the client has to open a block of its own.
static struct host *take_roomy(struct stock *stock, uint32_t own, int may_open) {
    struct host *host = take_this(stock, &stock->roomy, own);
    return host || (may_open && opens_own(stock, own)) ? host : take_idle(stock, &stock->roomy);
}

// Takes a page for a handle's next program: 0 if the budget has none. The handle is marked first, so that a count finds the page here or there.
static int take_page(struct stock *stock, struct host *host) {
    atomic_store(&host->page, ANY_PAGE);
    if (!atomic_load(&stock->is_rationed))
        return 1;
    int64_t left = atomic_load(&stock->budget);
    while (left > 0 && !atomic_compare_exchange_weak(&stock->budget, &left, left - 1))
        ;
    atomic_store(&host->page, left > 0 ? PAGE_OF_BUDGET : NO_PAGE);
    return left > 0;
}

static int is_used_up(struct stock *stock) {
    return atomic_load(&stock->is_rationed) && atomic_load(&stock->budget) <= 0;
}

// ---- The mutex is held from here to the next line of this form.

// Whether each broom has looked in vain since the last change.
static int is_fruitless(struct stock *stock) {
    uint64_t changes = atomic_load(&stock->changes);
    for (uint32_t broom = 0; broom < stock->broom_count; broom++)
        if (stock->fruitless_at[broom] != changes && !stock->has_left[broom])
            return 0;
    return 1;
}

static int lacks_block(const struct stock *stock) {
    return stock->free_count <= 0;
}

static int may_open(const struct stock *stock) {
    return !lacks_block(stock) && !stock->is_gathering;
}

// Whether no write can be done until somebody trims.
static int is_hopeless(struct stock *stock) {
    return lacks_block(stock) && stock->open_count == 0 && is_fruitless(stock);
}

// Whether a write waits for pages, and something has changed since there were none.
static int waits_for_count(struct stock *stock) {
    return stock->waiting_to_write > 0 && is_used_up(stock) && stock->counted_at < atomic_load(&stock->changes);
}

// Wakes one write that waits, or all.
static void wake_write(struct stock *stock) {
    stock->wake_ups++;
    pthread_cond_signal(&stock->for_write);
}

static void wake_writes(struct stock *stock) {
    stock->wake_ups++;
    pthread_cond_broadcast(&stock->for_write);
}

// The free blocks, or the marks, have changed.
static void mind_marks(struct stock *stock) {
    int was_collecting = stock->is_collecting;
    if (stock->free_count < (int32_t) stock->low)
        stock->is_collecting = 1;
    if (stock->free_count >= (int32_t) stock->high)
        stock->is_collecting = 0;
    if (stock->is_collecting != was_collecting)
        pthread_cond_broadcast(&stock->for_broom);
    if (stock->free_count >= (int32_t) stock->batch)
        stock->is_gathering = 0;
    if (stock->waiting_to_write > 0 && may_open(stock))
        wake_writes(stock);
}

static void stop_gathering(struct stock *stock) {
    stock->is_gathering = 0;
    if (stock->waiting_to_write > 0 && (may_open(stock) || is_hopeless(stock)))
        wake_writes(stock);
}

static struct host *take_any(struct stock *stock) {
    struct host *host = take_any_idle(stock);
    while (!host) {
        stock->waiting_for_any++;
        atomic_fetch_add(&stock->waiting, 1);
        host = take_any_idle(stock);
        if (!host)
            pthread_cond_wait(&stock->for_any, &stock->mutex);
        atomic_fetch_sub(&stock->waiting, 1);
        stock->waiting_for_any--;
        if (!host)
            host = take_any_idle(stock);
    }
    return host;
}

// A handle with room, or one that may take a free block; NULL if there is neither. No block is opened before it is needed.
static struct host *find_with_room(struct stock *stock, uint32_t own, int may_open) {
    struct host *host = take_roomy(stock, own, may_open);
    if (host || !may_open)
        return host;
    host = take_this(stock, &stock->roomless, own);
    host = host ? host : take_idle(stock, &stock->roomless);
    if (!host)
        return NULL;
    host->room = stock->pages;
    stock->open_count++;
    stock->free_count--;
    stock->opened++;
    if (stock->resting > 0)
        pthread_cond_broadcast(&stock->for_broom);
    mind_marks(stock);
    return host;
}

// Tells those who wait that a handle is idle, or that something has changed.
static void tell(struct stock *stock, int has_room) {
    if (stock->waiting_for_any > 0)
        pthread_cond_signal(&stock->for_any);
    if ((atomic_load(&stock->listening) > 0 && !is_fruitless(stock)) || waits_for_count(stock))
        pthread_cond_broadcast(&stock->for_broom);
    if (stock->waiting_to_write == 0)
        return;
    if (has_room || may_open(stock))
        wake_write(stock);
    else if (is_hopeless(stock))
        wake_writes(stock);
}

// Gives a handle back, and its page if it hasn't programmed it. A count comes before or after that.
static void give(struct stock *stock, struct host *host) {
    int has_room = host->room > 0, has_page = atomic_load(&host->page) == PAGE_OF_BUDGET;
    atomic_fetch_add(&stock->budget, has_page);
    atomic_store(&host->page, NO_PAGE);
    put_idle(stock, host);
    tell(stock, has_room || has_page);
}

// The same handle as find_with_room with a page, or NULL if there is none for it.
static struct host *take_with_room(struct stock *stock, uint32_t own, int may_open) {
    struct host *host = is_used_up(stock) ? NULL : find_with_room(stock, own, may_open);
    if (!host || take_page(stock, host))
        return host;
    give(stock, host);
    return NULL;
}

// Any handle with a page, or NULL if there is no page.
static struct host *take_last(struct stock *stock) {
    struct host *host = is_used_up(stock) ? NULL : take_any(stock);
    if (!host || take_page(stock, host))
        return host;
    give(stock, host);
    return NULL;
}

// Something was done after which a broom that found nothing may find something: a write or a trim, or a block came free.
static void count_change(struct stock *stock) {
    atomic_fetch_add(&stock->changes, 1);
}

// Whether a write has waited as long as a write may, even if brooms gained something in between.
static int is_over(const struct stock *stock, const struct attempt *attempt) {
    return attempt->began != 0 && now() - attempt->began >= MAX_WAITS * stock->wait_ns;
}

static int has_waited_in_vain(struct stock *stock, const struct attempt *attempt) {
    int is_without_page = is_used_up(stock);
    if (stock->is_stopping || is_hopeless(stock) || is_over(stock, attempt) || (is_without_page && stock->counted_at >= attempt->known))
        return 1;
    if (attempt->began == 0 || !(is_without_page || lacks_block(stock)))
        return 0;
    uint64_t since = attempt->began > stock->gained_at ? attempt->began : stock->gained_at;
    return now() - since >= stock->wait_ns;
}

// Whether a write could have a handle now.
static int has_room_for_write(struct stock *stock) {
    return !is_used_up(stock) && (has_idle(stock, &stock->roomy) || (may_open(stock) && has_idle(stock, &stock->roomless)));
}

static void wait_to_write(struct stock *stock, struct attempt *attempt) {
    uint32_t lacks = lacks_block(stock) || is_used_up(stock);
    if (attempt->began == 0 && lacks) {
        attempt->began = now();
        stock->waits++;
    }
    if (lacks_block(stock) && stock->batch > 1)
        stock->is_gathering = 1;
    stock->waiting_to_write++;
    stock->starving += lacks;
    if (stock->resting > 0 || (lacks && stock->pausing > 0) || waits_for_count(stock))
        pthread_cond_broadcast(&stock->for_broom);
    uint64_t known = stock->wake_ups;
    int was_told = wait_at_most(&stock->for_write, &stock->mutex, LOOK_AGAIN_MS);
    stock->waiting_to_write--;
    stock->starving -= lacks;
    if (was_told)
        return;
    stock->lost_wake_ups += stock->wake_ups == known && has_room_for_write(stock);
    stop_gathering(stock);
}

static void end_attempt(struct stock *stock, const struct attempt *attempt) {
    if (attempt->began != 0)
        waits_add(&stock->waited, now() - attempt->began);
}

static void end_refused(struct stock *stock, const struct attempt *attempt) {
    end_attempt(stock, attempt);
    stock->gave_up++;
}

// Whether a broom that has gained little rests: no write waits, and no block was opened since.
static int may_rest(const struct stock *stock, uint32_t broom) {
    return stock->poor_at[broom] == stock->opened + 1 && stock->waiting_to_write == 0;
}

// Whether a broom has work: something may have changed since it last found nothing. While hosts may program nothing, the first one counts alone, and
// the others leave if that has found nothing.
static int is_wanted(struct stock *stock, uint32_t broom) {
    if (stock->has_left[broom] || (stock->is_held && stock->waiting_to_write == 0))
        return 0;
    if (broom > 0 && stock->is_scarce)
        return 1;
    if (is_used_up(stock))
        return broom == 0 && waits_for_count(stock);
    return stock->is_collecting && !may_rest(stock, broom) && stock->fruitless_at[broom] != atomic_load(&stock->changes);
}

// Whether no broom works, or has work.
static int are_idle(struct stock *stock) {
    for (uint32_t broom = 0; broom < stock->broom_count; broom++)
        if (is_wanted(stock, broom))
            return 0;
    return stock->working == 0;
}

// Waits for a threshold of free blocks or, if the broom has found nothing, for a change; if it has gained little, for a block to be opened.
static void rest(struct stock *stock, uint32_t broom) {
    uint32_t rests = (uint32_t) (stock->is_collecting && may_rest(stock, broom)), listens = stock->is_collecting && !rests;
    stock->resting += rests;
    atomic_fetch_add(&stock->listening, listens);
    if (!is_wanted(stock, broom))
        pthread_cond_wait(&stock->for_broom, &stock->mutex);
    atomic_fetch_sub(&stock->listening, listens);
    stock->resting -= rests;
}

// ---- The mutex is not held from here on.

// Puts a handle back, and wakes those who wait, if there are any; brooms only if something has changed.
static void put_and_tell(struct stock *stock, struct host *host, int has_changed) {
    int has_room = host->room > 0, has_page = atomic_load_explicit(&host->page, memory_order_relaxed) != NO_PAGE;
    if (!has_page)
        put_idle(stock, host);
    if (!has_page && atomic_load(&stock->waiting) == 0 && !(has_changed && atomic_load(&stock->listening) > 0))
        return;
    pthread_mutex_lock(&stock->mutex);
    if (has_page)
        give(stock, host);
    else
        tell(stock, has_room);
    pthread_mutex_unlock(&stock->mutex);
}

struct host *stock_take(struct stock *stock) {
    struct host *host = take_any_idle(stock);
    if (host)
        return host;
    pthread_mutex_lock(&stock->mutex);
    host = take_any(stock);
    pthread_mutex_unlock(&stock->mutex);
    return host;
}

void stock_give(struct stock *stock, struct host *host) {
    put_and_tell(stock, host, 0);
}

struct host *stock_yield(struct stock *stock, struct host *host) {
    if (atomic_load(&stock->waiting) == 0)
        return host;
    pthread_mutex_lock(&stock->mutex);
    int is_of_use = host->room > 0 || may_open(stock);
    if (stock->waiting_for_any > 0 || (stock->waiting_to_write > 0 && is_of_use)) {
        give(stock, host);
        stock->waiting_for_any++;
        atomic_fetch_add(&stock->waiting, 1);
        wait_at_most(&stock->for_any, &stock->mutex, TURN_MS);
        atomic_fetch_sub(&stock->waiting, 1);
        stock->waiting_for_any--;
        host = take_any(stock);
    }
    pthread_mutex_unlock(&stock->mutex);
    return host;
}

struct host *stock_take_to_write(struct stock *stock, struct attempt *attempt) {
    struct host *host = is_used_up(stock) ? NULL : take_roomy(stock, attempt->own, 1);
    if (host && take_page(stock, host))
        return host;
    pthread_mutex_lock(&stock->mutex);
    if (host)
        give(stock, host);
    attempt->known = attempt->known > 0 ? attempt->known : atomic_load(&stock->changes);
    atomic_fetch_add(&stock->waiting, 1);
    host = take_with_room(stock, attempt->own, may_open(stock));
    while (!host && !attempt->is_last) {
        attempt->is_last = has_waited_in_vain(stock, attempt);
        if (!attempt->is_last)
            wait_to_write(stock, attempt);
        host = take_with_room(stock, attempt->own, may_open(stock));
        if (!host && attempt->is_last)
            host = take_last(stock);
    }
    if (!host)
        end_refused(stock, attempt);
    atomic_fetch_sub(&stock->waiting, 1);
    pthread_mutex_unlock(&stock->mutex);
    return host;
}

struct host *stock_try_to_write(struct stock *stock) {
    pthread_mutex_lock(&stock->mutex);
    struct host *host = take_with_room(stock, 0, !lacks_block(stock));
    pthread_mutex_unlock(&stock->mutex);
    return host;
}

void stock_give_written(struct stock *stock, struct host *host, const struct attempt *attempt) {
    atomic_store(&host->page, NO_PAGE);
    count_change(stock);
    if (host->room > 1 && attempt->began == 0) {
        host->room--;
        put_and_tell(stock, host, 1);
        return;
    }
    pthread_mutex_lock(&stock->mutex);
    if (host->room == 0) { // a block was there that isn't counted yet
        host->room = stock->pages;
        stock->open_count++;
        stock->free_count--;
        stock->miscounts++;
        mind_marks(stock);
    }
    if (--host->room == 0)
        stock->open_count--;
    end_attempt(stock, attempt);
    give(stock, host);
    pthread_mutex_unlock(&stock->mutex);
}

void stock_give_refused(struct stock *stock, struct host *host, struct attempt *attempt) {
    pthread_mutex_lock(&stock->mutex);
    if (attempt->began == 0)
        attempt->began = now();
    if (host->room > 0) { // a block wasn't there after all, or its search came by each one too late
        if (host->room == stock->pages)
            stock->free_count++;
        host->room = 0;
        stock->open_count--;
        stock->miscounts++;
        mind_marks(stock);
    }
    attempt->is_last |= is_over(stock, attempt) || is_hopeless(stock);
    give(stock, host);
    if (attempt->is_last) {
        end_refused(stock, attempt);
    } else {
        stock->waiting_to_write++;
        atomic_fetch_add(&stock->waiting, 1);
        wait_at_most(&stock->for_write, &stock->mutex, 1);
        atomic_fetch_sub(&stock->waiting, 1);
        stock->waiting_to_write--;
    }
    pthread_mutex_unlock(&stock->mutex);
}

void stock_give_changed(struct stock *stock, struct host *host) {
    count_change(stock);
    put_and_tell(stock, host, 1);
}

struct host *stock_keep_written(struct stock *stock, struct host *host, const struct attempt *attempt) {
    if (host->room > 1 && attempt->began == 0 && atomic_load(&stock->waiting) == 0) {
        atomic_store(&host->page, NO_PAGE);
        host->room--;
        return host;
    }
    stock_give_written(stock, host, attempt);
    return NULL;
}

struct host *stock_use_kept(struct stock *stock, struct host *host) {
    if (take_page(stock, host))
        return host;
    stock_give_changed(stock, host);
    return NULL;
}

struct host *stock_keep_changed(struct stock *stock, struct host *host) {
    if (atomic_load(&stock->waiting) == 0)
        return host;
    stock_give_changed(stock, host);
    return NULL;
}

// A broom that found nothing looks again a little later, unless a write waits for it.
static void pause_broom(struct stock *stock) {
    uint64_t end = now() + PAUSE_MS * (uint64_t) 1000000;
    stock->pausing++;
    while (!stock->is_stopping && stock->starving == 0 && now() < end)
        wait_at_most(&stock->for_broom, &stock->mutex, PAUSE_MS);
    stock->pausing--;
}

int stock_begin_round(struct stock *stock, uint32_t broom, uint64_t *known) {
    pthread_mutex_lock(&stock->mutex);
    if (stock->fruitless_at[broom] != 0)
        pause_broom(stock);
    while (!stock->is_stopping && !is_wanted(stock, broom))
        rest(stock, broom);
    *known = atomic_load(&stock->changes);
    int goes_on = !stock->is_stopping;
    stock->working += (uint32_t) goes_on;
    pthread_mutex_unlock(&stock->mutex);
    return goes_on;
}

void stock_end_round(struct stock *stock, uint32_t broom, uint64_t known, int was_fruitless, int was_poor) {
    pthread_mutex_lock(&stock->mutex);
    stock->working--;
    stock->poor_at[broom] = was_poor ? stock->opened + 1 : 0;
    stock->fruitless_at[broom] = was_fruitless ? known : 0;
    stock->gained_at = was_fruitless ? stock->gained_at : now();
    if (was_fruitless && (stock->is_gathering || is_hopeless(stock)))
        stop_gathering(stock);
    pthread_mutex_unlock(&stock->mutex);
}

int stock_wants_count(struct stock *stock, uint32_t broom) {
    pthread_mutex_lock(&stock->mutex);
    int wants = broom == 0 && waits_for_count(stock);
    pthread_mutex_unlock(&stock->mutex);
    return wants;
}

// The budget comes before the handles, so that a page that a write takes meanwhile is in one of them.
void stock_begin_count(struct stock *stock, struct count *count) {
    uint32_t brooms = 0;
    pthread_mutex_lock(&stock->mutex);
    uint64_t promised = (uint64_t) atomic_load(&stock->budget);
    for (uint32_t i = 0; i < stock->host_count; i++)
        promised += atomic_load(&stock->hosts[i].page) != NO_PAGE;
    for (uint32_t i = 0; i < stock->broom_count; i++)
        brooms += !stock->has_left[i];
    *count = (struct count){.known = atomic_load(&stock->changes), .is_final = promised == 0 && brooms == 1};
    count->kept = 2 * (uint64_t) stock->pages * brooms + promised;
    pthread_mutex_unlock(&stock->mutex);
}

int stock_end_count(struct stock *stock, const struct count *count, uint64_t pages) {
    pthread_mutex_lock(&stock->mutex);
    int has_more = pages > count->kept;
    if (pages == UINT64_MAX)
        atomic_store(&stock->is_rationed, 0);
    else if (has_more)
        atomic_fetch_add(&stock->budget, (int64_t) (pages - count->kept));
    stock->counted_at = has_more || !count->is_final ? 0 : count->known;
    stock->is_scarce |= !has_more;
    if (!has_more)
        pthread_cond_broadcast(&stock->for_broom);
    if (stock->waiting_to_write > 0)
        wake_writes(stock);
    pthread_mutex_unlock(&stock->mutex);
    return has_more;
}

int stock_spares(struct stock *stock, uint32_t broom) {
    pthread_mutex_lock(&stock->mutex);
    int is_spared = broom > 0 && stock->is_scarce;
    pthread_mutex_unlock(&stock->mutex);
    return is_spared;
}

int stock_is_calm(struct stock *stock, struct load *last) {
    pthread_mutex_lock(&stock->mutex);
    struct load load = {.waits = stock->waits + stock->gave_up, .opened = stock->opened};
    int is_calm = stock->low == 1 && CALM_PART * (load.waits - last->waits) < load.opened - last->opened;
    pthread_mutex_unlock(&stock->mutex);
    *last = load;
    return is_calm;
}

void stock_leave(struct stock *stock, uint32_t broom) {
    pthread_mutex_lock(&stock->mutex);
    stock->has_left[broom] = 1;
    stock->working--;
    stock->gained_at = now();
    count_change(stock);
    pthread_cond_broadcast(&stock->for_broom);
    pthread_mutex_unlock(&stock->mutex);
}

void stock_add_free(struct stock *stock) {
    pthread_mutex_lock(&stock->mutex);
    stock->free_count++;
    mind_marks(stock);
    pthread_mutex_unlock(&stock->mutex);
}

// The marks fall with the spare blocks that are left, so that brooms don't work for free blocks that can't be had any more.
void stock_count_retired(struct stock *stock) {
    pthread_mutex_lock(&stock->mutex);
    uint32_t spare = stock->marks.spare, left = spare > ++stock->marks.retired ? spare - stock->marks.retired : 0;
    atomic_store(&stock->own_most, left / OWN_PART);
    atomic_store(&stock->is_rationed, 1);
    if (spare > 0) {
        stock->low = stock->marks.low * left / spare;
        stock->low = stock->low > 0 ? stock->low : 1;
        stock->high = stock->marks.high * left / spare;
        stock->high = stock->high > stock->low ? stock->high : stock->low;
        stock->batch = stock->batch < stock->low ? stock->batch : stock->low;
    }
    mind_marks(stock);
    pthread_mutex_unlock(&stock->mutex);
}

void stock_hold_brooms(struct stock *stock, int is_held) {
    pthread_mutex_lock(&stock->mutex);
    stock->is_held = is_held;
    pthread_cond_broadcast(&stock->for_broom);
    pthread_mutex_unlock(&stock->mutex);
}

void stock_turn_of_brooms(struct stock *stock) {
    static const struct timespec a_little = {.tv_nsec = 20000};
    pthread_mutex_lock(&stock->mutex);
    stock->is_held = 0;
    if (stock->is_collecting)
        pthread_cond_broadcast(&stock->for_broom);
    while (!are_idle(stock)) {
        pthread_mutex_unlock(&stock->mutex);
        nanosleep(&a_little, NULL);
        pthread_mutex_lock(&stock->mutex);
    }
    stock->is_held = 1;
    pthread_mutex_unlock(&stock->mutex);
}

void stock_stop(struct stock *stock) {
    pthread_mutex_lock(&stock->mutex);
    stock->is_stopping = 1;
    wake_writes(stock);
    pthread_cond_broadcast(&stock->for_broom);
    pthread_mutex_unlock(&stock->mutex);
}

int stock_is_stopping(struct stock *stock) {
    pthread_mutex_lock(&stock->mutex);
    int is_stopping = stock->is_stopping;
    pthread_mutex_unlock(&stock->mutex);
    return is_stopping;
}
