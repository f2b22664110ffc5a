// Whoever waits has to be woken by what lets it go on, and not by a look some time later: each way in which a wait ends, also if this comes between any
// two steps of who begins to wait, or the other way round. It is built with a LOOK_AGAIN_MS of an hour, and with steps.h before all else. It prints what
// failed, and ends with the number of failures.
#define _GNU_SOURCE
#include "over_stock.h"

#include <sched.h>

enum { PATIENCE_S = 15 };

static struct host *in_use;
static struct attempt its_attempt;

// ---- Those who wait.

static void *write_one(void *unused) {
    (void) unused;
    struct attempt attempt = {0};
    struct host *host = stock_take_to_write(&stock, &attempt);
    if (host && attempt.is_last)
        stock_give_refused(&stock, host, &attempt);
    else if (host)
        stock_give_written(&stock, host, &attempt);
    return NULL;
}

static void *read_one(void *unused) {
    (void) unused;
    stock_give(&stock, stock_take(&stock));
    return NULL;
}

static void *begin_a_round(void *unused) {
    (void) unused;
    uint64_t known;
    stock_begin_round(&stock, 0, &known);
    return NULL;
}

// A broom that finds pages for hosts, or none.
static void count_pages(uint64_t pages) {
    struct count count;
    stock_begin_count(&stock, &count);
    stock_end_count(&stock, &count, pages);
}

// The second broom has to leave.
static void *leave_in_a_round(void *unused) {
    (void) unused;
    uint64_t known;
    if (stock_begin_round(&stock, 1, &known))
        stock_leave(&stock, 1);
    return NULL;
}

static void *count_in_a_round(void *unused) {
    begin_a_round(unused);
    count_pages(100);
    return NULL;
}

// How many wait for a handle, or to write.
static uint32_t waiting(void) {
    pthread_mutex_lock(&stock.mutex);
    uint32_t count = stock.waiting_for_any + stock.waiting_to_write;
    pthread_mutex_unlock(&stock.mutex);
    return count;
}

static void start(pthread_t *thread, void *(*run)(void *) ) {
    if (pthread_create(thread, NULL, run, NULL))
        abort();
}

// Ends the test where a thread still waits.
static void has_to_end(pthread_t thread, const char *text) {
    struct timespec end;
    clock_gettime(CLOCK_REALTIME, &end);
    end.tv_sec += PATIENCE_S;
    if (pthread_timedjoin_np(thread, NULL, &end) == 0)
        return;
    printf("nobody is woken: %s\n", text);
    fflush(stdout);
    _exit(1);
}

// ---- What stands before a wait.

static void trim_one(void) {
    stock_give_changed(&stock, stock_take(&stock));
}

// The only handle is in use by a write, for which a block was opened.
static void one_writes(void) {
    begin(1, 1, 100, 1);
    its_attempt = (struct attempt){0};
    in_use = stock_take_to_write(&stock, &its_attempt);
}

static void one_reads(void) {
    begin(1, 1, 100, 1);
    in_use = stock_take(&stock);
}

// No block is free, and a broom may find something.
static void full(uint32_t mark) {
    begin(2, 1, 40, mark);
    fill();
    trim_one();
}

static void no_block(void) {
    full(1);
}

static void no_block_of_four(void) {
    full(4);
}

// Hosts may program no page until a broom has counted.
static void no_page(void) {
    begin(2, 1, 40, 1);
    stock_count_retired(&stock);
}

static void no_page_and_two_brooms(void) {
    begin(2, 2, 40, 1);
    stock_count_retired(&stock);
}

static void no_page_and_no_block(void) {
    full(1);
    stock_count_retired(&stock);
}

// A write has the last page.
static void one_has_the_last_page(void) {
    no_page();
    count_pages(5);
    its_attempt = (struct attempt){0};
    in_use = stock_take_to_write(&stock, &its_attempt);
}

// Blocks enough, so that brooms rest.
static void many_blocks(void) {
    begin(2, 1, 4, 1);
}

static void nothing_was_found(void) {
    begin(2, 1, 4, 1);
    fill();
}

// A write is going on, and a broom that has work finds nothing meanwhile.
static void nothing_is_found_beside_a_write(void) {
    begin(2, 1, 100, 100);
    its_attempt = (struct attempt){0};
    in_use = stock_take_to_write(&stock, &its_attempt);
    find_nothing(0);
}

// ---- What ends a wait.

static void give_written(void) {
    stock_give_written(&stock, in_use, &its_attempt);
}

static void give_refused(void) {
    its_attempt.is_last = 1;
    stock_give_refused(&stock, in_use, &its_attempt);
}

// The same, by a request that has another page to write or to trim: NULL, since somebody waits.
static void keep_written(void) {
    want(!stock_keep_written(&stock, in_use, &its_attempt), "a handle with room is kept though somebody waits");
}

static void keep_trimmed(void) {
    want(!stock_keep_changed(&stock, in_use), "a handle is kept though somebody waits");
}

static void give(void) {
    stock_give(&stock, in_use);
}

static void give_trimmed(void) {
    stock_give_changed(&stock, in_use);
}

static void one_comes_free(void) {
    stock_add_free(&stock);
}

static void four_come_free(void) {
    for (int i = 0; i < 4; i++)
        stock_add_free(&stock);
}

static void one_comes_free_and_no_more(void) {
    stock_add_free(&stock);
    find_nothing(0);
}

static void no_broom_finds_any(void) {
    find_nothing(0);
}

static void pages_are_found(void) {
    count_pages(100);
}

static void no_page_is_found(void) {
    count_pages(1);
}

static void ask_for_pages(void) {
    write_page();
}

static void write_until_none_is_free(void) {
    while (stock.free_count > 0)
        write_page();
}

static void stop(void) {
    stock_stop(&stock);
}

struct way {
    const char *text;
    void (*before)(void);
    void *(*waits)(void *);
    void (*event)(void);
};

static const struct way ways[] = {
    {"a handle with room is given back, to a write", one_writes, write_one, give_written},
    {"a handle with room is given back, to a read", one_writes, read_one, give_written},
    {"a handle without room is given back, to a write", one_reads, write_one, give},
    {"a handle without room is given back, to a read", one_reads, read_one, give},
    {"a handle is given back behind a trim, to a write", one_reads, write_one, give_trimmed},
    {"a handle is given back behind a trim, to a read", one_reads, read_one, give_trimmed},
    {"a long write gives its handle up, to a write", one_writes, write_one, keep_written},
    {"a long write gives its handle up, to a read", one_writes, read_one, keep_written},
    {"a long trim gives its handle up, to a write", one_reads, write_one, keep_trimmed},
    {"a long trim gives its handle up, to a read", one_reads, read_one, keep_trimmed},
    {"a refused write gives its handle and its block back, to a write", one_writes, write_one, give_refused},
    {"a refused write gives its handle back, to a read", one_writes, read_one, give_refused},
    {"a block comes free", no_block, write_one, one_comes_free},
    {"as many blocks come free as writes wait for", no_block_of_four, write_one, four_come_free},
    {"fewer blocks come free, and the broom finds no more", no_block_of_four, write_one, one_comes_free_and_no_more},
    {"no block is free, and no broom finds any", no_block, write_one, no_broom_finds_any},
    {"the server stops, and a write waits", no_block, write_one, stop},
    {"a count finds pages, and a write waits", no_page, write_one, pages_are_found},
    {"a count finds no page, and a write waits", no_page, write_one, no_page_is_found},
    {"a count finds no page, and a write waits for a block", no_page_and_no_block, write_one, no_page_is_found},
    {"a handle is given back with the last page", one_has_the_last_page, write_one, give_trimmed},
    {"the server stops, and a write waits for pages", no_page, write_one, stop},
    {"few blocks are free, and a broom rests", many_blocks, begin_a_round, write_until_none_is_free},
    {"a trim, behind a broom that found nothing", nothing_was_found, begin_a_round, trim_one},
    {"a write, behind a broom that found nothing", nothing_is_found_beside_a_write, begin_a_round, give_written},
    {"a write waits for pages, and a broom rests", no_page, count_in_a_round, ask_for_pages},
    {"a count finds no page, and another broom rests", no_page_and_two_brooms, leave_in_a_round, no_page_is_found},
    {"the server stops, and a broom rests", many_blocks, begin_a_round, stop},
};

static const struct way *way;

static void *run_alone(void *unused) {
    (void) unused;
    way->event();
    return NULL;
}

static void each_way(void) {
    for (size_t i = 0; i < sizeof ways / sizeof *ways; i++) {
        pthread_t thread, event;
        way = &ways[i];
        ways[i].before();
        start(&thread, ways[i].waits);
        if (ways[i].waits != write_one && ways[i].waits != read_one)
            usleep(20000); // nothing tells that it waits, beside what is tested
        else
            while (waiting() == 0)
                usleep(100);
        start(&event, run_alone);
        has_to_end(thread, ways[i].text);
        has_to_end(event, ways[i].text);
        stock_end(&stock);
    }
}

// ---- The moments between two steps. One of two threads, the one that waits or the other, is stopped before a step, until the other thread has ended or
// waits itself. Each step is such a moment in turn, so nothing depends on how fast the threads are.

enum role { NONE, STOPPED, OTHER };

static _Thread_local enum role role;
static _Thread_local uint32_t steps;
static uint32_t stop_at;      // the step of the stopped one
static int stops_who_waits;   // whether that is the one that waits
static _Atomic int may_begin; // the other one
static _Atomic int has_gone_on, was_stopped;

void before_step(void) {
    if (role != STOPPED || ++steps != stop_at)
        return;
    atomic_store_explicit(&was_stopped, 1, memory_order_seq_cst);
    atomic_store_explicit(&may_begin, 1, memory_order_seq_cst);
    while (!atomic_load_explicit(&has_gone_on, memory_order_seq_cst))
        sched_yield();
}

void before_wait(void) {
    if (role != NONE)
        atomic_store_explicit(role == OTHER ? &has_gone_on : &may_begin, 1, memory_order_seq_cst);
}

// A pause of a few milliseconds ends by itself, and steps come behind it.
void before_timed_wait(const struct timespec *end) {
    struct timespec now;
    clock_gettime(CLOCK_MONOTONIC, &now);
    if (end->tv_sec > now.tv_sec + PATIENCE_S)
        before_wait();
}

int lock_in_steps(pthread_mutex_t *mutex) {
    before_step();
    if (pthread_mutex_trylock(mutex) == 0)
        return 0;
    before_wait();
    return (pthread_mutex_lock)(mutex);
}

// The part of one of the two threads.
static void *run(int waits) {
    role = waits == stops_who_waits ? STOPPED : OTHER;
    while (role == OTHER && !atomic_load_explicit(&may_begin, memory_order_seq_cst))
        sched_yield();
    if (waits)
        way->waits(NULL);
    else
        way->event();
    before_wait(); // it has ended, so the other one doesn't wait for it
    return NULL;
}

static void *run_who_waits(void *unused) {
    (void) unused;
    return run(1);
}

static void *run_event(void *unused) {
    (void) unused;
    return run(0);
}

// Whether there was such a step.
static int try_moment(void) {
    pthread_t who_waits, other;
    char text[200];
    snprintf(text, sizeof text, "between two steps, by this: %s", way->text);
    way->before();
    may_begin = has_gone_on = was_stopped = 0;
    start(&who_waits, run_who_waits);
    start(&other, run_event);
    has_to_end(who_waits, text);
    has_to_end(other, text);
    stock_end(&stock);
    return was_stopped;
}

static void moments(void) {
    uint32_t count = 0;
    for (size_t i = 0; i < 2 * (sizeof ways / sizeof *ways); i++) {
        way = &ways[i / 2];
        stops_who_waits = i % 2 == 0;
        if (way->event == keep_written || way->event == keep_trimmed)
            continue; // a handle is kept until the next page if nobody waits yet
        for (stop_at = 1; try_moment(); stop_at++)
            count++;
        want(stop_at > 1, way->text);
    }
    printf("%u moments\n", count);
}

int main(void) {
    alarm(60);
    each_way();
    moments();
    return failures;
}
