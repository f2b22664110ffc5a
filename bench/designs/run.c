/* designs rate DESIGN USE READS BROOMS WORDS WINDOWS MILLISECONDS HOSTS..
 * designs response DESIGN USE READS BROOMS WORDS WINDOWS MILLISECONDS HOSTS [LUNS READ PROGRAM ERASE]
 * designs stopped DESIGN USE READS BROOMS WORDS STOPS HOSTS [LUNS READ PROGRAM ERASE]
 *
 * Threads read and write uniform random sectors of 512 blocks of 64 pages, of which USE percent are used and READS percent of the calls are reads.
 * Before that each page is overwritten twice. `rate` prints a line for each window and each number of hosts in turns: hosts, calls a second, and
 * nanoseconds of processor time for a call, with the brooms'.
 *
 * `response` goes on until the write amplification is steady: over half of the device's pages, twice, it differs by a hundredth at most, or it gives
 * up after four times as long as it measures. It prints the seconds that this took, the amplification, and the last difference in percent. Then it
 * prints of each window the calls a second and the amplification, and of reads and of writes how many there were and how many nanoseconds they took: the
 * median, 90, 99, 99.9 and 99.99 percent, and the longest. With LUNS, commands take a part's times, in nanoseconds. Each page that is read has to be
 * one of its sector.
 *
 * `stopped` measures the same while a host, at a random moment, is stopped by a signal whose handler sleeps for a tenth of a second, so many times. The
 * calls that are stopped don't count. The last lines have the stops, and as many pauses of the same length without a stop, and in how many of them
 * some other host, and all others, ended no call. */
#define _GNU_SOURCE
#include <errno.h>
#include <poll.h>
#include <pthread.h>
#include <sched.h>
#include <stdatomic.h>
#include <stdio.h>
#include <stdlib.h>
#include <string.h>
#include <sys/prctl.h>
#include <time.h>

#include "designs.h"

enum { WAITING, RUNNING, ENDED };
enum { BLOCKS = 512, PAGES = 64, MOST_THREADS = 16, SECOND = 1000000000, PARTS_OF_TWO = 32, SLOTS = 64 * PARTS_OF_TWO, BATCH = 32 };
/* In milliseconds: a stop, its beginning and its end, in which others' calls don't count, the least time between stops, and a window of settling. */
enum { STOPPED = 100, BEGINNING = 5, BEHIND = 30, SETTLING = 2000 };

/* How many calls took how long; a slot is a thirty-second of a power of two. */
struct times { uint64_t count, longest, slots[SLOTS]; };

struct thread {
    pthread_t thread;
    uint32_t number;
    uint64_t random, writes, processor;
    _Atomic uint64_t calls;
    struct times *read, *write; /* or NULL */
    volatile sig_atomic_t was_stopped;
};

static const struct design *design;
static void *device;
static struct geometry geometry;
static uint32_t reads;
static atomic_int phase, are_ready, hosts_left, is_stopped;
static _Thread_local struct thread *self;

static uint64_t clock_of(clockid_t clock)
{
    struct timespec time;
    clock_gettime(clock, &time);
    return (uint64_t)time.tv_sec * SECOND + (uint64_t)time.tv_nsec;
}

static uint32_t drawn(uint64_t *state)
{
    *state ^= *state << 13;
    *state ^= *state >> 7;
    *state ^= *state << 17;
    return (uint32_t)(*state >> 32);
}

static void fail(const char *what, uint32_t code)
{
    fprintf(stderr, "designs: %s: %s: %s\n", design->name, what, mintlintel_code_name(code));
    exit(1);
}

/* ---- Times. */

static uint32_t slot_of(uint64_t time)
{
    if (time < PARTS_OF_TWO)
        return (uint32_t)time;
    uint32_t power = 63 - (uint32_t)__builtin_clzll(time);
    return (power - 4) * PARTS_OF_TWO + (uint32_t)(time >> (power - 5)) % PARTS_OF_TWO;
}

static uint64_t least_of(uint32_t slot)
{
    uint32_t power = slot / PARTS_OF_TWO + 4;
    return slot < PARTS_OF_TWO ? slot : (1ull << power) + ((uint64_t)(slot % PARTS_OF_TWO) << (power - 5));
}

static void add_time(struct times *times, uint64_t time)
{
    times->count++;
    times->slots[slot_of(time)]++;
    times->longest = time > times->longest ? time : times->longest;
}

static void add_times(struct times *all, const struct times *own)
{
    all->count += own->count;
    all->longest = own->longest > all->longest ? own->longest : all->longest;
    for (int i = 0; i < SLOTS; i++)
        all->slots[i] += own->slots[i];
}

static void print_times(const char *name, const struct times *times)
{
    static const double shares[] = {0.5, 0.9, 0.99, 0.999, 0.9999};
    uint64_t seen = 0;
    int share = 0;
    printf("%s %llu", name, (unsigned long long)times->count);
    for (uint32_t slot = 0; slot < SLOTS && times->count > 0; slot++)
        for (seen += times->slots[slot]; share < 5 && (double)seen >= shares[share] * (double)times->count; share++)
            printf(" %llu", (unsigned long long)least_of(slot));
    printf(" %llu\n", (unsigned long long)times->longest);
}

/* ---- Calls. */

static void write_sector(uint32_t host, uint32_t sector, uint8_t *page)
{
    size_t bytes = geometry.words * 8;
    memcpy(page, &sector, sizeof sector);
    memcpy(page + bytes - sizeof sector, &sector, sizeof sector);
    uint32_t code = design->write(device, host, sector, page);
    if (code > MINTLINTEL_WRITTEN)
        fail("a write", code);
}

static void read_sector(uint32_t host, uint32_t sector, uint8_t *page)
{
    size_t bytes = geometry.words * 8;
    uint32_t code = design->read(device, host, sector, page);
    if (code != MINTLINTEL_WRITTEN || memcmp(page, &sector, sizeof sector) != 0 || memcmp(page + bytes - sizeof sector, &sector, sizeof sector) != 0)
        fail("a page of another sector", code);
}

static void call(struct thread *thread, uint8_t *page)
{
    uint32_t sector = (uint32_t)((uint64_t)drawn(&thread->random) * geometry.sectors >> 32);
    int is_read = drawn(&thread->random) % 100 < reads;
    struct times *times = is_read ? thread->read : thread->write;
    uint64_t began = times ? clock_of(CLOCK_MONOTONIC) : 0;
    if (is_read)
        read_sector(thread->number, sector, page);
    else
        write_sector(thread->number, sector, page);
    if (times && !thread->was_stopped)
        add_time(times, clock_of(CLOCK_MONOTONIC) - began);
    thread->was_stopped = 0;
    thread->writes += !is_read;
    atomic_store_explicit(&thread->calls, atomic_load_explicit(&thread->calls, memory_order_relaxed) + 1, memory_order_relaxed);
}

/* Waits for the beginning of a window. Returns the processor time of the thread so far. */
static uint64_t begin_together(void)
{
    atomic_fetch_add(&are_ready, 1);
    while (atomic_load(&phase) == WAITING)
        sched_yield();
    return clock_of(CLOCK_THREAD_CPUTIME_ID);
}

static void *run_host(void *argument)
{
    struct thread *thread = self = argument;
    uint8_t *page = calloc(1, geometry.words * 8);
    uint64_t began = begin_together();
    do
        for (int i = 0; i < (thread->read ? 1 : BATCH); i++)
            call(thread, page);
    while (atomic_load_explicit(&phase, memory_order_relaxed) == RUNNING);
    thread->processor = clock_of(CLOCK_THREAD_CPUTIME_ID) - began;
    atomic_fetch_sub(&hosts_left, 1);
    free(page);
    return NULL;
}

/* Brooms go on until the last host has ended, so that no write waits for ever. */
static void *run_broom(void *argument)
{
    struct thread *thread = argument;
    struct timespec pause = {0, 50000};
    prctl(PR_SET_TIMERSLACK, 1);
    uint64_t began = begin_together();
    while (atomic_load(&hosts_left) > 0)
        if (design->collect(device, thread->number))
            nanosleep(&pause, NULL);
    thread->processor = clock_of(CLOCK_THREAD_CPUTIME_ID) - began;
    return NULL;
}

/* ---- Stops. */

static void stop_here(int signal)
{
    int kept = errno;
    (void)signal;
    self->was_stopped = 1;
    poll(NULL, 0, STOPPED);
    atomic_store(&is_stopped, 0);
    errno = kept;
}

/* Of stops, or of pauses: how many there were, and in how many some other host, and all others, ended no call. */
struct waits { uint64_t count, some, all; };

/* Stops a host, or none, and looks which of the others end a call meanwhile. */
static void stop_one(struct thread *hosts, uint32_t count, uint32_t stopped, struct waits *waits)
{
    uint64_t calls[MOST_THREADS];
    uint32_t waited = 0, others = count - (stopped < count);
    atomic_store(&is_stopped, stopped < count);
    if (stopped < count)
        pthread_kill(hosts[stopped].thread, STOP);
    poll(NULL, 0, BEGINNING);
    for (uint32_t i = 0; i < count; i++)
        calls[i] = hosts[i].calls;
    poll(NULL, 0, STOPPED - 2 * BEGINNING);
    for (uint32_t i = 0; i < count; i++)
        waited += i != stopped && hosts[i].calls == calls[i];
    while (atomic_load(&is_stopped))
        poll(NULL, 0, 1);
    waits->count++;
    waits->some += waited > 0;
    waits->all += waited == others;
}

static void stop_hosts(struct thread *hosts, uint32_t count, uint32_t stops, struct waits waits[2])
{
    uint64_t random = 88172645463325252u;
    for (uint32_t i = 0; i < stops; i++) {
        poll(NULL, 0, (int)(BEHIND + drawn(&random) % STOPPED));
        stop_one(hosts, count, drawn(&random) % count, &waits[0]);
        poll(NULL, 0, BEHIND);
        stop_one(hosts, count, count, &waits[1]);
    }
}

/* ---- Runs. */

/* How long a window is, or how many stops it has and what came of them. */
struct plan { uint32_t milliseconds, stops; struct waits waits[2]; };

/* Runs the threads. Returns the calls a second. */
static double window(struct thread *hosts, uint32_t count, struct thread *brooms, struct plan *plan)
{
    uint32_t broom_count = design->has_brooms && reads < 100 ? geometry.brooms : 0;
    uint64_t calls = 0;
    atomic_store(&phase, WAITING);
    atomic_store(&are_ready, 0);
    atomic_store(&hosts_left, (int)count);
    for (uint32_t i = 0; i < count; i++)
        pthread_create(&hosts[i].thread, NULL, run_host, &hosts[i]);
    for (uint32_t i = 0; i < broom_count; i++)
        pthread_create(&brooms[i].thread, NULL, run_broom, &brooms[i]);
    while (atomic_load(&are_ready) < (int)(count + broom_count))
        sched_yield();
    uint64_t began = clock_of(CLOCK_MONOTONIC);
    atomic_store(&phase, RUNNING);
    poll(NULL, 0, (int)plan->milliseconds);
    stop_hosts(hosts, count, plan->stops, plan->waits);
    atomic_store(&phase, ENDED);
    for (uint32_t i = 0; i < count; i++) {
        pthread_join(hosts[i].thread, NULL);
        calls += hosts[i].calls;
    }
    uint64_t ended = clock_of(CLOCK_MONOTONIC);
    for (uint32_t i = 0; i < broom_count; i++)
        pthread_join(brooms[i].thread, NULL);
    return (double)calls * SECOND / (double)(ended - began);
}

/* Writes each sector, and overwrites as many pages as the device has twice, in one thread: a host and a broom by turns. */
static void settle(void)
{
    uint64_t random = 88172645463325252u;
    uint8_t *page = calloc(1, geometry.words * 8);
    for (uint32_t i = 0; i < geometry.sectors + 2 * BLOCKS * PAGES; i++) {
        write_sector(0, i < geometry.sectors ? i : (uint32_t)((uint64_t)drawn(&random) * geometry.sectors >> 32), page);
        if (design->has_brooms && i % BATCH == 0)
            design->collect(device, 0);
    }
    free(page);
}

/* No two windows have the same random numbers. */
static void begin(struct thread *threads, uint32_t count)
{
    static uint64_t seed = 88172645463325252u;
    for (uint32_t i = 0; i < count; i++)
        threads[i] = (struct thread){.number = i, .random = seed += 0x9e3779b97f4a7c15u};
}

static void print_rates(int windows, uint32_t milliseconds, char **counts)
{
    struct thread hosts[MOST_THREADS], brooms[MOST_THREADS];
    for (int i = 0; i < windows; i++)
        for (char **at = counts; *at; at++) {
            uint32_t count = (uint32_t)atoi(*at);
            uint64_t calls = 0, processor = 0;
            struct plan plan = {.milliseconds = milliseconds};
            begin(hosts, count);
            begin(brooms, geometry.brooms);
            double rate = window(hosts, count, brooms, &plan);
            for (uint32_t host = 0; host < count; host++) {
                calls += hosts[host].calls;
                processor += hosts[host].processor;
            }
            for (uint32_t broom = 0; broom < geometry.brooms; broom++)
                processor += brooms[broom].processor;
            printf("%u %.0f %.1f\n", count, rate, (double)processor / (double)calls);
        }
}

/* What collection cost between two counts of what it has moved: programs for each write. */
static double amplification(const uint64_t before[2], const uint64_t after[2])
{
    double blocks = (double)(after[1] - before[1]), live = blocks > 0 ? (double)(after[0] - before[0]) / blocks : 0;
    return PAGES / (PAGES - live);
}

/* Runs until the amplification is steady, at most so long, and prints what it was. */
static void settle_in_threads(struct thread *hosts, uint32_t count, struct thread *brooms, uint32_t most)
{
    double last = 0, now = 0, change = 100;
    uint32_t windows = 0;
    uint64_t before[2], after[2], writes = 0;
    design->moved(device, before);
    for (; windows * SETTLING < most && change > 1; windows++) {
        struct plan plan = {.milliseconds = SETTLING};
        begin(hosts, count);
        begin(brooms, geometry.brooms);
        window(hosts, count, brooms, &plan);
        for (uint32_t i = 0; i < count; i++)
            writes += hosts[i].writes;
        if (writes < BLOCKS * PAGES / 2)
            continue;
        design->moved(device, after);
        now = amplification(before, after);
        change = last > 0 ? 100 * (now > last ? now / last - 1 : last / now - 1) : 100;
        last = now;
        writes = 0;
        memcpy(before, after, sizeof before);
    }
    printf("settled %u %.3f %.2f\n", windows * (SETTLING / 1000), now, change);
}

static void print_waits(const char *name, const struct waits *waits)
{
    printf("%s %llu %llu %llu\n", name, (unsigned long long)waits->count, (unsigned long long)waits->some, (unsigned long long)waits->all);
}

/* A window, of which each call is timed. */
static void print_window(struct thread *hosts, uint32_t count, struct thread *brooms, struct plan *plan)
{
    static struct times times[MOST_THREADS][2];
    uint64_t before[2], after[2];
    memset(times, 0, sizeof times);
    begin(hosts, count);
    begin(brooms, geometry.brooms);
    for (uint32_t i = 0; i < count; i++) {
        hosts[i].read = &times[i][0];
        hosts[i].write = &times[i][1];
    }
    design->moved(device, before);
    double rate = window(hosts, count, brooms, plan);
    design->moved(device, after);
    printf("calls %.0f %.3f\n", rate, amplification(before, after));
    for (uint32_t i = 1; i < count; i++) {
        add_times(&times[0][0], &times[i][0]);
        add_times(&times[0][1], &times[i][1]);
    }
    print_times("read", &times[0][0]);
    print_times("write", &times[0][1]);
}

static void print_responses(struct plan *plan, uint32_t windows, uint32_t count)
{
    static struct thread hosts[MOST_THREADS], brooms[MOST_THREADS];
    signal(STOP, stop_here);
    settle_in_threads(hosts, count, brooms, 4 * windows * plan->milliseconds + 2000 * plan->stops);
    for (uint32_t i = 0; i < windows; i++)
        print_window(hosts, count, brooms, plan);
    if (plan->stops > 0) {
        print_waits("stops", &plan->waits[0]);
        print_waits("pauses", &plan->waits[1]);
    }
}

int main(int count, char **words)
{
    int is_rate = count > 9 && strcmp(words[1], "rate") == 0, has_stops = count > 8 && strcmp(words[1], "stopped") == 0;
    int at = has_stops ? 8 : 9; /* of the hosts */
    struct part part = {0};
    struct plan plan = {0};
    if (count <= at)
        return 2;
    for (design = designs; design->name && strcmp(design->name, words[2]) != 0; design++)
        ;
    if (!design->name)
        return 2;
    geometry = (struct geometry){.hosts = 4, .brooms = (uint32_t)atoi(words[5]), .luns = 1, .blocks = BLOCKS, .pages = PAGES};
    geometry.words = (uint32_t)atoi(words[6]);
    geometry.sectors = (uint32_t)(BLOCKS * PAGES * atoi(words[3]) / 100);
    if (!is_rate && count > at + 4) {
        geometry.luns = (uint32_t)atoi(words[at + 1]);
        part.read = strtoull(words[at + 2], NULL, 10);
        part.program = strtoull(words[at + 3], NULL, 10);
        part.erase = strtoull(words[at + 4], NULL, 10);
    }
    luns_begin(&luns, &part, geometry.luns, geometry.blocks);
    device = design->open(&geometry);
    if (!device)
        return 1;
    settle();
    luns_time(&luns);
    reads = (uint32_t)atoi(words[4]);
    *(has_stops ? &plan.stops : &plan.milliseconds) = (uint32_t)atoi(words[at - 1]);
    if (is_rate)
        print_rates(atoi(words[7]), plan.milliseconds, words + 9);
    else
        print_responses(&plan, has_stops ? 1 : (uint32_t)atoi(words[7]), (uint32_t)atoi(words[at]));
    design->close(device);
    luns_end(&luns);
}
