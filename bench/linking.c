/* Both devices over the library, by the works of plain/layer_alone.rs and plain/shared.rs, which print the same line: with `in_order` or
 * `uniform` the layer for one thread, with `fill`, `write`, `read` or `same` the shared device by so many threads. With `refused` or
 * `host_refused` so many calls that are refused, whose time is the most that the binding adds to a call. */
#include "mintlintel.h"
#include <pthread.h>
#include <stdio.h>
#include <stdlib.h>
#include <string.h>
#include <time.h>

enum { BLOCKS = 2048, PAGES = 120, WORDS = 64, SECTORS = 4096, ENDURANCE = 10, MOST_THREADS = 64 };

/* SplitMix64 (Steele, Lea and Flood, OOPSLA 2014). */
static uint64_t next(uint64_t *state)
{
    *state += 0x9e3779b97f4a7c15u;
    uint64_t z = (*state ^ (*state >> 30)) * 0xbf58476d1ce4e5b9u;
    z = (z ^ (z >> 27)) * 0x94d049bb133111ebu;
    return z ^ (z >> 31);
}

/* ---- The layer for one thread ---- */

static int play(struct mintlintel_one *device, int uniform, uint64_t count, uint32_t sectors, size_t bytes)
{
    uint8_t *page = calloc(1, bytes);
    uint64_t random = 1, sum = 0, word;
    for (uint64_t i = 0; i < sectors + count; i++) {
        uint64_t place = uniform && i >= sectors ? next(&random) >> 32 : i;
        memcpy(page, &i, 8);
        if (mintlintel_one_write(device, (uint32_t)(place % sectors), page, bytes) > MINTLINTEL_WRITTEN)
            return 1;
    }
    for (uint32_t sector = 0; sector < sectors; sector++) {
        if (mintlintel_one_read(device, sector, page, bytes) != MINTLINTEL_WRITTEN)
            return 1;
        memcpy(&word, page, 8);
        sum += word;
    }
    struct mintlintel_totals totals;
    mintlintel_one_counts(device, &totals);
    printf("%llu %llu %llu %llu\n", (unsigned long long)totals.programs, (unsigned long long)totals.copies, (unsigned long long)totals.erases,
           (unsigned long long)sum);
    free(page);
    return 0;
}

static int layer(char **words)
{
    uint32_t numbers[5];
    for (int i = 0; i < 5; i++)
        numbers[i] = (uint32_t)strtoul(words[i + 2], NULL, 10);
    struct mintlintel_one device = {0};
    if (mintlintel_one_open(&device, 1, numbers[1], numbers[2], numbers[3], numbers[4], 1000000) != MINTLINTEL_DONE)
        return 1;
    int failed = play(&device, strcmp(words[1], "uniform") == 0, numbers[0], numbers[4], 8 * (size_t)numbers[3]);
    mintlintel_one_close(&device);
    return failed;
}

/* ---- The shared device ---- */

/* a thread's host, the sectors that are its own, and how often it writes and reads once they are filled */
struct worker { struct mintlintel_seat host; uint32_t from, sectors, writes, reads, same; uint64_t sum; int failed; pthread_t thread; };

static struct worker workers[MOST_THREADS];

static void write_all(struct worker *w, uint8_t *page, uint64_t count)
{
    for (uint64_t i = 0; i < count; i++) {
        memcpy(page, &i, 8);
        w->failed |= mintlintel_host_write(&w->host, w->from + (uint32_t)(i % w->sectors), page, 8 * WORDS) > MINTLINTEL_WRITTEN;
    }
}

static void read_all(struct worker *w, uint8_t *page, uint64_t count)
{
    for (uint64_t i = 0; i < count; i++) {
        uint64_t word;
        w->failed |= mintlintel_host_read(&w->host, w->from + (uint32_t)(i % w->sectors), page, 8 * WORDS) != MINTLINTEL_WRITTEN;
        memcpy(&word, page, 8);
        w->sum += word;
    }
}

static void *run(void *argument)
{
    struct worker *w = argument;
    uint8_t page[8 * WORDS] = {0};
    write_all(w, page, (uint64_t)w->sectors + w->writes);
    if (w->same > 0) {
        memset(page, 0, 8);
        w->failed |= mintlintel_host_write(&w->host, 0, page, sizeof page) > MINTLINTEL_WRITTEN;
        for (uint32_t i = 0; i < w->same; i++)
            w->failed |= mintlintel_host_read(&w->host, 0, page, sizeof page) != MINTLINTEL_WRITTEN;
    }
    read_all(w, page, w->reads);
    read_all(w, page, w->sectors);
    return NULL;
}

static int shared(char **words)
{
    static struct mintlintel_seat hosts[MOST_THREADS], none[1];
    uint32_t threads = (uint32_t)strtoul(words[2], NULL, 10), count = (uint32_t)strtoul(words[3], NULL, 10);
    if (threads == 0 || threads > MOST_THREADS)
        return 2;
    if (mintlintel_shared_open(hosts, threads, none, 0, 1, BLOCKS, PAGES, WORDS, SECTORS, ENDURANCE) != MINTLINTEL_DONE)
        return 1;
    for (uint32_t i = 0; i < threads; i++) {
        struct worker *w = &workers[i];
        w->sectors = SECTORS / threads;
        w->from = i * w->sectors;
        *(strcmp(words[1], "write") == 0 ? &w->writes : strcmp(words[1], "read") == 0 ? &w->reads : &w->same) = strcmp(words[1], "fill") == 0 ? 0 : count;
        /* A handle may be moved as a whole, if its old place is not used again. */
        w->host = hosts[i];
        pthread_create(&w->thread, NULL, run, w);
    }
    uint64_t sum = 0;
    int failed = 0;
    for (uint32_t i = 0; i < threads; i++) {
        pthread_join(workers[i].thread, NULL);
        sum += workers[i].sum;
        failed |= workers[i].failed;
        mintlintel_seat_close(&workers[i].host);
    }
    printf("%llu\n", (unsigned long long)sum);
    return failed;
}

/* ---- Refused calls ---- */

static double seconds(void)
{
    struct timespec now;
    clock_gettime(CLOCK_PROCESS_CPUTIME_ID, &now);
    return (double)now.tv_sec + (double)now.tv_nsec / 1e9;
}

static int refuse(char **words)
{
    static struct mintlintel_seat hosts[1], none[1];
    struct mintlintel_one device = {0};
    uint8_t page[8];
    uint64_t count = strtoull(words[2], NULL, 10);
    int failed = 0, of_a_host = strcmp(words[1], "host_refused") == 0;
    if (mintlintel_one_open(&device, 1, 64, 64, 64, 3000, 1000) != MINTLINTEL_DONE ||
        mintlintel_shared_open(hosts, 1, none, 0, 1, 64, 64, 64, 3000, 1000) != MINTLINTEL_DONE)
        return 1;
    double begin = seconds();
    for (uint64_t i = 0; i < count && of_a_host; i++)
        failed |= mintlintel_host_read(&hosts[0], 3000, page, 8) != MINTLINTEL_NO_SECTOR;
    for (uint64_t i = 0; i < count && !of_a_host; i++)
        failed |= mintlintel_one_read(&device, 3000, page, 8) != MINTLINTEL_NO_SECTOR;
    printf("%.2f\n", (seconds() - begin) * 1e9 / (double)count);
    mintlintel_one_close(&device);
    mintlintel_seat_close(&hosts[0]);
    return failed;
}

int main(int count, char **words)
{
    return count == 7 ? layer(words) : count == 4 ? shared(words) : count == 3 ? refuse(words) : 2;
}
