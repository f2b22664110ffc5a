/* The calls of a host, by the exports and from Rattle, on one device, in batches by turns: what a call of C costs more. bench/linking builds it
 * over a copy of the library that has two calls more, which read or write every sector with no code of C between. Its words are `read` or
 * `write`, how many batches of each kind, and how many bytes behind a line of the cache the buffer begins. It prints the lower quarter and the
 * median of both kinds, in nanoseconds of a call. */
#include "mintlintel.h"
#include <stdio.h>
#include <stdlib.h>
#include <string.h>
#include <time.h>

enum { WORDS = 64, BYTES = 8 * WORDS, SECTORS = 2000, PAGES = 120, UNMEASURED = 4, MOST_BATCHES = 100000, KINDS = 2 };

uint64_t direct_reads(struct mintlintel_seat *handle, uint8_t *out, size_t bytes);
void direct_writes(struct mintlintel_seat *handle, uint64_t first, uint8_t *page, size_t bytes);

static double times[KINDS][MOST_BATCHES];
static _Alignas(64) uint8_t memory[BYTES + 64];
static uint8_t *page;
static uint64_t written, sums[KINDS], refused;

static double nanoseconds(void)
{
    struct timespec now;
    clock_gettime(CLOCK_MONOTONIC, &now);
    return (double)now.tv_sec * 1e9 + (double)now.tv_nsec;
}

static void read_by_export(struct mintlintel_seat *host)
{
    for (uint32_t sector = 0; sector < SECTORS; sector++) {
        uint64_t word;
        refused += mintlintel_host_read(host, sector, page, BYTES) != MINTLINTEL_WRITTEN;
        memcpy(&word, page, 8);
        sums[0] += word;
    }
}

static void read_directly(struct mintlintel_seat *host)
{
    sums[1] += direct_reads(host, page, BYTES);
}

static void write_by_export(struct mintlintel_seat *host)
{
    for (uint32_t sector = 0; sector < SECTORS; sector++) {
        uint64_t word = written + sector;
        memcpy(page, &word, 8);
        refused += mintlintel_host_write(host, sector, page, BYTES) > MINTLINTEL_WRITTEN;
    }
    written += SECTORS;
}

static void write_directly(struct mintlintel_seat *host)
{
    direct_writes(host, written, page, BYTES);
    written += SECTORS;
}

static int compare(const void *a, const void *b)
{
    double x = *(const double *)a, y = *(const double *)b;
    return (x > y) - (x < y);
}

int main(int count, char **words)
{
    static struct mintlintel_seat hosts[1], none[1];
    int writes = count == 4 && strcmp(words[1], "write") == 0;
    uint32_t batches = count == 4 ? (uint32_t)atoi(words[2]) : 0, all = KINDS * (batches + UNMEASURED);
    page = memory + (count == 4 ? atoi(words[3]) % 64 : 0);
    /* No broom: each write has a page of its own. */
    uint32_t blocks = writes ? (all * SECTORS + SECTORS) / PAGES + 3 : 64;
    if (batches == 0 || batches > MOST_BATCHES || mintlintel_shared_open(hosts, 1, none, 0, 1, blocks, PAGES, WORDS, SECTORS, 10) != MINTLINTEL_DONE)
        return 2;
    write_by_export(hosts);
    for (uint32_t batch = 0; batch < all; batch++) {
        double begin = nanoseconds();
        if (batch % KINDS == 0)
            (writes ? write_by_export : read_by_export)(hosts);
        else
            (writes ? write_directly : read_directly)(hosts);
        double end = nanoseconds();
        if (batch >= KINDS * UNMEASURED)
            times[batch % KINDS][batch / KINDS - UNMEASURED] = (end - begin) / SECTORS;
    }
    for (int kind = 0; kind < KINDS; kind++) {
        qsort(times[kind], batches, sizeof times[kind][0], compare);
        printf("%.2f %.2f ", times[kind][batches / 4], times[kind][batches / 2]);
    }
    printf("\n");
    mintlintel_seat_close(&hosts[0]);
    return refused > 0 || sums[0] != sums[1];
}
