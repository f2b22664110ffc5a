/* The machine code of one proved call, `OneFtl::write`, called by the library's export and directly, on one device, in batches by turns: what
 * the export adds. bench/linking makes the function's symbol, which the library keeps to itself, `proved_write`, and runs this with the words of
 * a page, the sectors, whether they are uniform, and how many batches of each kind. It prints the lower quarter and the median of both kinds, in
 * nanoseconds of a call. */
#include "mintlintel.h"
#include <stdio.h>
#include <stdlib.h>
#include <string.h>
#include <time.h>

enum { BATCH = 2000, UNMEASURED = 100, MOST_BATCHES = 100000, MOST_BYTES = 4096, KINDS = 2 };

/* As the compiler of the library returns it: whether no page was left, and what the sector was. */
struct answer { uint64_t fault, was; };
struct answer proved_write(void *layer, uint32_t sector, const uint8_t *bytes, size_t count);

static double times[KINDS][MOST_BATCHES];
static uint32_t places[BATCH];
static uint8_t page[MOST_BYTES];
static uint64_t written, refused;

/* SplitMix64 (Steele, Lea and Flood, OOPSLA 2014). */
static uint64_t next(uint64_t *state)
{
    *state += 0x9e3779b97f4a7c15u;
    uint64_t z = (*state ^ (*state >> 30)) * 0xbf58476d1ce4e5b9u;
    z = (z ^ (z >> 27)) * 0x94d049bb133111ebu;
    return z ^ (z >> 31);
}

static double nanoseconds(void)
{
    struct timespec now;
    clock_gettime(CLOCK_MONOTONIC, &now);
    return (double)now.tv_sec * 1e9 + (double)now.tv_nsec;
}

static void by_export(struct mintlintel_one *device, size_t bytes)
{
    for (int i = 0; i < BATCH; i++) {
        memcpy(page, &written, 8);
        written++;
        refused += mintlintel_one_write(device, places[i], page, bytes) > MINTLINTEL_WRITTEN;
    }
}

/* The layer stands behind the word that says which kind of seat it is. */
static void directly(struct mintlintel_one *device, size_t bytes)
{
    void *layer = (uint64_t *)device->at + 1;
    for (int i = 0; i < BATCH; i++) {
        memcpy(page, &written, 8);
        written++;
        refused += (uint8_t)proved_write(layer, places[i], page, bytes).fault != 0;
    }
}

static int compare(const void *a, const void *b)
{
    double x = *(const double *)a, y = *(const double *)b;
    return (x > y) - (x < y);
}

int main(int count, char **words)
{
    uint32_t size = count == 5 ? (uint32_t)atoi(words[1]) : 0, sectors = size ? (uint32_t)atoi(words[2]) : 0, batches = size ? (uint32_t)atoi(words[4]) : 0;
    int uniform = size && atoi(words[3]);
    struct mintlintel_one device = {0};
    if (batches == 0 || batches > MOST_BATCHES || mintlintel_one_open(&device, 1, 64, 64, size, sectors, 1000000) != MINTLINTEL_DONE)
        return 2;
    uint64_t random = 1;
    for (uint32_t batch = 0; batch < KINDS * (batches + UNMEASURED); batch++) {
        for (uint32_t i = 0; i < BATCH; i++)
            places[i] = (uint32_t)((uniform ? next(&random) >> 32 : written + i) % sectors);
        double begin = nanoseconds();
        (batch % KINDS == 0 ? by_export : directly)(&device, 8 * (size_t)size);
        double end = nanoseconds();
        if (batch >= KINDS * UNMEASURED)
            times[batch % KINDS][batch / KINDS - UNMEASURED] = (end - begin) / BATCH;
    }
    for (int kind = 0; kind < KINDS; kind++) {
        qsort(times[kind], batches, sizeof times[kind][0], compare);
        printf("%.2f %.2f ", times[kind][batches / 4], times[kind][batches / 2]);
    }
    printf("\n");
    mintlintel_one_close(&device);
    return refused > 0;
}
