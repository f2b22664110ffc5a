/* What the calls cost as a device grows, in processor time of one thread, so that other work doesn't change much of it:
 *
 * growth refused BLOCKS            a write that finds no block: its nanoseconds
 * growth survey SECTORS            a drain with nothing to gain: its nanoseconds for a sector
 * growth write BLOCKS PAGES USE    a host and a broom by turns: the nanoseconds of a write, of the broom's work for it, and the write amplification
 * growth alone plain|one USE WORDS the layer for one thread: the nanoseconds of a write with its collections, and the write amplification
 * growth open one|shared large|small   an open of 15 million words: its milliseconds, the peak of memory in megabytes, and the nanoseconds of a read
 * growth sectors one|plain|shared SECTORS PAGES WORDS large|small   70 % in use: the megabytes of its words; the nanoseconds of a uniform write, with
 *                                  what is collected for it (but a broom's work), of the broom's work for it, and of a uniform read
 */
#define _GNU_SOURCE
#include <mintlintel.h>
#include <stdio.h>
#include <stdlib.h>
#include <string.h>
#include <sys/prctl.h>
#include <sys/resource.h>
#include <time.h>

#include "plain.h"

enum { SECOND = 1000000000, ENDURANCE = 1000000, WORDS = 64, PAGE = 8 * WORDS, LONGEST_PAGE = 4096, FEW = 12, MANY = 16 };

static struct mintlintel_seat host, broom;
static struct mintlintel_one one;
static uint64_t state = 88172645463325252u;
static uint8_t page[LONGEST_PAGE];

static double now(void)
{
    struct timespec time;
    clock_gettime(CLOCK_PROCESS_CPUTIME_ID, &time);
    return (double)time.tv_sec * SECOND + (double)time.tv_nsec;
}

static uint32_t below(uint32_t end)
{
    state ^= state << 13;
    state ^= state >> 7;
    state ^= state << 17;
    return (uint32_t)((state >> 32) * end >> 32);
}

static void check(uint32_t code, uint32_t most)
{
    if (code <= most)
        return;
    fprintf(stderr, "growth: %s\n", mintlintel_code_name(code));
    exit(1);
}

static void open_shared(uint32_t blocks, uint32_t pages, uint32_t words, uint32_t sectors)
{
    check(mintlintel_shared_open(&host, 1, &broom, 1, 1, blocks, pages, words, sectors, ENDURANCE), MINTLINTEL_DONE);
}

static void refused(uint32_t blocks)
{
    enum { TRIES = 20000 };
    open_shared(blocks, 2, 1, blocks);
    while (mintlintel_host_write(&host, 0, page, 8) != MINTLINTEL_NO_BLOCK)
        ;
    double began = now();
    for (int i = 0; i < TRIES; i++)
        mintlintel_host_write(&host, 0, page, 8);
    printf("%.1f\n", (now() - began) / TRIES);
}

static void survey(uint32_t sectors)
{
    uint32_t surveys = 1 + 20000000 / sectors, block, moved;
    open_shared(1024, sectors / 1000, 1, sectors);
    for (uint32_t sector = 0; sector < sectors; sector++)
        check(mintlintel_host_write(&host, sector, page, 8), MINTLINTEL_WRITTEN);
    double began = now();
    for (uint32_t i = 0; i < surveys; i++)
        if (mintlintel_broom_drain(&broom, &block, &moved) != MINTLINTEL_NOTHING_TO_GAIN)
            exit(1);
    printf("%.2f\n", (now() - began) / surveys / sectors);
}

/* The broom collects after each 32 writes if few blocks are free. */
static void write_by_turns(uint32_t blocks, uint32_t pages, uint32_t use)
{
    uint32_t sectors = (uint32_t)((uint64_t)blocks * pages * use / 100), count = 2 * blocks * pages, from = sectors + count;
    double writing = 0, collecting = 0;
    uint64_t moved = 0;
    open_shared(blocks, pages, WORDS, sectors);
    for (uint32_t i = 0; i < from + count; i += 32) {
        struct mintlintel_counts counts;
        struct mintlintel_collected did = {0, 0, 0, 0, 0, 0};
        double began = now();
        for (uint32_t k = i; k < i + 32; k++)
            check(mintlintel_host_write(&host, k < sectors ? k : below(sectors), page, PAGE), MINTLINTEL_WRITTEN);
        double wrote = now();
        if (mintlintel_broom_counts(&broom, &counts) == MINTLINTEL_DONE && counts.free < FEW)
            mintlintel_collect(&broom, MANY, &did);
        double ended = now();
        writing += i < from ? 0 : wrote - began;
        collecting += i < from ? 0 : ended - wrote;
        moved += i < from ? 0 : did.moved;
    }
    printf("%.1f %.1f %.3f\n", writing / count, collecting / count, 1 + (double)moved / count);
}

static void alone(int is_plain, uint32_t use, uint32_t words)
{
    enum { BLOCKS = 512, PAGES = 64 };
    uint32_t sectors = BLOCKS * PAGES * use / 100, count = 4 * BLOCKS * PAGES;
    uint64_t before[3] = {0}, after[3] = {0};
    struct mintlintel_totals totals[2];
    struct plain *layer = plain_open(BLOCKS, PAGES, words, sectors, ENDURANCE);
    check(mintlintel_one_open(&one, 1, BLOCKS, PAGES, words, sectors, ENDURANCE), MINTLINTEL_DONE);
    double began = 0;
    for (uint32_t i = 0; i < sectors + 2 * count; i++) {
        uint32_t sector = i < sectors ? i : below(sectors);
        if (i == sectors + count) {
            mintlintel_one_counts(&one, &totals[0]);
            plain_counts(layer, before);
            began = now();
        }
        check(is_plain ? plain_write(layer, sector, page) : mintlintel_one_write(&one, sector, page, 8 * words), MINTLINTEL_WRITTEN);
    }
    double took = now() - began;
    mintlintel_one_counts(&one, &totals[1]);
    plain_counts(layer, after);
    uint64_t copies = is_plain ? after[1] - before[1] : totals[1].copies - totals[0].copies;
    printf("%.1f %.3f\n", took / count, 1 + (double)copies / count);
}

static void open_large(int is_one, int is_large)
{
    enum { BLOCKS = 1900, PAGES = 120, SECTORS = 200000, READS = 2000000 };
    struct rusage usage;
    if (!is_large)
        prctl(PR_SET_THP_DISABLE, 1, 0, 0, 0);
    double began = now();
    if (is_one)
        check(mintlintel_one_open(&one, 1, BLOCKS, PAGES, WORDS, SECTORS, ENDURANCE), MINTLINTEL_DONE);
    else
        open_shared(BLOCKS, PAGES, WORDS, SECTORS);
    double opened = now();
    getrusage(RUSAGE_SELF, &usage);
    for (uint32_t i = 0; i < SECTORS; i++)
        check(is_one ? mintlintel_one_write(&one, i, page, PAGE) : mintlintel_host_write(&host, i, page, PAGE), MINTLINTEL_WRITTEN);
    double read = now();
    for (int i = 0; i < READS; i++)
        check(is_one ? mintlintel_one_read(&one, below(SECTORS), page, PAGE) : mintlintel_host_read(&host, below(SECTORS), page, PAGE), MINTLINTEL_WRITTEN);
    printf("%.1f %ld %.1f\n", (opened - began) / 1e6, usage.ru_maxrss / 1024, (now() - read) / READS);
}

/* One of the layers, with its calls. */
struct kind { const char *name; uint32_t (*write)(uint32_t sector, size_t bytes), (*read)(uint32_t sector, size_t bytes); };

static struct plain *layer;

static uint32_t one_write(uint32_t sector, size_t bytes) { return mintlintel_one_write(&one, sector, page, bytes); }
static uint32_t one_read(uint32_t sector, size_t bytes) { return mintlintel_one_read(&one, sector, page, bytes); }
static uint32_t shared_write(uint32_t sector, size_t bytes) { return mintlintel_host_write(&host, sector, page, bytes); }
static uint32_t shared_read(uint32_t sector, size_t bytes) { return mintlintel_host_read(&host, sector, page, bytes); }

static uint32_t layer_write(uint32_t sector, size_t bytes)
{
    (void)bytes;
    return plain_write(layer, sector, page);
}

static uint32_t layer_read(uint32_t sector, size_t bytes)
{
    (void)bytes;
    return plain_read(layer, sector, page);
}

static const struct kind kinds[] = {{"one", one_write, one_read}, {"shared", shared_write, shared_read}, {"plain", layer_write, layer_read}};

/* Writes so many sectors, the first ones in order; the broom collects by turns. Adds to the times of writes and of the broom. */
static void write_many(const struct kind *kind, uint32_t count, int in_order, uint32_t sectors, size_t bytes, double times[2])
{
    for (uint32_t i = 0; i < count; i += 64) {
        struct mintlintel_counts counts;
        struct mintlintel_collected did;
        double began = now();
        for (uint32_t k = i; k < i + 64 && k < count; k++)
            check(kind->write(in_order ? k : below(sectors), bytes), MINTLINTEL_WRITTEN);
        double wrote = now();
        if (kind->write == shared_write && mintlintel_broom_counts(&broom, &counts) == MINTLINTEL_DONE && counts.free < FEW)
            mintlintel_collect(&broom, MANY, &did);
        times[0] += wrote - began;
        times[1] += now() - wrote;
    }
}

static void by_sectors(const char *name, uint32_t sectors, uint32_t pages, uint32_t words, int is_large)
{
    enum { READS = 1000000 };
    const struct kind *kind = kinds;
    uint32_t all = (uint32_t)((uint64_t)sectors * 10 / 7), blocks = all / pages + 2, count = all < 200000 ? 200000 : all;
    size_t bytes = 8 * (size_t)words;
    double times[2] = {0, 0}, unused[2] = {0, 0};
    while (strcmp(kind->name, name) != 0)
        kind++;
    if (!is_large)
        prctl(PR_SET_THP_DISABLE, 1, 0, 0, 0);
    if (kind->write == shared_write)
        open_shared(blocks, pages, words, sectors);
    else if (kind->write == one_write)
        check(mintlintel_one_open(&one, 1, blocks, pages, words, sectors, ENDURANCE), MINTLINTEL_DONE);
    else
        layer = plain_open(blocks, pages, words, sectors, ENDURANCE);
    write_many(kind, sectors, 1, sectors, bytes, unused);
    write_many(kind, 2 * all, 0, sectors, bytes, unused);
    write_many(kind, count, 0, sectors, bytes, times);
    double began = now();
    for (int i = 0; i < READS; i++)
        check(kind->read(below(sectors), bytes), MINTLINTEL_WRITTEN);
    printf("%.1f %.1f %.1f %.1f\n", (double)blocks * pages * (words + 1) * 8 / 1e6, times[0] / count, times[1] / count, (now() - began) / READS);
}

int main(int count, char **words)
{
    const char *work = count > 2 ? words[1] : "";
    if (strcmp(work, "refused") == 0)
        refused((uint32_t)atoi(words[2]));
    else if (strcmp(work, "survey") == 0)
        survey((uint32_t)atoi(words[2]));
    else if (strcmp(work, "write") == 0 && count > 4)
        write_by_turns((uint32_t)atoi(words[2]), (uint32_t)atoi(words[3]), (uint32_t)atoi(words[4]));
    else if (strcmp(work, "alone") == 0 && count > 4)
        alone(words[2][0] == 'p', (uint32_t)atoi(words[3]), (uint32_t)atoi(words[4]));
    else if (strcmp(work, "open") == 0 && count > 3)
        open_large(words[2][0] == 'o', words[3][0] == 'l');
    else if (strcmp(work, "sectors") == 0 && count > 6)
        by_sectors(words[2], (uint32_t)atoi(words[3]), (uint32_t)atoi(words[4]), (uint32_t)atoi(words[5]), words[6][0] == 'l');
    else
        return 2;
    return 0;
}
