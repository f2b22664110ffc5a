/* programs BLOCKS PAGES: how many pages the core of the durable layer programs for a write, and the most copies that one write waits for, on so many
 * blocks, by how many of the pages are in use: as the core is, and with copies kept apart. Each sector is written once, then as many pages as the device
 * has twice over, and what comes in as many writes again counts. The sectors are uniform, or by Zipf's law: the sector of rank n is written 1/n as often
 * as the first. Each device that was written as the core is is then mounted, and written on with copies kept apart: a sixteenth of it, and then twice. At last
 * a tenth of the sectors is written, on 80 % of the pages, until a block has 1,000 erases: which share of all blocks' erases is used by then. */
#include "mintlintel_durable.h"
#include <stdio.h>
#include <stdlib.h>
#include <string.h>

enum { PROGRAM = 1, COPY = 2, ERASE = 3, TURNS = 2, PARTS = 16, LIFE = 1000, COLD_PERCENT = 80 };

static struct mintlintel_core core;
static uint64_t state = 88172645463325252u;

static double drawn(void)
{
    state ^= state << 13;
    state ^= state >> 7;
    state ^= state << 17;
    return (double)(state >> 11) / 9007199254740992.0;
}

static void need(uint32_t code)
{
    if (code > MINTLINTEL_WRITTEN) {
        fprintf(stderr, "programs: %s\n", mintlintel_durable_code_name(code));
        exit(1);
    }
}

static void *room_for(size_t count, size_t size)
{
    void *room = calloc(count, size);
    if (!room)
        exit(1);
    return room;
}

/* The sectors in an order by chance, and the share of writes that goes to those before each rank. */
static uint32_t *ranked;
static double *share;

static void rank(uint32_t sectors)
{
    ranked = room_for(sectors, sizeof *ranked);
    share = room_for(sectors, sizeof *share);
    double sum = 0;
    for (uint32_t n = 0; n < sectors; n++) {
        uint32_t other = (uint32_t)(drawn() * (n + 1));
        ranked[n] = ranked[other];
        ranked[other] = n;
        sum += 1.0 / (n + 1);
        share[n] = sum;
    }
    for (uint32_t n = 0; n < sectors; n++)
        share[n] /= sum;
}

static uint32_t by_zipf(uint32_t sectors)
{
    double part = drawn();
    uint32_t first = 0, last = sectors - 1;
    while (first < last) {
        uint32_t middle = (first + last) / 2;
        if (share[middle] < part)
            first = middle + 1;
        else
            last = middle;
    }
    return ranked[first];
}

static uint32_t uniform(uint32_t sectors)
{
    return (uint32_t)(drawn() * sectors);
}

/* What the flash holds: the sector and the number of each page, which is 0 for an erased one. */
static struct page { uint32_t sector; uint64_t number; } *flash;
static uint32_t pages_of_block;
/* How often each block was erased, and the greatest of these counts. */
static uint32_t *erases, most_erases;

static void note(const struct mintlintel_command *did)
{
    struct page *block = flash + (uint64_t)did->block * pages_of_block;
    if (did->kind == ERASE) {
        memset(block, 0, pages_of_block * sizeof *block);
        erases[did->block]++;
        most_erases = erases[did->block] > most_erases ? erases[did->block] : most_erases;
    } else if (did->kind == COPY)
        block[did->page] = flash[(uint64_t)did->from_block * pages_of_block + did->from_page];
    else
        block[did->page] = (struct page){did->sector, did->number + 1};
}

static void mount(uint32_t blocks, uint32_t pages, uint32_t sectors, int apart)
{
    need(mintlintel_core_open(&core, blocks, pages, sectors));
    for (const struct page *page = flash; page < flash + (uint64_t)blocks * pages; page++)
        need(mintlintel_core_note(&core, page->number > 0, page->sector, 1, page->number - (page->number > 0)));
    need(mintlintel_core_finish(&core));
    if (apart)
        need(mintlintel_core_keep_apart(&core));
}

/* Writes a sector: how many copies it waits for. */
static uint64_t copies_of(uint32_t sector)
{
    struct mintlintel_command command;
    uint64_t copies = 0;
    do {
        need(mintlintel_core_next(&core, sector, 1, &command));
        need(mintlintel_core_done(&core, sector, 1, &command));
        note(&command);
        copies += command.kind == COPY;
    } while (command.kind != PROGRAM);
    return copies;
}

static void count(const char *name, uint32_t percent, const char *how, uint64_t writes, uint32_t sectors, uint32_t (*sector)(uint32_t))
{
    uint64_t copies = 0, most = 0;
    for (uint64_t i = 0; i < writes; i++) {
        uint64_t made = copies_of(sector(sectors));
        copies += made;
        most = made > most ? made : most;
    }
    if (how)
        printf("%s, %u %%%s: %.2f programs a write, at most %llu copies\n", name, percent, how, 1 + (double)copies / (double)writes,
               (unsigned long long)most);
}

/* A new device, with each sector written once: how many sectors it has. */
static uint32_t begin(uint32_t blocks, uint32_t pages, uint32_t percent, int apart)
{
    uint64_t all = (uint64_t)blocks * pages;
    uint32_t sectors = (uint32_t)(all * percent / 100);
    flash = room_for(all, sizeof *flash);
    erases = room_for(blocks, sizeof *erases);
    most_erases = 0;
    pages_of_block = pages;
    mount(blocks, pages, sectors, apart);
    rank(sectors);
    for (uint32_t n = 0; n < sectors; n++)
        copies_of(ranked[n]);
    return sectors;
}

static void end(void)
{
    mintlintel_core_close(&core);
    free(ranked);
    free(share);
    free(flash);
    free(erases);
}

static void measure(const char *name, uint32_t blocks, uint32_t pages, uint32_t percent, uint32_t (*sector)(uint32_t), int apart)
{
    uint64_t all = (uint64_t)blocks * pages;
    uint32_t sectors = begin(blocks, pages, percent, apart);
    for (int turn = 0; turn < TURNS; turn++)
        count(name, percent, turn + 1 < TURNS ? NULL : apart ? ", apart" : "", 2 * all, sectors, sector);
    if (!apart) {
        mintlintel_core_close(&core);
        mount(blocks, pages, sectors, 1);
        count(name, percent, ", apart after a mount", all / PARTS, sectors, sector);
        count(name, percent, ", and then", 2 * all, sectors, sector);
    }
    end();
}

static void measure_wear(uint32_t blocks, uint32_t pages, int apart)
{
    uint32_t hot = begin(blocks, pages, COLD_PERCENT, apart) / 10, least = UINT32_MAX;
    uint64_t used = 0;
    while (most_erases < LIFE)
        copies_of(ranked[uniform(hot)]);
    for (uint32_t block = 0; block < blocks; block++) {
        used += erases[block];
        least = erases[block] < least ? erases[block] : least;
    }
    printf("nine tenths cold, %d %%%s: %.1f %% of the erases are used when a block has %d and another one %u\n", COLD_PERCENT, apart ? ", apart" : "",
           100.0 * (double)used / ((double)blocks * LIFE), LIFE, least);
    end();
}

int main(int argc, char **argv)
{
    static const uint32_t percents[] = {50, 70, 80, 88, 93};
    if (argc != 3)
        return 2;
    uint32_t blocks = (uint32_t)atoi(argv[1]), pages = (uint32_t)atoi(argv[2]);
    printf("%u blocks of %u pages\n", blocks, pages);
    for (size_t i = 0; i < sizeof percents / sizeof *percents; i++)
        for (int apart = 0; apart <= 1; apart++) {
            measure("uniform", blocks, pages, percents[i], uniform, apart);
            measure("Zipf", blocks, pages, percents[i], by_zipf, apart);
        }
    for (int apart = 0; apart <= 1; apart++)
        measure_wear(blocks, pages, apart);
    return 0;
}
