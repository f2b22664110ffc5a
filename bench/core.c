/* core BLOCKS PAGES PERCENT: the time of a command in the core of the durable layer, without any flash, beside the same bookkeeping in plain C and beside
 * `ftl_one`, which also stores eight bytes a page. Each sector is written once, and then as many pages as the device has at random sectors, in seven turns
 * of which the shortest counts. A command of the core is said by `mintlintel_core_next` and taken by `mintlintel_core_done`. */
#include "mintlintel.h"
#include "mintlintel_durable.h"
#include <stdio.h>
#include <stdlib.h>
#include <string.h>
#include <time.h>

enum { PROGRAM = 1, COPY = 2, ERASE = 3, TURNS = 7, NO_SECTOR = -1 };

static double now(void)
{
    struct timespec t;
    clock_gettime(CLOCK_PROCESS_CPUTIME_ID, &t);
    return (double)t.tv_sec + 1e-9 * (double)t.tv_nsec;
}

/* A number below another one. It is drawn without a division, which takes a tenth of a command's time. */
static uint32_t drawn(uint64_t *state, uint32_t below)
{
    *state ^= *state << 13;
    *state ^= *state >> 7;
    *state ^= *state << 17;
    return (uint32_t)((*state >> 32) * below >> 32);
}

static void need(uint32_t code)
{
    if (code > MINTLINTEL_WRITTEN) {
        fprintf(stderr, "core: %s\n", mintlintel_durable_code_name(code));
        exit(1);
    }
}

static void *room_for(size_t count)
{
    void *room = calloc(count, sizeof(uint32_t));
    if (!room)
        exit(1);
    return room;
}

/* ---- The core ---- */

static struct mintlintel_core core;

/* Writes a sector: how many commands it takes. So do the other two. */
static uint64_t by_core(uint32_t sector)
{
    struct mintlintel_command command;
    uint64_t commands = 0;
    do {
        need(mintlintel_core_next(&core, sector, 1, &command));
        need(mintlintel_core_done(&core, sector, 1, &command));
        commands++;
    } while (command.kind != PROGRAM);
    return commands;
}

/* ---- Plain C ---- */

/* Pages are numbered through; `map` has a sector's page and one more, or 0. The blocks stand in `order` by their live pages, those with n from start[n] on. */
static struct {
    uint32_t blocks, pages, *map, *owner, *live, *order, *place, *start, open, next, hand, turn;
} plain;

static void swap_to(uint32_t block, uint32_t to)
{
    uint32_t from = plain.place[block], other = plain.order[to];
    plain.order[from] = other;
    plain.place[other] = from;
    plain.order[to] = block;
    plain.place[block] = to;
}

static void map_to(uint32_t sector, uint32_t page)
{
    uint32_t block = plain.open;
    if (plain.map[sector] != 0) {
        uint32_t left = (plain.map[sector] - 1) / plain.pages;
        swap_to(left, plain.start[plain.live[left]]++);
        plain.live[left]--;
    }
    swap_to(block, --plain.start[plain.live[block] + 1]);
    plain.live[block]++;
    plain.map[sector] = page + 1;
    plain.owner[page] = sector;
}

static uint32_t plain_command(uint32_t sector)
{
    if (plain.next == plain.pages) {
        plain.open = plain.order[plain.turn++ % plain.start[1]];
        plain.next = plain.hand = 0;
        return ERASE;
    }
    uint32_t victim = plain.order[plain.order[0] == plain.open];
    uint32_t page = plain.open * plain.pages + plain.next++;
    if (plain.live[victim] == 0) {
        map_to(sector, page);
        return PROGRAM;
    }
    uint32_t *owners = plain.owner + victim * plain.pages, at;
    do {
        plain.hand %= plain.pages;
        at = plain.hand++;
    } while (owners[at] == (uint32_t)NO_SECTOR || plain.map[owners[at]] != victim * plain.pages + at + 1);
    map_to(owners[at], page);
    return COPY;
}

static uint64_t by_plain_c(uint32_t sector)
{
    uint64_t commands = 1;
    while (plain_command(sector) != PROGRAM)
        commands++;
    return commands;
}

static void open_plain(uint32_t blocks, uint32_t pages, uint32_t sectors)
{
    plain.blocks = blocks, plain.pages = plain.next = pages;
    plain.map = room_for(sectors);
    plain.owner = room_for((size_t)blocks * pages);
    plain.live = room_for(blocks);
    plain.order = room_for(blocks);
    plain.place = room_for(blocks);
    plain.start = room_for((size_t)pages + 2);
    memset(plain.owner, NO_SECTOR, (size_t)blocks * pages * sizeof *plain.owner);
    for (uint32_t block = 0; block < blocks; block++)
        plain.order[block] = plain.place[block] = block;
    for (uint32_t live = 1; live < pages + 2; live++)
        plain.start[live] = blocks;
}

/* ---- The layer for one thread ---- */

static struct mintlintel_one one;

static uint64_t by_ftl_one(uint32_t sector)
{
    static const uint8_t page[8];
    need(mintlintel_one_write(&one, sector, page, sizeof page));
    return 0;
}

static uint64_t commands_of_one(void)
{
    struct mintlintel_totals totals;
    need(mintlintel_one_counts(&one, &totals));
    return totals.programs + totals.copies + totals.erases;
}

/* ---- What is measured ---- */

/* The least nanoseconds of a command, and the commands of a write in the last turn. */
static void measure(const char *name, uint64_t (*write)(uint32_t), uint32_t all, uint32_t sectors)
{
    uint64_t state = 88172645463325252u, commands = 0;
    double least = 0;
    for (uint32_t sector = 0; sector < sectors; sector++)
        write(sector);
    for (int turn = 0; turn < TURNS; turn++) {
        uint64_t before = one.is_open ? commands_of_one() : 0;
        double start = now();
        commands = 0;
        for (uint32_t i = 0; i < all; i++)
            commands += write(drawn(&state, sectors));
        double taken = now() - start;
        commands += one.is_open ? commands_of_one() - before : 0;
        taken /= (double)commands;
        least = turn > 0 && least < taken ? least : taken;
    }
    printf("%s: %.0f ns a command, %.2f commands a write\n", name, 1e9 * least, (double)commands / all);
}

int main(int argc, char **argv)
{
    if (argc != 4)
        return 2;
    uint32_t blocks = (uint32_t)atoi(argv[1]), pages = (uint32_t)atoi(argv[2]), all = blocks * pages;
    uint32_t sectors = (uint32_t)((uint64_t)all * (uint32_t)atoi(argv[3]) / 100);
    printf("%u blocks of %u pages, %u sectors\n", blocks, pages, sectors);
    need(mintlintel_core_open(&core, blocks, pages, sectors));
    for (uint32_t page = 0; page < all; page++)
        need(mintlintel_core_note(&core, 0, 0, 0, 0));
    need(mintlintel_core_finish(&core));
    measure("the core", by_core, all, sectors);
    mintlintel_core_close(&core);
    open_plain(blocks, pages, sectors);
    measure("plain C", by_plain_c, all, sectors);
    need(mintlintel_one_open(&one, 1, blocks, pages, 1, sectors, 1000000));
    measure("ftl_one", by_ftl_one, all, sectors);
    mintlintel_one_close(&one);
    return 0;
}
