/* The layer that survives power cuts, plain and slow: what a mount keeps, which commands may come next, and what they change, by searches over all
 * pages and sectors, without counts, hints or packed words. Tests run it beside the core. Blocks have the core's numbers. */
#ifndef PLAIN_LAYER_H
#define PLAIN_LAYER_H

#include "mintlintel_durable.h"
#include "testing.h"

enum { PROGRAM = 1, COPY = 2, ERASE = 3 };
enum { PLAIN_BLOCKS = 256, PLAIN_PAGES = 32, PLAIN_SECTORS = 2048 };

/* What a page holds: a version of `count` sectors from `first` on, with a value or, where that is 0, none; or nothing, erased or torn. */
struct plain_page { int has_version, is_erased; uint32_t first, count, value; uint64_t number; };

/* The flash, and what the layer knows of it: of each sector its page or none, the next pages of the blocks for hosts and for copies, and the next
 * number. */
struct plain {
    uint32_t blocks, read_blocks, pages, sectors; /* the first blocks are in use, and more are read */
    int drops_trims; /* a mount keeps no trim of sectors that no page has a value of */
    int keeps_apart; /* a block is opened for hosts */
    struct plain_page flash[PLAIN_BLOCKS][PLAIN_PAGES];
    struct plain_page *map[PLAIN_SECTORS], *hosts, *copies;
    uint64_t number;
    struct mintlintel_totals totals;
};

static uint32_t block_of(const struct plain *plain, const struct plain_page *page)
{
    return page ? (uint32_t)((page - plain->flash[0]) / PLAIN_PAGES) : UINT32_MAX;
}

static struct plain_page *page_at(struct plain *plain, uint32_t block, uint32_t page)
{
    return block < plain->read_blocks && page < plain->pages ? &plain->flash[block][page] : NULL;
}

static int has_sector(const struct plain_page *page, uint32_t sector)
{
    return page->has_version && sector >= page->first && sector - page->first < page->count;
}

static uint32_t value_of(const struct plain *plain, uint32_t sector)
{
    return plain->map[sector] ? plain->map[sector]->value : 0;
}

/* How many sectors have their pages in each block. */
struct live { uint32_t in[PLAIN_BLOCKS]; };

static struct live live_of(const struct plain *plain)
{
    struct live live = {{0}};
    for (uint32_t sector = 0; sector < plain->sectors; sector++)
        if (plain->map[sector])
            live.in[block_of(plain, plain->map[sector])]++;
    return live;
}

/* The least of these counts, of the blocks in use beside one. */
static uint32_t fewest_beside(const struct plain *plain, const struct live *live, uint32_t avoided)
{
    uint32_t fewest = UINT32_MAX;
    for (uint32_t block = 0; block < plain->blocks; block++)
        if (block != avoided && live->in[block] < fewest)
            fewest = live->in[block];
    return fewest;
}

/* What all pages tell of each sector: one more than the number of its newest version, or 0, and whether a page has a value of it. */
struct newest { uint64_t after[PLAIN_SECTORS], any; uint8_t has_value[PLAIN_SECTORS]; };

static void find_newest(const struct plain *plain, struct newest *newest)
{
    memset(newest, 0, sizeof *newest);
    for (uint32_t block = 0; block < plain->read_blocks; block++)
        for (const struct plain_page *page = plain->flash[block]; page < plain->flash[block] + plain->pages; page++)
            for (uint32_t sector = page->first; page->has_version && sector < page->first + page->count; sector++) {
                newest->has_value[sector] |= page->value > 0;
                if (page->number >= newest->after[sector])
                    newest->after[sector] = page->number + 1;
                if (page->number >= newest->any)
                    newest->any = page->number + 1;
            }
}

/* Mounts as the core has: a sector has a page with its newest version, any of them if there are several, unless that is a trim and may be dropped. A
 * block is free then, and nothing is known to be erased. */
static void plain_mount(struct plain *plain, struct mintlintel_core *core)
{
    static struct newest newest;
    find_newest(plain, &newest);
    for (uint32_t sector = 0; sector < plain->sectors; sector++) {
        struct mintlintel_place at;
        uint32_t code = mintlintel_core_page(core, sector, &at);
        struct plain_page *page = code == MINTLINTEL_WRITTEN ? page_at(plain, at.block, at.page) : NULL;
        int is_needed = newest.after[sector] > 0 && (newest.has_value[sector] || !plain->drops_trims);
        CHECK(code == (is_needed ? MINTLINTEL_WRITTEN : MINTLINTEL_EMPTY));
        CHECK(!is_needed || (page && has_sector(page, sector) && page->number + 1 == newest.after[sector]));
        plain->map[sector] = page;
    }
    for (uint32_t block = 0; block < plain->read_blocks; block++)
        for (uint32_t page = 0; page < plain->pages; page++)
            plain->flash[block][page].is_erased = 0;
    struct live live = live_of(plain);
    CHECK(fewest_beside(plain, &live, UINT32_MAX) == 0);
    plain->number = newest.any;
    plain->hosts = plain->copies = NULL;
    plain->totals = (struct mintlintel_totals){0, 0, 0};
}

/* Whether a block is in use, not open, and no sector has a page there. */
static int is_free(const struct plain *plain, const struct live *live, uint32_t block)
{
    return block < plain->blocks && live->in[block] == 0 && block != block_of(plain, plain->hosts) && block != block_of(plain, plain->copies);
}

static uint32_t free_blocks(const struct plain *plain, const struct live *live)
{
    uint32_t free = 0;
    for (uint32_t block = 0; block < plain->blocks; block++)
        free += is_free(plain, live, block);
    return free;
}

/* Whether an erase opens a block for hosts, and not for copies: if another block is free beside it. */
static int opens_for_hosts(const struct plain *plain, const struct live *live)
{
    return plain->keeps_apart && !plain->hosts && (plain->copies || free_blocks(plain, live) > 2);
}

/* Whether a command may come next for sectors from this one on: an erase of a free block, beside another one, unless none is open; a program, if a
 * block is free; or a copy out of a closed block. Beside a free block there is a copy only if copies are kept apart and a page stays open for the program;
 * and otherwise it is out of a block with the fewest live sectors. */
static int plain_allows(struct plain *plain, const struct mintlintel_command *command, uint32_t first)
{
    struct live live = live_of(plain);
    uint32_t free = free_blocks(plain, &live);
    if (command->kind == ERASE)
        return is_free(plain, &live, command->block) && (plain->hosts || plain->copies ? plain->keeps_apart && free > 1 : 1)
            && !(plain->hosts && plain->copies);
    const struct plain_page *to = page_at(plain, command->block, command->page);
    if (!to || !to->is_erased)
        return 0;
    if (command->kind == PROGRAM)
        return to == (plain->hosts ? plain->hosts : plain->copies) && free > 0 && command->number == plain->number && command->sector == first;
    const struct plain_page *from = page_at(plain, command->from_block, command->from_page);
    if (to != plain->copies || !from || command->from_block >= plain->blocks || command->sector >= plain->sectors || plain->map[command->sector] != from)
        return 0;
    if (command->from_block == command->block || command->from_block == block_of(plain, plain->hosts))
        return 0;
    uint32_t count = live.in[command->from_block];
    if (free > 0)
        return plain->keeps_apart && (plain->hosts || command->page + 1 < plain->pages);
    return count < plain->pages && count == fewest_beside(plain, &live, command->block);
}

/* What a command puts onto its page: the new version of a call's sectors, or that of the page which is copied. */
static struct plain_page put_by(struct plain *plain, const struct mintlintel_command *command, struct plain_page call)
{
    if (command->kind == COPY)
        return *page_at(plain, command->from_block, command->from_page);
    return (struct plain_page){1, 0, call.first, call.count, call.value, command->number};
}

/* A command's success. */
static void plain_done(struct plain *plain, const struct mintlintel_command *command, struct plain_page call)
{
    if (command->kind == ERASE) {
        struct live live = live_of(plain);
        *(opens_for_hosts(plain, &live) ? &plain->hosts : &plain->copies) = plain->flash[command->block];
        for (uint32_t page = 0; page < plain->pages; page++)
            plain->flash[command->block][page] = (struct plain_page){.is_erased = 1};
        plain->totals.erases++;
        return;
    }
    struct plain_page *page = page_at(plain, command->block, command->page);
    *page = put_by(plain, command, call);
    *(page == plain->hosts ? &plain->hosts : &plain->copies) = command->page + 1 < plain->pages ? page + 1 : NULL;
    if (command->kind == COPY) {
        plain->map[command->sector] = page;
        plain->totals.copies++;
        return;
    }
    for (uint32_t sector = call.first; sector < call.first + call.count; sector++)
        plain->map[sector] = page;
    plain->number++;
    plain->totals.programs++;
}

#endif
