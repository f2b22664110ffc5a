/* The device of the page: a small NAND in memory, the layer over it, and what a page asks for. It is built for WebAssembly with the library of wasm32. */
#include "flash.h"
#include "stamp.h"
#include <mintlintel_durable.h>
#include <string.h>

enum { BLOCKS = 24, PAGES = 16, PAGE_BYTES = 32, MOST_SECTORS = (BLOCKS - 2) * PAGES, MOST_STEPS = 4096, MEMORY_BYTES = 65536 };
enum { ERASED, HELD, TORN };
enum { PROGRAM = 1, COPY = 2, ERASE = 3, MARK = 4 };
/* How a command ended: done, failed, or cut with nothing, a part or all of it done. */
enum { DONE, HAS_FAILED, CUT_BEFORE, CUT_INSIDE, CUT_AFTER };

#define CALL(name) __attribute__((export_name(#name))) uint32_t name

/* A command, as the page shows it. */
struct step { uint32_t kind, block, page, from_block, from_page, first, count, ended; };
struct page { uint8_t main[PAGE_BYTES], stamp[MINTLINTEL_STAMP_BYTES], kind; };

static struct page chip[BLOCKS][PAGES];
static uint8_t is_bad_block[BLOCKS], fails[BLOCKS];
static struct step steps[MOST_STEPS];
static uint32_t count_of_steps, to_cut, kind_to_cut, how_to_cut, is_gone, chance, wrong, reads, sectors;
static struct mintlintel_durable device;
static uint8_t memory[MEMORY_BYTES] __attribute__((aligned(16)));
static uint8_t bytes[PAGE_BYTES], picture[BLOCKS * PAGES];
static uint32_t places[MOST_SECTORS];

static uint32_t any(uint32_t below)
{
    chance = chance * 1664525u + 1013904223u;
    return (uint32_t)((uint64_t)chance * below >> 32);
}

/* Of a page that several sectors have, a copy is for one of them: the layer tells which once it has heard that the copy is done. */
static void tell_moved(void)
{
    struct step *step = count_of_steps ? &steps[count_of_steps - 1] : NULL;
    struct mintlintel_place at;
    if (!step || step->kind != COPY || step->ended != DONE)
        return;
    for (uint32_t sector = step->first; sector < step->first + step->count; sector++)
        if (mtl_durable_find(&device, sector, &at) == MINTLINTEL_WRITTEN && at.block == step->block && at.page == step->page) {
            step->first = sector;
            step->count = 1;
            return;
        }
}

/* Notes a command, and how it ends. */
static struct step *begin(uint32_t kind, uint32_t block, uint32_t page, const void *stamp)
{
    struct stamp its = {0, 0, 0, 0, 0};
    if (stamp)
        its = mtl_stamp_from(stamp);
    tell_moved();
    uint32_t is_cut = to_cut && (!kind_to_cut || kind == kind_to_cut) && --to_cut == 0;
    uint32_t has_failed = fails[block] && (kind == PROGRAM || kind == COPY || kind == ERASE);
    struct step *step = &steps[count_of_steps < MOST_STEPS - 1 ? count_of_steps++ : MOST_STEPS - 1];
    *step = (struct step){kind, block, page, 0, 0, its.sector, its.count, is_cut ? how_to_cut : has_failed ? HAS_FAILED : DONE};
    is_gone |= is_cut;
    return step;
}

/* What the layer hears: a cut is a chip that is gone. */
static int answer(const struct step *step)
{
    return step->ended == DONE ? 0 : step->ended == HAS_FAILED ? 1 : 3;
}

static int read(void *own, uint32_t block, uint32_t page, void *main, void *stamp)
{
    const struct page *its = &chip[block][page];
    (void)own;
    reads++;
    if (is_gone)
        return 3;
    if (its->kind != HELD)
        return its->kind == ERASED ? 1 : 2;
    if (main)
        memcpy(main, its->main, PAGE_BYTES);
    memcpy(stamp, its->stamp, sizeof its->stamp);
    return 0;
}

static int put(const struct step *step, const void *main, const void *stamp)
{
    struct page *its = &chip[step->block][step->page];
    wrong += its->kind != ERASED || is_bad_block[step->block];
    for (uint32_t later = step->page; later < PAGES; later++)
        wrong += chip[step->block][later].kind != ERASED;
    if (step->ended == CUT_BEFORE)
        return 3;
    memcpy(its->main, main, PAGE_BYTES);
    memcpy(its->stamp, stamp, sizeof its->stamp);
    its->kind = step->ended == CUT_INSIDE || step->ended == HAS_FAILED ? TORN : HELD;
    return answer(step);
}

static int program(void *own, uint32_t block, uint32_t page, const void *main, const void *stamp)
{
    (void)own;
    return is_gone ? 3 : put(begin(PROGRAM, block, page, stamp), main, stamp);
}

static int copyback(void *own, uint32_t from_block, uint32_t from_page, uint32_t block, uint32_t page, const void *stamp)
{
    (void)own;
    if (is_gone)
        return 3;
    struct step *step = begin(COPY, block, page, stamp);
    step->from_block = from_block;
    step->from_page = from_page;
    return put(step, chip[from_block][from_page].main, stamp);
}

/* An erase that was cut inside has erased some pages, and torn others. */
static int erase(void *own, uint32_t block)
{
    (void)own;
    if (is_gone)
        return 3;
    const struct step *step = begin(ERASE, block, 0, NULL);
    for (uint32_t page = 0; page < PAGES; page++)
        if (step->ended == DONE || step->ended == CUT_AFTER || ((step->ended == CUT_INSIDE || step->ended == HAS_FAILED) && any(2)))
            chip[block][page].kind = step->ended == CUT_INSIDE && any(3) == 0 ? TORN : ERASED;
    return answer(step);
}

static int is_bad(void *own, uint32_t block)
{
    (void)own;
    return is_bad_block[block];
}

static int mark_bad(void *own, uint32_t block)
{
    (void)own;
    if (is_gone)
        return 3;
    is_bad_block[block] = 1;
    return answer(begin(MARK, block, 0, NULL));
}

static const struct mintlintel_nand nand = {NULL, read, program, copyback, erase, is_bad, mark_bad, NULL};

static void fill(uint32_t sector, uint32_t serial)
{
    for (uint32_t i = 0; i < PAGE_BYTES; i++)
        bytes[i] = (uint8_t)(serial * 31 + sector * 7 + i);
    memcpy(bytes, &serial, 4);
    memcpy(bytes + 4, &sector, 4);
}

CALL(blocks)(void) { return BLOCKS; }
CALL(pages)(void) { return PAGES; }
CALL(step_words)(void) { return sizeof(struct step) / 4; }
CALL(most_sectors)(void) { return MOST_SECTORS; }

/* A chip that was never written, for a device with so many sectors. */
CALL(fresh)(uint32_t wanted, uint32_t seed)
{
    mintlintel_durable_close(&device);
    memset(chip, 0, sizeof chip);
    memset(is_bad_block, 0, sizeof is_bad_block);
    memset(fails, 0, sizeof fails);
    sectors = wanted;
    chance = seed;
    to_cut = is_gone = wrong = reads = count_of_steps = 0;
    return 0;
}

CALL(power_on)(void)
{
    to_cut = is_gone = count_of_steps = reads = 0;
    const struct mintlintel_durable_numbers numbers = {1, BLOCKS, PAGES, PAGE_BYTES, sectors};
    return mintlintel_durable_open_in(&device, &nand, &numbers, MINTLINTEL_TELLS_TORN, memory, sizeof memory);
}

CALL(power_off)(void)
{
    mintlintel_durable_close(&device);
    return 0;
}

CALL(write)(uint32_t sector, uint32_t serial)
{
    count_of_steps = 0;
    fill(sector, serial);
    return mintlintel_durable_write(&device, sector, bytes, PAGE_BYTES);
}

CALL(trim)(uint32_t first, uint32_t count)
{
    count_of_steps = 0;
    return mintlintel_durable_trim(&device, first, count);
}

/* The serial of a sector's page, 0 of an empty one; a page that isn't what was written, or a code above 1, is told as 0xffffff00 and the code. */
CALL(read_sector)(uint32_t sector)
{
    uint8_t got[PAGE_BYTES];
    uint32_t serial = 0, code = mintlintel_durable_read(&device, sector, got, PAGE_BYTES);
    if (code == MINTLINTEL_EMPTY)
        return 0;
    memcpy(&serial, got, 4);
    fill(sector, serial);
    return code == MINTLINTEL_WRITTEN && memcmp(got, bytes, PAGE_BYTES) == 0 ? serial : 0xffffff00u | code;
}

/* The power goes inside the `count`th of the commands of this kind that come next (0: of any), and `how` it ends. */
CALL(cut)(uint32_t count, uint32_t kind, uint32_t how)
{
    to_cut = count;
    kind_to_cut = kind;
    how_to_cut = how;
    return 0;
}

/* Each program, copy and erase of this block fails from now on. */
CALL(fail)(uint32_t block)
{
    fails[block] = 1;
    return 0;
}

CALL(gone)(void) { return is_gone; }
CALL(wrong_commands)(void) { return wrong; }
CALL(page_reads)(void) { return reads; }

CALL(step_count)(void)
{
    tell_moved();
    return count_of_steps;
}

CALL(step_list)(void) { return (uint32_t)(uintptr_t)steps; }
CALL(is_block_bad)(uint32_t block) { return is_bad_block[block]; }

CALL(erases_of)(uint32_t block)
{
    struct mintlintel_block report = {0, 0, 0};
    return mintlintel_durable_block(&device, block, &report) == MINTLINTEL_DONE ? (uint32_t)report.erases : 0;
}

/* Of each page whether it is erased, held or torn. */
CALL(look)(void)
{
    for (uint32_t at = 0; at < BLOCKS * PAGES; at++)
        picture[at] = chip[at / PAGES][at % PAGES].kind;
    return (uint32_t)(uintptr_t)picture;
}

/* Of each sector the page that has its newest version, or 0xffffffff. */
CALL(look_up)(void)
{
    for (uint32_t sector = 0; sector < sectors; sector++) {
        struct mintlintel_place at;
        places[sector] = mtl_durable_find(&device, sector, &at) == MINTLINTEL_WRITTEN ? at.block * PAGES + at.page : UINT32_MAX;
    }
    return (uint32_t)(uintptr_t)places;
}
