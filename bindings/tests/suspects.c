/* A block that has failed gets no command any more, also after power cuts and opens. On a chip whose mark destroys what the block holds, programs, copies
 * and erases fail by chance, and the power is cut by chance: inside a command, before a read, or between two. Once a new version was programmed after a
 * failure, no command may reach its block; where several blocks have failed and aren't marked, once as many were programmed after the last failure and the
 * last open. Once a copy was, none may up to the next open but one. What a cut before that leaves is a block that nobody knows to have failed. */
#include "mintlintel_durable.h"
#include "testing.h"
#include <stdlib.h>

enum { BLOCKS = 24, MOST_PAGES = 8, BYTES = 16, MOST_SECTORS = BLOCKS * MOST_PAGES, STAMP = MINTLINTEL_STAMP_BYTES, MEMORY = 1 << 20 };
enum contents { ERASED, TORN, WHOLE };

struct page { enum contents contents; uint8_t main[BYTES], stamp[STAMP]; };

/* A block: marked; failed, since the open too, or ever; whether each open has to know that; and how many new versions were
 * programmed since the last failure. */
struct block { struct page pages[MOST_PAGES]; uint8_t bad, failed, is_barred, was_failing, is_recorded, is_named; uint32_t since, erases; };

static struct block blocks[BLOCKS];
static struct { uint32_t pages, sectors, one_fail_in, one_cut_in, unmarked; uint64_t next_number; int tells_torn, has_marks, is_off; } chip;
static struct { uint8_t value, maybe, is_open; } held[MOST_SECTORS];
static struct { long failures, cuts, found, several, forgotten, opens; } counts;
static uint64_t state = 0x2545f4914f6cdd1du;
static uint8_t *memory;

static int strikes(uint32_t one_in) { return one_in > 0 && drawn(&state) % one_in == 0; }

/* Whether the power goes now, or is gone. */
static int goes_off(uint32_t one_in)
{
    int is_cut = !chip.is_off && strikes(one_in);
    counts.cuts += is_cut;
    chip.is_off |= is_cut;
    return is_cut;
}

static uint32_t unmarked(void)
{
    uint32_t count = 0;
    for (int block = 0; block < BLOCKS; block++)
        count += blocks[block].failed && !blocks[block].bad;
    return count;
}

/* A page was programmed, and is whole. A copy has no greater number than those before. The next open has to know of a failure before it. */
static void record(const uint8_t *stamp)
{
    uint64_t number = 0;
    for (struct block *b = blocks; b < blocks + BLOCKS; b++)
        b->is_named |= chip.has_marks && b->failed && !b->bad && chip.unmarked == 1;
    for (int byte = 7; byte > 0; byte--)
        number = number << 8 | stamp[byte];
    if (number < chip.next_number)
        return;
    chip.next_number = number + 1;
    for (struct block *b = blocks; b < blocks + BLOCKS; b++)
        b->is_recorded |= chip.has_marks && b->failed && !b->bad && ++b->since >= chip.unmarked;
}

/* Whether a command fails. None does before the first page is whole: what is torn then would look like pages of another size. */
static int fails(struct block *block)
{
    int is_failing = chip.next_number > 0 && strikes(chip.one_fail_in);
    for (struct block *b = blocks; is_failing && b < blocks + BLOCKS; b++)
        b->since = b->is_recorded = b->is_named = 0;
    block->failed |= is_failing;
    block->is_barred |= is_failing;
    block->was_failing |= is_failing;
    counts.failures += is_failing;
    chip.unmarked = is_failing ? unmarked() : chip.unmarked;
    counts.several += is_failing && chip.unmarked > 1;
    return is_failing;
}

/* A block that a command may reach. */
static struct block *allowed(uint32_t block)
{
    struct block *b = &blocks[block];
    CHECK(block < BLOCKS && !b->bad);
    CHECK(!b->is_barred); /* it has failed since the open */
    CHECK(!(b->failed && b->is_recorded)); /* it has failed before the open */
    return b;
}

static int flash_read(void *own, uint32_t block, uint32_t page, void *main, void *stamp)
{
    const struct page *p = &blocks[block].pages[page];
    (void)own;
    CHECK(block < BLOCKS && page < chip.pages && !blocks[block].bad);
    if (chip.is_off || goes_off(40 * chip.one_cut_in))
        return 3;
    if (p->contents == ERASED || (p->contents == TORN && (chip.tells_torn || p->main[0] % 2)))
        return p->contents == ERASED ? 1 : 2;
    if (main)
        memcpy(main, p->main, BYTES);
    memcpy(stamp, p->stamp, STAMP);
    return 0;
}

static void tear(struct page *p)
{
    p->contents = TORN;
    p->main[1 + drawn(&state) % (BYTES - 1)] ^= (uint8_t)(1 + drawn(&state) % 255);
}

static int set_page(uint32_t block, uint32_t page, const void *main, const void *stamp)
{
    if (chip.is_off)
        return 3;
    struct block *b = allowed(block);
    struct page *p = &b->pages[page];
    for (uint32_t later = page; later < chip.pages; later++)
        CHECK(b->pages[later].contents == ERASED);
    int is_cut = goes_off(chip.one_cut_in), is_failing = !is_cut && fails(b);
    int left = is_cut || is_failing ? (int)(drawn(&state) % 3) : 2;
    memcpy(p->main, main, BYTES);
    memcpy(p->stamp, stamp, STAMP);
    p->contents = left > 0 ? WHOLE : ERASED;
    if (left == 1)
        tear(p);
    if (left == 2 && !is_failing)
        record(p->stamp);
    return is_cut ? 3 : is_failing;
}

static int flash_program(void *own, uint32_t block, uint32_t page, const void *main, const void *stamp)
{
    (void)own;
    CHECK(mintlintel_stamp_fits(stamp, main, BYTES));
    return set_page(block, page, main, stamp);
}

static int flash_copyback(void *own, uint32_t from_block, uint32_t from_page, uint32_t block, uint32_t page, const void *stamp)
{
    (void)own;
    const struct page from = blocks[from_block].pages[from_page];
    CHECK(chip.is_off || (from.contents == WHOLE && mintlintel_stamp_fits(stamp, from.main, BYTES)));
    return set_page(block, page, from.main, stamp);
}

static int flash_erase(void *own, uint32_t block)
{
    (void)own;
    if (chip.is_off)
        return 3;
    struct block *b = allowed(block);
    int is_cut = goes_off(chip.one_cut_in), is_failing = !is_cut && fails(b);
    for (struct page *p = b->pages; p < b->pages + chip.pages; p++) {
        uint32_t left = is_cut || is_failing ? drawn(&state) % 3 : 0;
        if (left == 0)
            p->contents = ERASED;
        else if (left == 1 && p->contents == WHOLE)
            tear(p);
    }
    b->erases++;
    return is_cut ? 3 : is_failing;
}

static int flash_is_bad(void *own, uint32_t block) { return (void)own, blocks[block].bad; }

/* The mark destroys what the block holds, and a cut inside it may lose the mark. */
static int flash_mark_bad(void *own, uint32_t block)
{
    (void)own;
    if (chip.is_off)
        return 3;
    struct block *b = &blocks[block];
    CHECK(b->was_failing && !b->bad);
    int is_cut = goes_off(chip.one_cut_in);
    b->bad = !is_cut || drawn(&state) % 2;
    for (struct page *p = b->pages; p < b->pages + chip.pages; p++)
        if (p->contents == WHOLE)
            tear(p);
    return is_cut ? 3 : 0;
}

static struct mintlintel_nand nand = {NULL, flash_read, flash_program, flash_copyback, flash_erase, flash_is_bad, flash_mark_bad, NULL};

/* Opens the chip, once the power is back. A failure that too few new versions have followed is forgotten. Only marked blocks refuse an open. */
static uint32_t open_chip(struct mintlintel_durable *device)
{
    struct mintlintel_durable_numbers numbers = {1, BLOCKS, chip.pages, BYTES, chip.sectors};
    uint32_t code, good = BLOCKS, found = 0;
    for (struct block *b = blocks; b < blocks + BLOCKS; b++) {
        int is_forgotten = b->failed && !b->bad && !b->is_recorded && !b->is_named;
        good -= b->bad;
        found += b->failed && !b->bad && !is_forgotten;
        counts.forgotten += is_forgotten;
        b->failed &= !is_forgotten;
        b->is_barred = b->is_named;
        b->since = b->is_named = 0;
    }
    counts.found += found > 0;
    counts.opens++;
    do {
        chip.is_off = 0;
        code = mintlintel_durable_open_in(device, &nand, &numbers, chip.tells_torn ? MINTLINTEL_TELLS_TORN : 0, memory, MEMORY);
    } while (code == MINTLINTEL_POWER_GONE);
    CHECK(code != MINTLINTEL_NO_ROOM || found == 0 || chip.sectors >= (good - 1) * chip.pages);
    return code;
}

/* Each sector has what was acknowledged, or what a call that was cut gave it. */
static void check_sectors(struct mintlintel_durable *device)
{
    uint8_t page[BYTES];
    uint32_t one_cut_in = chip.one_cut_in;
    chip.one_cut_in = 0;
    for (uint32_t sector = 0; sector < chip.sectors; sector++) {
        uint32_t code = mintlintel_durable_read(device, sector, page, BYTES);
        CHECK(code <= MINTLINTEL_WRITTEN);
        uint8_t value = code == MINTLINTEL_WRITTEN ? page[0] : 0;
        CHECK(code == MINTLINTEL_EMPTY || memcmp(page, page + 1, BYTES - 1) == 0);
        CHECK(value == held[sector].value || (held[sector].is_open && value == held[sector].maybe));
        held[sector].value = value;
        held[sector].is_open = 0;
    }
    chip.one_cut_in = one_cut_in;
}

/* No block is told as erased more often than all were, nor as retired unless it has failed; and none where no mark is kept. */
static void check_blocks(struct mintlintel_durable *device)
{
    struct mintlintel_block report;
    uint32_t erases = 0;
    for (int block = 0; block < BLOCKS; block++)
        erases += blocks[block].erases;
    for (uint32_t block = 0; block < BLOCKS; block++) {
        CHECK(mintlintel_durable_block(device, block, &report) == MINTLINTEL_DONE && report.erases <= erases);
        CHECK(report.retired >= (blocks[block].bad || blocks[block].failed) && report.retired <= (chip.has_marks && blocks[block].was_failing));
        blocks[block].failed |= (uint8_t)report.retired;
    }
}

/* Writes or trims some sectors: the code. */
static uint32_t change(struct mintlintel_durable *device)
{
    uint32_t count = drawn(&state) % 8 ? 1 : 1 + (uint32_t)(drawn(&state) % 6), sector = (uint32_t)(drawn(&state) % chip.sectors);
    uint8_t page[BYTES], value = count > 1 ? 0 : (uint8_t)(1 + drawn(&state) % 255);
    sector = drawn(&state) % 3 ? sector % (chip.sectors / 4 + 1) : sector;
    count = count < chip.sectors - sector ? count : chip.sectors - sector;
    memset(page, value, BYTES);
    uint32_t code = value ? mintlintel_durable_write(device, sector, page, BYTES) : mintlintel_durable_trim(device, sector, count);
    for (uint32_t i = sector; i < sector + count; i++) {
        held[i].value = code <= MINTLINTEL_WRITTEN ? value : held[i].value;
        held[i].maybe = value;
        held[i].is_open = code > MINTLINTEL_WRITTEN;
    }
    return code;
}

/* The life of a chip: up to so many calls, or until too few blocks are good. */
static void live(int calls)
{
    static const uint32_t failing[] = {8, 24, 100}, cutting[] = {4, 10, 30};
    struct mintlintel_durable device = {0};
    memset(blocks, 0, sizeof blocks);
    memset(held, 0, sizeof held);
    chip.next_number = 0;
    chip.pages = 1u << drawn(&state) % 4;
    uint32_t room = (uint32_t)(drawn(&state) % 7);
    chip.sectors = (BLOCKS - 2 - room) * chip.pages + (uint32_t)(drawn(&state) % chip.pages);
    chip.tells_torn = (int)(drawn(&state) % 2);
    chip.one_fail_in = failing[drawn(&state) % 3];
    chip.one_cut_in = cutting[drawn(&state) % 3];
    nand.copyback = drawn(&state) % 2 ? flash_copyback : NULL;
    chip.has_marks = drawn(&state) % 8 > 0;
    nand.mark_bad = chip.has_marks ? flash_mark_bad : NULL;
    uint32_t code = open_chip(&device);
    for (int i = 0; i < calls && code <= MINTLINTEL_WRITTEN; i++) {
        code = change(&device);
        if (code != MINTLINTEL_POWER_GONE && drawn(&state) % 50 > 0)
            continue;
        mintlintel_durable_close(&device);
        code = open_chip(&device);
        if (code == MINTLINTEL_DONE) {
            check_sectors(&device);
            check_blocks(&device);
        }
    }
    CHECK(code <= MINTLINTEL_WRITTEN || code == MINTLINTEL_EXHAUSTED || code == MINTLINTEL_NO_ROOM);
    mintlintel_durable_close(&device);
    code = open_chip(&device);
    CHECK(code == MINTLINTEL_DONE || code == MINTLINTEL_NO_ROOM);
    if (code == MINTLINTEL_DONE)
        check_sectors(&device);
    mintlintel_durable_close(&device);
}

int main(int count, char **arguments)
{
    int lives = count > 1 && atoi(arguments[1]) > 0 ? atoi(arguments[1]) : 1500;
    memory = malloc(MEMORY);
    CHECK(memory != NULL);
    while (lives-- > 0)
        live(3000);
    free(memory);
    CHECK(counts.found > 0 && counts.several > 0 && counts.forgotten > 0);
    printf("suspects: %ld blocks have failed, %ld of them beside others, with %ld cuts; of %ld opens %ld had to find one that wasn't marked\n",
           counts.failures, counts.several, counts.cuts, counts.opens, counts.found);
    return 0;
}
