/* A chip in an array whose power is cut at random: inside a command, which then leaves nothing, a torn page or all of it, or between two. It has bad
 * blocks and fails, and checks that it is used by the rules of NAND flash. */
#ifndef CUT_CHIP_H
#define CUT_CHIP_H

#include "mintlintel_durable.h"
#include "testing.h"

enum { CHIP_BLOCKS = 8, CHIP_PAGES = 4, CHIP_PAGE_BYTES = 40 };
enum contents { ERASED, TORN, VERSION };

struct chip_page { enum contents contents; int has_stamp; uint8_t main[CHIP_PAGE_BYTES], stamp[MINTLINTEL_STAMP_BYTES]; };

struct cut_chip {
    struct chip_page pages[CHIP_BLOCKS][CHIP_PAGES];
    uint8_t bad[CHIP_BLOCKS], failed[CHIP_BLOCKS]; /* marked; failed since the open */
    uint64_t state;
    uint32_t one_cut_in, one_fail_in; /* 0: none */
    int has_rotted; /* the check of a page that is programmed may not fit */
    int hides_torn; /* a torn page may have its whole stamp, and the chip doesn't tell */
    long fail_at; /* the command that fails, counted from 1; 0: none */
    int is_off;
    long commands, cuts, fails, syncs;
    uint64_t programs; /* and copies, that were done */
    uint32_t erases[CHIP_BLOCKS];
};

static inline int strikes(struct cut_chip *chip, uint32_t one_in)
{
    return one_in > 0 && drawn(&chip->state) % one_in == 0;
}

/* Whether the power goes before a read, or inside a command. */
static inline int goes_off(struct cut_chip *chip, uint32_t one_in)
{
    if (!chip->is_off && strikes(chip, one_in)) {
        chip->is_off = 1;
        chip->cuts++;
        return 1;
    }
    return 0;
}

static inline int chip_read(void *at, uint32_t block, uint32_t page, void *main, void *stamp)
{
    struct cut_chip *chip = at;
    CHECK(block < CHIP_BLOCKS && page < CHIP_PAGES);
    if (chip->is_off || goes_off(chip, 50 * chip->one_cut_in))
        return 3;
    CHECK(!chip->bad[block]);
    const struct chip_page *p = &chip->pages[block][page];
    if (p->contents == ERASED || (p->contents == TORN && !p->has_stamp))
        return p->contents == ERASED ? 1 : 2;
    if (main)
        memcpy(main, p->main, CHIP_PAGE_BYTES);
    memcpy(stamp, p->stamp, MINTLINTEL_STAMP_BYTES);
    return 0;
}

/* Whether the command that was just counted fails. */
static inline int fails(struct cut_chip *chip, uint32_t block)
{
    int is_failing = chip->commands == chip->fail_at || strikes(chip, chip->one_fail_in);
    chip->fails += is_failing;
    chip->failed[block] |= is_failing;
    return is_failing;
}

/* Tears a page that has its bytes. Where the chip hides that, its stamp may be whole. */
static inline void tear(struct cut_chip *chip, struct chip_page *p)
{
    p->has_stamp = chip->hides_torn && (p->contents == VERSION || (p->contents == TORN && p->has_stamp)) && drawn(&chip->state) % 4 > 0;
    if (p->contents != TORN) /* what tears it again doesn't mend it */
        p->main[drawn(&chip->state) % CHIP_PAGE_BYTES] ^= (uint8_t)(1 + drawn(&chip->state) % 255);
    p->contents = TORN;
}

/* Sets a page to new contents, or leaves it as it was or torn if the power goes or the command fails. */
static inline int set_page(struct cut_chip *chip, uint32_t block, uint32_t page, const void *main, const void *stamp)
{
    CHECK(block < CHIP_BLOCKS && page < CHIP_PAGES);
    if (chip->is_off)
        return 3;
    struct chip_page *p = &chip->pages[block][page];
    CHECK(p->contents == ERASED && !chip->bad[block] && !chip->failed[block]);
    for (uint32_t later = page; later < CHIP_PAGES; later++)
        CHECK(chip->pages[block][later].contents == ERASED);
    chip->commands++;
    int is_cut = goes_off(chip, chip->one_cut_in), is_failing = !is_cut && fails(chip, block);
    int left = is_cut || is_failing ? (int)(drawn(&chip->state) % 3) : 2;
    if (left > 0) {
        p->contents = VERSION;
        p->has_stamp = 0;
        memcpy(p->main, main, CHIP_PAGE_BYTES);
        memcpy(p->stamp, stamp, MINTLINTEL_STAMP_BYTES);
    }
    if (left == 1)
        tear(chip, p);
    chip->programs += !is_cut && !is_failing;
    return is_cut ? 3 : is_failing;
}

static inline int chip_program(void *at, uint32_t block, uint32_t page, const void *main, const void *stamp)
{
    CHECK(mintlintel_stamp_fits(stamp, main, CHIP_PAGE_BYTES) || ((struct cut_chip *)at)->has_rotted);
    return set_page(at, block, page, main, stamp);
}

static inline int chip_copyback(void *at, uint32_t from_block, uint32_t from_page, uint32_t block, uint32_t page, const void *stamp)
{
    struct cut_chip *chip = at;
    CHECK(from_block < CHIP_BLOCKS && from_page < CHIP_PAGES);
    const struct chip_page from = chip->pages[from_block][from_page];
    CHECK(from.contents == VERSION || chip->is_off);
    CHECK(memcmp(stamp, from.stamp, MINTLINTEL_STAMP_BYTES) == 0);
    return set_page(chip, block, page, from.main, stamp);
}

/* A cut inside an erase loses any part of the block's pages. */
static inline int chip_erase(void *at, uint32_t block)
{
    struct cut_chip *chip = at;
    CHECK(block < CHIP_BLOCKS);
    if (chip->is_off)
        return 3;
    CHECK(!chip->bad[block] && !chip->failed[block]);
    chip->commands++;
    int is_cut = goes_off(chip, chip->one_cut_in), is_failing = !is_cut && fails(chip, block);
    for (uint32_t page = 0; page < CHIP_PAGES; page++) {
        struct chip_page *p = &chip->pages[block][page];
        uint32_t left = is_cut || is_failing ? drawn(&chip->state) % 3 : 0;
        if (left == 0)
            p->contents = ERASED;
        if (left == 1)
            tear(chip, p);
    }
    chip->erases[block] += !is_cut && !is_failing;
    return is_cut ? 3 : is_failing;
}

static inline int chip_is_bad(void *at, uint32_t block)
{
    return ((struct cut_chip *)at)->bad[block];
}

/* A mark may cost what the block holds, as on a chip that is erased before. */
static inline int chip_mark_bad(void *at, uint32_t block)
{
    struct cut_chip *chip = at;
    if (chip->is_off)
        return 3;
    int is_cut = goes_off(chip, chip->one_cut_in);
    chip->bad[block] |= !is_cut || drawn(&chip->state) % 2;
    for (uint32_t page = 0; page < CHIP_PAGES; page++)
        if (drawn(&chip->state) % 2)
            tear(chip, &chip->pages[block][page]);
    return is_cut ? 3 : 0;
}

static inline int chip_sync(void *at)
{
    struct cut_chip *chip = at;
    chip->syncs++;
    return chip->is_off ? 3 : 0;
}

#endif
