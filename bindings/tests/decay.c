/* Pages that become unreadable while a device is closed, against an array that knows what was acknowledged: an older version is never read without a
 * loss told, where the chip still shows that a page is missing; and no loss is told where none is missing. */
#include "cut_chip.h"

enum { SECTORS = 13, EMPTY = 0 };

static struct cut_chip chip;
static struct mintlintel_nand nand = {&chip, chip_read, chip_program, chip_copyback, chip_erase, NULL, NULL, NULL};
static struct mintlintel_durable device;
static uint32_t values[SECTORS], last_value;
static uint64_t state = 0x9e3779b97f4a7c15u;
static long told, silent, refused, untold_last, untold_unkept;

/* What the chip's pages are by themselves: the newest number of each sector, and the gaps of each block. */
struct seen { uint64_t newest[SECTORS]; int gaps[CHIP_BLOCKS], last[CHIP_BLOCKS]; };

static uint32_t sector_of(const struct chip_page *page)
{
    return page->stamp[8] | (uint32_t)page->stamp[9] << 8;
}

/* A version's number and one more. */
static uint64_t after_of(const struct chip_page *page)
{
    uint64_t number = 0;
    for (int i = 7; i > 0; i--)
        number = number << 8 | page->stamp[i];
    return number + 1;
}

static struct seen look(void)
{
    struct seen seen = {{0}, {0}, {0}};
    for (int b = 0; b < CHIP_BLOCKS; b++)
        for (int p = 0, missing = 0; p < CHIP_PAGES; p++) {
            const struct chip_page *page = &chip.pages[b][p];
            missing += page->contents != VERSION;
            if (page->contents != VERSION)
                continue;
            seen.gaps[b] = missing;
            seen.last[b] = p;
            if (after_of(page) > seen.newest[sector_of(page)])
                seen.newest[sector_of(page)] = after_of(page);
        }
    return seen;
}

/* Whether a sector's newest version is in a block without a gap, and in one with a gap: by these two bits. */
static int places(const struct seen *seen, uint32_t sector)
{
    int found = 0;
    for (int b = 0; b < CHIP_BLOCKS; b++)
        for (int p = 0; p < CHIP_PAGES; p++) {
            const struct chip_page *page = &chip.pages[b][p];
            if (page->contents == VERSION && sector_of(page) == sector && after_of(page) == seen->newest[sector])
                found |= seen->gaps[b] > 0 ? 2 : 1;
        }
    return found;
}

static int has_loss(const struct seen *seen)
{
    for (uint32_t sector = 0; sector < SECTORS; sector++)
        if (places(seen, sector) == 2)
            return 1;
    return 0;
}

static uint32_t open_device(void)
{
    chip.is_off = 0;
    memset(chip.failed, 0, sizeof chip.failed);
    mintlintel_durable_close(&device);
    return mintlintel_durable_open(&device, &nand, 1, CHIP_BLOCKS, CHIP_PAGES, CHIP_PAGE_BYTES, SECTORS);
}

static uint32_t open_anyhow(uint64_t *losses)
{
    mintlintel_durable_close(&device);
    return mintlintel_durable_open_despite_losses(&device, &nand, 1, CHIP_BLOCKS, CHIP_PAGES, CHIP_PAGE_BYTES, SECTORS, losses);
}

static void write_value(uint32_t sector)
{
    uint8_t page[CHIP_PAGE_BYTES] = {0};
    last_value++;
    memcpy(page, &last_value, sizeof last_value);
    uint32_t code = mintlintel_durable_write(&device, sector, page, sizeof page);
    CHECK(code <= MINTLINTEL_WRITTEN || (code == MINTLINTEL_POWER_GONE && chip.is_off));
    if (code <= MINTLINTEL_WRITTEN)
        values[sector] = last_value;
}

/* A sector's value now: 0 for an empty one. */
static uint32_t value_of(uint32_t sector)
{
    uint8_t page[CHIP_PAGE_BYTES];
    uint32_t value = EMPTY, code = mintlintel_durable_read(&device, sector, page, sizeof page);
    CHECK(code <= MINTLINTEL_WRITTEN);
    if (code == MINTLINTEL_WRITTEN)
        memcpy(&value, page, sizeof value);
    return value;
}

/* Takes what the sectors have now for what they have to have. */
static void accept(void)
{
    for (uint32_t sector = 0; sector < SECTORS; sector++)
        values[sector] = value_of(sector);
}

/* Some calls on the device, with cuts: what a cut call has left counts as its sector's value. */
static void use(int count, uint32_t one_cut_in)
{
    for (int i = 0; i < count; i++) {
        chip.one_cut_in = one_cut_in;
        write_value(drawn(&state) % SECTORS);
        chip.one_cut_in = 0;
        if (!chip.is_off)
            continue;
        CHECK(open_device() == MINTLINTEL_DONE); /* no loss is told after a cut */
        accept();
    }
}

/* One page becomes unreadable, or reads as erased, and all is as before afterwards. */
static void decay_one(int b, int p, enum contents contents)
{
    struct chip_page *page = &chip.pages[b][p], kept = *page;
    uint64_t losses = 77;
    page->contents = contents;
    struct seen seen = look();
    uint32_t code = open_device();
    if (code == MINTLINTEL_NO_BLOCK) { /* older versions take the free block */
        refused++;
        *page = kept;
        return;
    }
    CHECK(code == (has_loss(&seen) ? MINTLINTEL_PAGES_LOST : MINTLINTEL_DONE));
    told += code != MINTLINTEL_DONE;
    silent += code == MINTLINTEL_DONE;
    CHECK(open_anyhow(&losses) == MINTLINTEL_DONE && (losses > 0) == (code != MINTLINTEL_DONE));
    CHECK(code == MINTLINTEL_DONE || (losses >= 1 && losses <= CHIP_PAGES * CHIP_BLOCKS));
    int older = 0;
    for (uint32_t sector = 0; sector < SECTORS; sector++)
        older |= value_of(sector) != values[sector];
    if (older && code == MINTLINTEL_DONE)
        *(p > seen.last[b] ? &untold_last : &untold_unkept) += 1;
    *page = kept;
}

/* Each page in turn, on a device that was used with cuts. */
static void decay_each(void)
{
    for (int round = 0; round < 60; round++) {
        memset(&chip, 0, sizeof chip);
        memset(values, 0, sizeof values);
        chip.state = state | 1;
        CHECK(open_device() == MINTLINTEL_DONE);
        use(40 + round * 5, round % 3 ? 0 : 10);
        struct cut_chip used = chip;
        for (int b = 0; b < CHIP_BLOCKS; b++)
            for (int p = 0; p < CHIP_PAGES; p++)
                if (used.pages[b][p].contents == VERSION)
                    for (int kind = 0; kind < 2; kind++) {
                        chip = used;
                        CHECK(open_device() == MINTLINTEL_DONE);
                        decay_one(b, p, kind ? ERASED : TORN);
                    }
    }
}

/* By hand: blocks that were written in order, on which a write programs no copy. Only the last page of a block goes without a word. */
static void decay_by_hand(void)
{
    for (uint32_t lost = 0; lost < 8; lost++) {
        memset(&chip, 0, sizeof chip);
        memset(values, 0, sizeof values);
        CHECK(open_device() == MINTLINTEL_DONE);
        for (uint32_t i = 0; i < 8; i++)
            write_value(i);
        int b = 0, p = -1;
        for (int block = 0; block < CHIP_BLOCKS; block++)
            for (int page = 0; page < CHIP_PAGES; page++)
                if (chip.pages[block][page].contents == VERSION && sector_of(&chip.pages[block][page]) == lost)
                    b = block, p = page;
        CHECK(p == (int)lost % CHIP_PAGES);
        chip.pages[b][p].contents = TORN;
        uint64_t losses = 77;
        CHECK(open_device() == (p < CHIP_PAGES - 1 ? MINTLINTEL_PAGES_LOST : MINTLINTEL_DONE));
        CHECK(mintlintel_durable_losses(&device, &losses) == (p < CHIP_PAGES - 1 ? MINTLINTEL_CLOSED : MINTLINTEL_DONE));
        CHECK(losses == (p < CHIP_PAGES - 1 ? 77 : 0));
        CHECK(open_anyhow(&losses) == MINTLINTEL_DONE && losses == (p < CHIP_PAGES - 1));
        losses = 77;
        CHECK(mintlintel_durable_losses(&device, &losses) == MINTLINTEL_DONE && losses == (p < CHIP_PAGES - 1));
        for (uint32_t i = 0; i < 8; i++)
            CHECK(value_of(i) == (i == lost ? EMPTY : values[i]));
    }
}

/* Pages decay again and again, and the device goes on each time, with cuts. */
static void decay_often(void)
{
    memset(&chip, 0, sizeof chip);
    memset(values, 0, sizeof values);
    chip.state = 77;
    CHECK(open_device() == MINTLINTEL_DONE);
    for (int round = 0; round < 3000; round++) {
        for (int i = 0; i < 12; i++) {
            write_value(drawn(&state) % SECTORS);
            if (chip.is_off)
                break;
        }
        chip.one_cut_in = 0;
        chip.is_off = 0;
        struct chip_page *page = &chip.pages[drawn(&state) % CHIP_BLOCKS][drawn(&state) % CHIP_PAGES];
        if (page->contents == VERSION && round % 4 == 0)
            page->contents = TORN;
        struct seen seen = look();
        uint64_t losses = 0;
        uint32_t code = open_device();
        if (code == MINTLINTEL_NO_BLOCK) {
            refused++;
            memset(chip.pages, 0, sizeof chip.pages);
            CHECK(open_device() == MINTLINTEL_DONE);
        } else {
            CHECK(code == (has_loss(&seen) ? MINTLINTEL_PAGES_LOST : MINTLINTEL_DONE));
            CHECK(open_anyhow(&losses) == MINTLINTEL_DONE && (losses > 0) == has_loss(&seen));
        }
        told += losses > 0;
        accept();
        chip.one_cut_in = 30;
    }
}

/* The next erase fails, with one page lost, and in the one after it the power goes, with all pages lost. */
static int erase_stage;

static int erase_badly(void *at, uint32_t block)
{
    if (erase_stage == 0 || chip.is_off)
        return chip_erase(at, block);
    int first = erase_stage++ == 1;
    for (int p = 0; p < (first ? 1 : CHIP_PAGES); p++)
        chip.pages[block][p].contents = TORN;
    chip.is_off = !first;
    return first ? 1 : 3;
}

/* An erase that fails on a chip that marks no block leaves pages before others, and no loss is told of them. */
static void fail_erases(void)
{
    long failed = 0;
    nand.erase = erase_badly;
    for (int round = 0; round < 3000; round++) {
        memset(&chip, 0, sizeof chip);
        memset(values, 0, sizeof values);
        chip.state = state | 1;
        CHECK(open_device() == MINTLINTEL_DONE);
        use(40, 0);
        chip.one_cut_in = 4;
        while (!chip.is_off)
            write_value(drawn(&state) % SECTORS);
        chip.one_cut_in = 0;
        CHECK(open_device() == MINTLINTEL_DONE);
        erase_stage = 1;
        for (int i = 0; i < 6 && !chip.is_off; i++) {
            uint8_t page[CHIP_PAGE_BYTES] = {0};
            uint32_t code = mintlintel_durable_write(&device, drawn(&state) % SECTORS, page, sizeof page);
            CHECK(code <= MINTLINTEL_WRITTEN || code == MINTLINTEL_POWER_GONE || code == MINTLINTEL_EXHAUSTED);
        }
        failed += erase_stage > 1;
        erase_stage = 0;
        CHECK(open_device() == MINTLINTEL_DONE); /* no loss is told after a failed erase */
    }
    nand.erase = chip_erase;
    CHECK(failed > 1000);
}

/* A page that decays while the device is open: its sector is not read, and the mount after a failure stops the device, unless it goes on despite losses. */
static void decay_while_open(void)
{
    long stopped = 0, went_on = 0;
    for (int round = 0; round < 400; round++) {
        memset(&chip, 0, sizeof chip);
        memset(values, 0, sizeof values);
        chip.state = state | 1;
        uint64_t losses = 0;
        CHECK((round % 2 ? open_anyhow(&losses) : open_device()) == MINTLINTEL_DONE);
        use(60, 0);
        uint32_t sector = drawn(&state) % SECTORS;
        uint8_t bytes[CHIP_PAGE_BYTES];
        struct seen before = look();
        for (int b = 0; b < CHIP_BLOCKS; b++)
            for (int p = 0; p < CHIP_PAGES; p++) {
                struct chip_page *page = &chip.pages[b][p];
                if (page->contents == VERSION && sector_of(page) == sector && after_of(page) == before.newest[sector])
                    page->contents = TORN;
            }
        uint32_t code = mintlintel_durable_read(&device, sector, bytes, sizeof bytes);
        CHECK(code == (values[sector] ? MINTLINTEL_UNREADABLE : MINTLINTEL_EMPTY));
        chip.fail_at = chip.commands + 1;
        memset(bytes, 1, sizeof bytes);
        code = mintlintel_durable_write(&device, sector == 0, bytes, sizeof bytes);
        struct seen seen = look();
        if (code == MINTLINTEL_PAGES_LOST) {
            CHECK(round % 2 == 0 && has_loss(&seen));
            CHECK(mintlintel_durable_read(&device, sector, bytes, sizeof bytes) == MINTLINTEL_PAGES_LOST);
            stopped++;
        } else if (code <= MINTLINTEL_WRITTEN && round % 2) {
            CHECK(mintlintel_durable_losses(&device, &losses) == MINTLINTEL_DONE);
            went_on += losses > 0;
        }
    }
    CHECK(stopped > 10 && went_on > 10);
}

/* A page's bytes change, which only its check tells, and it is copied, with a copyback and without one: before and after it can't be read. */
static void copy_rotted(void)
{
    uint8_t bytes[CHIP_PAGE_BYTES];
    for (int kind = 0; kind < 2; kind++) {
        memset(&chip, 0, sizeof chip);
        memset(values, 0, sizeof values);
        nand.copyback = kind ? NULL : chip_copyback;
        CHECK(open_device() == MINTLINTEL_DONE);
        for (uint32_t sector = 0; sector < SECTORS; sector++)
            write_value(sector);
        int b = 0;
        while (sector_of(&chip.pages[b][0]) != 0 || chip.pages[b][0].contents != VERSION)
            b++;
        uint32_t erases = chip.erases[b];
        chip.pages[b][0].main[CHIP_PAGE_BYTES - 1] ^= 1;
        chip.has_rotted = 1;
        CHECK(mintlintel_durable_read(&device, 0, bytes, sizeof bytes) == MINTLINTEL_UNREADABLE);
        for (int i = 0; i < 1000; i++)
            write_value(1 + drawn(&state) % (SECTORS - 1));
        CHECK(chip.erases[b] > erases);
        CHECK(mintlintel_durable_read(&device, 0, bytes, sizeof bytes) == MINTLINTEL_UNREADABLE);
    }
    nand.copyback = chip_copyback;
}

int main(void)
{
    copy_rotted();
    decay_by_hand();
    decay_each();
    decay_often();
    decay_while_open();
    fail_erases();
    mintlintel_durable_close(&device);
    CHECK(told > 100 && silent > 100);
    printf("decay: %ld losses were told, and %ld times none was; %ld times no block was left to free; %ld times an older version came back"
           " without a word for a page with nothing readable behind it, and %ld times for one in a block that keeps nothing alone\n",
           told, silent, refused, untold_last, untold_unkept);
    return 0;
}
