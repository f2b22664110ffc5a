/* Which pages of a chip may be torn, so that a mount reads them whole. This file is plain C, and not proved. */
#include "durable.h"

/* The stamp of a torn page may be whole, or fit its 16 bits by accident. A cut or a failure inside a program tears the last page of its block, since no
 * block is gone on with after a mount. One inside an erase tears any page of a block in which nothing is needed: each version in it has a newer one
 * elsewhere, or the same one stands elsewhere too, until a newer one is there. And only the newest version of a sector counts. So a stamp is believed but
 * where the page is read whole: the last one of its block, each one of a block with a gap, one that the device can't have, and where two pages have
 * the newest version. */

/* Reads a page by the mount's number of its block. A good block that a page names, if it is whole, has failed and wasn't marked. */
static int read_page(struct mintlintel_flash *flash, uint32_t block, uint32_t page, void *main, struct stamp *stamp)
{
    int reading = mtl_read_page(flash, flash->chip_block[block], page, main, stamp);
    uint32_t named = reading == 0 && mtl_keeps_marks(flash) && mtl_names(stamp) ? mtl_named(stamp) : flash->numbers.blocks;
    if (named >= flash->numbers.blocks || flash->state[named] >= FAILED)
        return reading;
    struct stamp whole = *stamp;
    int fits = main ? 0 : mtl_read_page(flash, flash->chip_block[block], page, flash->page, &whole);
    if (fits == 0) {
        flash->state[named] = stamp->erases < STAMP_BROKEN ? FAILED : BROKEN;
        flash->failed++;
    }
    return fits == 3 ? 3 : reading;
}

static uint64_t number_of(const struct noted *noted)
{
    return (uint64_t)noted->number_high << 32 | noted->number_low;
}

static int is_of(const struct mintlintel_flash *flash, const struct stamp *stamp)
{
    return mtl_stamp_is_of(stamp, flash->numbers.sectors, flash->numbers.blocks);
}

/* A page's stamp as it was noted: 0 with it, or 1, 2 or 3. One that is of several sectors is read again. */
static int noted_stamp(struct mintlintel_flash *flash, uint32_t block, const struct noted *noted, struct stamp *stamp)
{
    uint32_t page = (uint32_t)((size_t)(noted - flash->stamps.pages) % flash->numbers.pages);
    *stamp = (struct stamp){STAMP_VALUE, number_of(noted), noted->sector, 1, flash->erases[flash->chip_block[block]]};
    if (noted->reading != 0 || !noted->is_of_several)
        return noted->reading;
    int reading = read_page(flash, block, page, NULL, stamp);
    int is_same = reading == 0 && stamp->number == number_of(noted) && stamp->sector == noted->sector && is_of(flash, stamp);
    return is_same || reading != 0 ? reading : 2;
}

/* Notes the newest numbers in a block: 0 or 28. */
static uint32_t note_newest(struct mintlintel_flash *flash, uint32_t block, const struct noted *pages)
{
    struct stamp stamp;
    for (const struct noted *page = pages; page < pages + flash->numbers.pages; page++) {
        int reading = noted_stamp(flash, block, page, &stamp);
        if (reading == 3)
            return MINTLINTEL_POWER_GONE;
        uint64_t number = stamp.number << 1, *first = flash->stamps.newest + stamp.sector;
        for (uint64_t *newest = first; reading == 0 && newest < first + stamp.count; newest++)
            *newest = number > *newest ? number : number == (*newest & ~(uint64_t)1) ? number | 1 : *newest;
    }
    return MINTLINTEL_DONE;
}

/* By how many erases the newest version of a block that tells them says that it was erased: an open knows it from there. */
static uint32_t note_erases(struct mintlintel_flash *flash, uint32_t block, const struct noted *pages)
{
    const struct noted *newest = NULL;
    struct stamp stamp;
    for (const struct noted *page = pages; page < pages + flash->numbers.pages; page++)
        if (page->reading == 0 && !page->names && (!newest || number_of(page) >= number_of(newest)))
            newest = page;
    if (!newest)
        return MINTLINTEL_DONE;
    int reading = read_page(flash, block, (uint32_t)(newest - pages), NULL, &stamp);
    flash->erases[flash->chip_block[block]] = reading == 0 ? stamp.erases : 0;
    return reading == 3 ? MINTLINTEL_POWER_GONE : MINTLINTEL_DONE;
}

/* Reads a page's stamp, and the page whole if the device can't have such a version: then it is torn, or it is of another device. */
static uint32_t note_stamp(struct mintlintel_flash *flash, uint32_t block, struct noted *noted, struct opening *opening)
{
    struct stamp stamp = {0, 0, 0, 0, 0};
    uint32_t page = (uint32_t)((size_t)(noted - flash->stamps.pages) % flash->numbers.pages);
    int reading = read_page(flash, block, page, NULL, &stamp), is_foreign = reading == 0 && !is_of(flash, &stamp);
    if (is_foreign)
        reading = read_page(flash, block, page, flash->page, &stamp);
    if (opening && reading == 0)
        opening->has_trace |= stamp.number > 0;
    *noted = (struct noted){(uint32_t)stamp.number, stamp.sector, (uint32_t)(stamp.number >> 32) & 0xffffff, (unsigned)reading & 3, stamp.count > 1,
                            mtl_names(&stamp)};
    return reading == 3 ? MINTLINTEL_POWER_GONE : is_foreign && reading == 0 ? MINTLINTEL_OTHER_DEVICE : MINTLINTEL_DONE;
}

/* Reads the stamps of a block; and whole its last version, or each one if there is a gap. */
static uint32_t stamps_of_block(struct mintlintel_flash *flash, uint32_t block, struct opening *opening)
{
    struct noted *pages = flash->stamps.pages + (size_t)block * flash->numbers.pages, *end = pages + flash->numbers.pages, *last = end, *gap = end;
    struct stamp stamp;
    for (struct noted *noted = pages; noted < end; noted++) {
        uint32_t code = note_stamp(flash, block, noted, opening);
        if (code != MINTLINTEL_DONE)
            return code;
        last = noted->reading == 0 ? noted : last;
        gap = noted->reading != 0 && noted < gap ? noted : gap;
    }
    for (struct noted *noted = gap < last ? pages : last; noted < end; noted++) {
        int reading = noted->reading == 0 ? read_page(flash, block, (uint32_t)(noted - pages), flash->page, &stamp) : noted->reading;
        if (reading == 3)
            return MINTLINTEL_POWER_GONE;
        noted->reading = (unsigned)reading & 3;
        if (opening)
            opening->has_fit |= reading == 0;
    }
    uint32_t code = opening ? note_erases(flash, block, pages) : MINTLINTEL_DONE;
    return code == MINTLINTEL_DONE ? note_newest(flash, block, pages) : code;
}

void mtl_stamps_free(struct mintlintel_flash *flash)
{
    mtl_free_to(flash->given, flash->stamps.newest);
    mtl_free_to(flash->given, flash->stamps.pages);
    flash->stamps = (struct stamps){NULL, NULL};
}

uint32_t mtl_stamps_read(struct mintlintel_flash *flash, struct opening *opening)
{
    const struct mintlintel_durable_numbers *n = &flash->numbers;
    if (flash->reason || flash->tells_torn)
        return MINTLINTEL_DONE;
    flash->stamps.pages = mtl_take(flash->given, (uint64_t)n->blocks * n->pages * sizeof(struct noted));
    flash->stamps.newest = mtl_take(flash->given, (uint64_t)n->sectors * sizeof(uint64_t));
    if (!flash->stamps.pages || !flash->stamps.newest)
        return MINTLINTEL_NO_MEMORY;
    uint32_t code = MINTLINTEL_DONE;
    for (uint32_t block = 0; code == MINTLINTEL_DONE && block < n->blocks; block++)
        code = mtl_is_read(flash, block) ? stamps_of_block(flash, block, opening) : MINTLINTEL_DONE;
    return code;
}

/* Whether another page too has the version of this one, and it is the newest of a sector. */
static int is_doubled(const struct stamps *stamps, const struct stamp *stamp)
{
    for (uint32_t i = 0; i < stamp->count; i++)
        if (stamps->newest[stamp->sector + i] == (stamp->number << 1 | 1))
            return 1;
    return 0;
}

int mtl_stamps_reading(struct mintlintel_flash *flash, uint32_t block, uint32_t page, struct stamp *stamp)
{
    if (!flash->stamps.pages)
        return read_page(flash, block, page, NULL, stamp);
    int reading = noted_stamp(flash, block, &flash->stamps.pages[(size_t)block * flash->numbers.pages + page], stamp);
    return reading == 0 && is_doubled(&flash->stamps, stamp) ? read_page(flash, block, page, flash->page, stamp) : reading;
}
