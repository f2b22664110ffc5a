/* The checkpoints of an image, and which of them an open takes: docs/FORMATS.md says how they stand in the file. This file is plain C, and not proved. */
#define _FILE_OFFSET_BITS 64
#include "crc.h"
#include "image_format.h"
#include "stamp.h"
#include <errno.h>
#include <string.h>

/* Where the fields of a checkpoint stand, and those of a block in its list. */
enum { AT_COUNT = 8, AT_CHECK = 12, AT_LIST = 16, AT_PAGES = 4, AT_PAGES_CHECK = 8 };

static void put(uint8_t *at, uint64_t value, int bytes)
{
    for (int i = 0; i < bytes; i++)
        at[i] = (uint8_t)(value >> 8 * i);
}

static uint64_t number_at(const uint8_t *part)
{
    return mtl_get32(part) | (uint64_t)mtl_get32(part + 4) << 32;
}

static uint32_t check_of(const uint8_t *part, uint32_t count)
{
    return mtl_crc(mtl_crc(0, part, AT_CHECK), part + AT_LIST, (size_t)count * LISTED_BYTES);
}

size_t mtl_checkpoint_into(uint8_t *part, const struct checkpoint *checkpoint)
{
    put(part, checkpoint->number, 8);
    put(part + AT_COUNT, checkpoint->count, 4);
    for (uint32_t i = 0; i < checkpoint->count; i++) {
        const struct filled *filled = &checkpoint->list[i];
        uint8_t *at = part + AT_LIST + i * LISTED_BYTES;
        put(at, filled->block, 4);
        put(at + AT_PAGES, filled->pages * 2 + filled->side, 4);
        put(at + AT_PAGES_CHECK, filled->check, 4);
    }
    put(part + AT_CHECK, check_of(part, checkpoint->count), CHECK_BYTES);
    return AT_LIST + (size_t)checkpoint->count * LISTED_BYTES;
}

int mtl_entry_number(const uint8_t *entry, uint64_t *number)
{
    *number = number_at(entry);
    return mtl_get32(entry + AT_CHECK) == check_of(entry, 0);
}

/* The fields of a checkpoint. 0 if it doesn't fit its check. */
static int checkpoint_from(const uint8_t *part, struct checkpoint *checkpoint)
{
    checkpoint->number = number_at(part);
    checkpoint->count = mtl_get32(part + AT_COUNT);
    if (checkpoint->count > MOST_LISTED || mtl_get32(part + AT_CHECK) != check_of(part, checkpoint->count))
        return 0;
    for (uint32_t i = 0; i < checkpoint->count; i++) {
        const uint8_t *at = part + AT_LIST + i * LISTED_BYTES;
        uint32_t pages = mtl_get32(at + AT_PAGES);
        checkpoint->list[i] = (struct filled){mtl_get32(at), pages % 2, pages / 2, mtl_get32(at + AT_PAGES_CHECK)};
    }
    return 1;
}

/* The greatest of the checkpoints that fit their checks and are below this number. 0 if there is none. */
static int last_below(const uint8_t (*parts)[PART_BYTES], uint64_t end, struct checkpoint *last)
{
    struct checkpoint other;
    int found = 0;
    for (int place = 0; place < CHECKPOINTS; place++)
        if (checkpoint_from(parts[place], &other) && other.number < end && (!found || other.number > last->number)) {
            *last = other;
            found = 1;
        }
    return found;
}

/* ---- Lists ---- */

/* Whether these are the spare bytes of a page that was programmed after this checkpoint, or of none. */
static int is_after(const uint8_t *spare, uint64_t number)
{
    return !mtl_spare_fits(spare) || (mtl_get32(spare + AT_TAG) & ~1u) == mtl_tag(number);
}

static int reads(const struct image_bytes *image, void *bytes, size_t count, uint64_t at)
{
    errno = mtl_read_all(image->fd, bytes, count, (off_t)at);
    return errno == 0;
}

/* Whether an image has what a checkpoint lists of a block, and behind it nothing that was programmed before: 1 or 0, or -1 if it can't be read. */
static int has_listed(const struct image_bytes *image, const uint8_t *entries, uint64_t checkpoint, const struct filled *filled)
{
    uint32_t pages = image->numbers.pages;
    uint64_t number;
    if (filled->block >= image->numbers.blocks || filled->pages > pages)
        return 0;
    mtl_entry_number(entries + (size_t)filled->block * ENTRY_BYTES, &number);
    if ((number % 2 ^ (number / 2 > checkpoint)) != filled->side)
        return 0;
    uint64_t at = mtl_side_at(&image->numbers, &image->layout, filled->block, filled->side);
    if (!reads(image, image->spares, (size_t)pages * SPARE_BYTES, at))
        return -1;
    if (mtl_crc(0, image->spares, (size_t)filled->pages * SPARE_BYTES) != filled->check)
        return 0;
    for (uint32_t page = 0; page < pages; page++) {
        const uint8_t *spare = image->spares + (size_t)page * SPARE_BYTES;
        size_t bytes = image->numbers.page_bytes;
        if (page >= filled->pages && !is_after(spare, checkpoint))
            return 0;
        if (page >= filled->pages)
            continue;
        if (!reads(image, image->page, bytes, at + image->layout.spare_bytes + page * bytes))
            return -1;
        if (!mintlintel_stamp_fits(spare, image->page, bytes))
            return 0;
    }
    return 1;
}

/* The same of all that it lists. */
static int has_list(const struct image_bytes *image, const uint8_t *entries, const struct checkpoint *checkpoint)
{
    int has = 1;
    for (uint32_t i = 0; has == 1 && i < checkpoint->count; i++)
        has = has_listed(image, entries, checkpoint->number, &checkpoint->list[i]);
    return has;
}

/* Whether each entry fits its check and is of no checkpoint behind the next one, and whether one is of the next. */
static int fit_entries(const struct image_bytes *image, const uint8_t *entries, uint64_t checkpoint, int *has_next)
{
    uint64_t number;
    for (uint32_t block = 0; block < image->numbers.blocks; block++) {
        if (!mtl_entry_number(entries + (size_t)block * ENTRY_BYTES, &number) || number / 2 > checkpoint + 1)
            return 0;
        *has_next |= number / 2 > checkpoint;
    }
    return 1;
}

uint32_t mtl_take_checkpoint(const struct image_bytes *image, const uint8_t *entries, int has_doubts, struct taken *taken)
{
    uint8_t parts[CHECKPOINTS][PART_BYTES];
    struct checkpoint last, before;
    int has_next = 0;
    if (!reads(image, parts, sizeof parts, image->layout.checkpoints_at))
        return MINTLINTEL_FILE_FAILED;
    if (!last_below((const uint8_t (*)[PART_BYTES])parts, UINT64_MAX, &last) || !fit_entries(image, entries, last.number, &has_next))
        return MINTLINTEL_NOT_AN_IMAGE;
    *taken = (struct taken){last.number, last.number, last.count > 0};
    if (last.count == 0 || !has_doubts || has_next || !last_below((const uint8_t (*)[PART_BYTES])parts, last.number, &before))
        return MINTLINTEL_DONE;
    int has = has_list(image, entries, &last);
    if (has == 0)
        taken->number = before.number;
    return has < 0 ? MINTLINTEL_FILE_FAILED : MINTLINTEL_DONE;
}
