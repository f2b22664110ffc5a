/* What is in an image, by its bytes alone: nothing is mounted, and nothing is written. Plain C, and not proved. */
#define _FILE_OFFSET_BITS 64
#include "check_image.h"
#include "flash.h"
#include "image_format.h"
#include "options.h"
#include "stamp.h"
#include <errno.h>
#include <fcntl.h>
#include <inttypes.h>
#include <stdio.h>
#include <stdlib.h>
#include <string.h>
#include <sys/file.h>
#include <sys/stat.h>
#include <unistd.h>

/* A sector's newest version: its number and one more, or 0 without one; a block that has it; its kind; whether its page fits its sum; and whether each
 * such block has a gap: a page without a version, before one with a version. */
struct newest { uint64_t after; uint32_t block; uint8_t kind, fits, is_behind; };

struct look {
    int fd;
    struct mintlintel_durable_numbers numbers;
    struct image_layout layout;
    uint8_t *sides;        /* on which each block is, for an open */
    uint8_t *bad;          /* of each block, whether a block device has listed it as bad: nothing in it is needed, and none of it is read */
    int has_list, is_worn; /* whether there is such a list, and whether the disk can only be read */
    uint8_t *spares, *page;
    uint32_t *erases;      /* of each block, as its newest version tells */
    uint32_t *gaps;        /* of each block */
    struct newest *sectors;
    uint64_t versions, erased, aside, broken; /* pages */
    uint64_t updates;      /* writes and trims, as the greatest number tells */
};

static int read_all(int fd, uint8_t *bytes, size_t count, uint64_t at)
{
    return mtl_read_all(fd, bytes, count, (off_t)at) == 0;
}

/* ---- Pages ---- */

/* Notes a version, whose page may not fit its sum. Of two with one number, one is a copy of the other. */
static void note(struct look *look, const struct stamp *stamp, uint32_t block, int fits)
{
    uint64_t after = stamp->number + 1;
    uint8_t is_behind = look->gaps[block] > 0;
    for (struct newest *newest = look->sectors + stamp->sector; newest < look->sectors + stamp->sector + stamp->count; newest++) {
        if (after > newest->after)
            *newest = (struct newest){after, block, (uint8_t)stamp->kind, (uint8_t)fits, is_behind};
        else if (after == newest->after) {
            newest->fits &= (uint8_t)fits;
            newest->is_behind &= is_behind;
        }
    }
    look->updates = after > look->updates ? after : look->updates;
}

/* Checks a page that has a version: 0 if it can't be read. */
static int check_version(struct look *look, const uint8_t *spare, uint64_t at, uint32_t block, uint64_t *newest_of_block)
{
    struct stamp stamp = mtl_stamp_from(spare);
    if (!read_all(look->fd, look->page, look->numbers.page_bytes, at))
        return 0;
    int fits = stamp.kind != STAMP_LOST && mintlintel_stamp_fits(spare, look->page, look->numbers.page_bytes);
    int is_known = mtl_stamp_is_of(&stamp, look->numbers.sectors, look->numbers.blocks);
    look->broken += !fits || !is_known;
    look->versions += fits && is_known;
    if (!is_known)
        return 1;
    note(look, &stamp, block, fits);
    if (stamp.number >= *newest_of_block && !mtl_names(&stamp)) {
        *newest_of_block = stamp.number;
        look->erases[block] = stamp.erases;
    }
    return 1;
}

/* Counts the pages without a version before the last one with a version. */
static void count_gaps(struct look *look, uint32_t block)
{
    uint32_t missing = 0;
    look->gaps[block] = 0;
    for (uint32_t page = 0; page < look->numbers.pages; page++) {
        const uint8_t *spare = look->spares + (size_t)page * SPARE_BYTES;
        if (mtl_image_reading(spare) == IS_VERSION && mintlintel_stamp_fits(spare, NULL, 0))
            look->gaps[block] = missing;
        else
            missing++;
    }
}

/* Finds on which side an open would find each block: 0, or the code of what is wrong. */
static uint32_t find_sides(struct look *look)
{
    uint8_t session[SESSION_BYTES], boot[BOOT_BYTES];
    size_t bytes = (size_t)look->numbers.blocks * ENTRY_BYTES;
    struct image_bytes image = {look->fd, look->numbers, look->layout, look->spares, look->page};
    struct taken taken;
    uint64_t number;
    uint32_t code = MINTLINTEL_FILE_FAILED;
    if (look->layout.sides == 1)
        return MINTLINTEL_DONE;
    uint8_t *entries = malloc(bytes);
    if (!entries)
        return MINTLINTEL_NO_MEMORY;
    mtl_read_boot(boot);
    int is_read = read_all(look->fd, session, sizeof session, PART_BYTES) && read_all(look->fd, entries, bytes, look->layout.entries_at);
    int has_doubts = is_read && mtl_session_has_doubts(session, boot);
    if (is_read)
        code = mtl_take_checkpoint(&image, entries, has_doubts, &taken);
    for (uint32_t block = 0; code == MINTLINTEL_DONE && block < look->numbers.blocks; block++) {
        mtl_entry_number(entries + (size_t)block * ENTRY_BYTES, &number);
        look->sides[block] = number % 2 ^ (number / 2 > taken.number && has_doubts);
    }
    free(entries);
    return code;
}

static int check_block(struct look *look, uint32_t block)
{
    uint64_t at = mtl_side_at(&look->numbers, &look->layout, block, look->sides[block]), newest_of_block = 0;
    if (!read_all(look->fd, look->spares, (size_t)look->numbers.pages * SPARE_BYTES, at))
        return 0;
    count_gaps(look, block);
    for (uint32_t page = 0; page < look->numbers.pages; page++) {
        const uint8_t *spare = look->spares + (size_t)page * SPARE_BYTES;
        enum reading reading = mtl_image_reading(spare);
        int is_aside = reading == IS_NEITHER && mtl_get32(spare + AT_TAG) % 2 == 1;
        look->erased += reading == IS_ERASED;
        look->aside += (uint64_t)is_aside;
        look->broken += reading == IS_NEITHER && !is_aside;
        uint64_t page_at = at + look->layout.spare_bytes + (uint64_t)page * look->numbers.page_bytes;
        if (reading == IS_VERSION && !check_version(look, spare, page_at, block, &newest_of_block))
            return 0;
    }
    return 1;
}

/* ---- What is shown ---- */

static int by_size(const void *one, const void *other)
{
    uint32_t a = *(const uint32_t *)one, b = *(const uint32_t *)other;
    return a < b ? -1 : a > b;
}

/* The rest of the device's life, if its worst block goes on being erased as it was so far. */
static void show_life(const struct look *look, uint32_t endurance)
{
    uint32_t worst = look->erases[look->numbers.blocks - 1];
    if (worst == 0 || worst >= endurance) {
        printf("life          %s\n", worst == 0 ? "not known: no block was erased" : "the worst block has used its endurance");
        return;
    }
    double left = (double)look->updates * look->numbers.page_bytes * (endurance - worst) / worst;
    printf("life          the worst block has used %.3g %% of %" PRIu32 " erases; %.4g bytes can still be written (extrapolated)\n", 100.0 * worst / endurance,
           endurance, left);
}

static void show_device(const struct look *look, const char *path, uint32_t version)
{
    const struct mintlintel_durable_numbers *n = &look->numbers;
    printf("image         %s, version %" PRIu32 "\n", path, version);
    printf("device        luns %" PRIu32 ", blocks %" PRIu32 ", pages %" PRIu32 ", bytes of a page %" PRIu32 ", sectors %" PRIu32 " (%.3g %% of the pages)\n",
           n->luns, n->blocks, n->pages, n->page_bytes, n->sectors, 100.0 * n->sectors / n->blocks / n->pages);
}

static void show_bad(const struct look *look)
{
    uint32_t bad = 0;
    for (uint32_t i = 0; i < look->numbers.blocks; i++)
        bad += look->bad[i];
    if (look->has_list)
        printf("bad blocks    %" PRIu32 ", which a block device has listed%s; only a block device opens the image\n", bad,
               look->is_worn ? ", and it can only be read" : "");
    else
        printf("bad blocks    0: an image has none\n");
}

/* How many pages are missing of blocks that have a newest version which no block without a gap has. */
static uint64_t count_losses(struct look *look)
{
    uint64_t losses = 0;
    for (uint32_t i = 0; i < look->numbers.sectors; i++) {
        const struct newest *newest = &look->sectors[i];
        if (newest->after && newest->is_behind) {
            losses += look->gaps[newest->block];
            look->gaps[newest->block] = 0;
        }
    }
    return losses;
}

/* Shows what was found, and returns the status. */
static int show(struct look *look, uint32_t endurance)
{
    const uint32_t *erases = look->erases;
    uint64_t written = 0, lost = 0, all = 0, losses = count_losses(look);
    for (uint32_t i = 0; i < look->numbers.sectors; i++) {
        written += look->sectors[i].kind == STAMP_VALUE;
        lost += look->sectors[i].after && !look->sectors[i].fits;
    }
    for (uint32_t i = 0; i < look->numbers.blocks; i++)
        all += erases[i];
    qsort(look->erases, look->numbers.blocks, sizeof *look->erases, by_size);
    printf("written       %" PRIu64 " sectors (%.3g %%), by %" PRIu64 " writes and trims in all\n", written, 100.0 * (double)written / look->numbers.sectors,
           look->updates);
    printf("erases        %" PRIu64 "; of a block least %" PRIu32 ", median %" PRIu32 ", most %" PRIu32 "\n", all, erases[0],
           erases[look->numbers.blocks / 2], erases[look->numbers.blocks - 1]);
    show_bad(look);
    if (endurance)
        show_life(look, endurance);
    printf("pages         %" PRIu64 " versions, %" PRIu64 " erased, %" PRIu64 " set aside, %" PRIu64 " broken\n", look->versions, look->erased, look->aside,
           look->broken);
    printf("check         ");
    if (lost || look->broken)
        printf("%" PRIu64 " sectors have a newest page that doesn't fit its sum; %" PRIu64 " pages don't\n", lost, look->broken);
    else
        printf("each page fits its sums, and so does each sector's newest\n");
    if (losses)
        printf("lost          %" PRIu64 " pages are missing before others of their blocks, and older versions may stand for them\n", losses);
    return fflush(stdout) == 0 ? lost || look->broken || losses ? BROKEN : DONE : STREAM_FAILED;
}

/* ---- The whole image ---- */

static int look_at(struct look *look, const char *path, uint32_t endurance)
{
    struct mintlintel_image_head head;
    struct stat about;
    if (look->fd < 0)
        return image_refused(mtl_no_file());
    if (flock(look->fd, LOCK_SH | LOCK_NB) != 0)
        return image_refused(MINTLINTEL_IN_USE);
    uint32_t code = mintlintel_image_look(path, &head);
    int status = head_refused(code, &head);
    if (status >= 0)
        return status;
    look->numbers = head.numbers;
    look->layout = mtl_image_layout(head.version, &head.numbers);
    if (fstat(look->fd, &about) != 0 || (uint64_t)about.st_size < look->layout.length)
        return image_refused(MINTLINTEL_CUT_SHORT);
    look->spares = malloc((size_t)head.numbers.pages * SPARE_BYTES);
    look->page = malloc(head.numbers.page_bytes);
    look->erases = calloc(head.numbers.blocks, sizeof *look->erases);
    look->gaps = calloc(head.numbers.blocks, sizeof *look->gaps);
    look->sectors = calloc(head.numbers.sectors, sizeof *look->sectors);
    look->sides = calloc(head.numbers.blocks, 1);
    look->bad = calloc(head.numbers.blocks, 1);
    if (!look->bad || !look->sides || !look->spares || !look->page || !look->erases || !look->gaps || !look->sectors)
        return image_refused(MINTLINTEL_NO_MEMORY);
    code = find_sides(look);
    if (code != MINTLINTEL_DONE)
        return image_refused(code);
    int found = mtl_bad_blocks(path, head.numbers.blocks, look->bad, &look->is_worn);
    look->has_list = found == 1;
    if (found != 1)
        memset(look->bad, 0, head.numbers.blocks);
    for (uint32_t block = 0; block < head.numbers.blocks; block++)
        if (!look->bad[block] && !check_block(look, block))
            return image_refused(MINTLINTEL_FILE_FAILED);
    show_device(look, path, head.version);
    return show(look, endurance);
}

int check_image(const char *path, uint32_t endurance)
{
    struct look look = {.fd = mtl_open_file(path, O_RDONLY)};
    int status = look_at(&look, path, endurance);
    free(look.spares);
    free(look.page);
    free(look.erases);
    free(look.gaps);
    free(look.sectors);
    free(look.sides);
    free(look.bad);
    if (look.fd >= 0)
        close(look.fd);
    return status;
}
