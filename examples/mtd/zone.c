/* zone.c: a driver over a zoned block device. A block is a zone; a page is 4096 bytes, and the first of them are its stamp. The device's write
 * pointer tells which pages of a zone are erased. */
#define _GNU_SOURCE
#include "flash.h"
#include <errno.h>
#include <fcntl.h>
#include <linux/blkzoned.h>
#include <stdlib.h>
#include <string.h>
#include <sys/ioctl.h>
#include <unistd.h>

enum { DONE = 0, ERASED = 1, FAILED = 1, UNREADABLE = 2, GONE = 3 };
enum { RAW_BYTES = 4096, PAGE_BYTES = RAW_BYTES - MINTLINTEL_STAMP_BYTES, SECTORS_OF_A_PAGE = RAW_BYTES / 512 };

struct zone { uint32_t written; int is_bad; }; /* pages in front of the write pointer */

struct disk {
    int fd;
    uint32_t zone_sectors, pages;
    struct zone *zones;
    uint8_t *page;
};

static off_t place_of(const struct disk *disk, uint32_t block, uint32_t page)
{
    return (off_t)block * disk->zone_sectors * 512 + (off_t)page * RAW_BYTES;
}

static int read_page(void *at, uint32_t block, uint32_t page, void *main, void *stamp)
{
    struct disk *disk = at;
    if (page >= disk->zones[block].written)
        return ERASED;
    ssize_t count = pread(disk->fd, disk->page, RAW_BYTES, place_of(disk, block, page));
    if (count != RAW_BYTES)
        return count < 0 && (errno == EIO || errno == EBADMSG || errno == ENODATA) ? UNREADABLE : GONE;
    if (!mintlintel_stamp_fits(disk->page, disk->page + MINTLINTEL_STAMP_BYTES, PAGE_BYTES))
        return UNREADABLE;
    memcpy(stamp, disk->page, MINTLINTEL_STAMP_BYTES);
    if (main)
        memcpy(main, disk->page + MINTLINTEL_STAMP_BYTES, PAGE_BYTES);
    return DONE;
}

/* With O_DSYNC a write is durable when it returns. */
static int program(void *at, uint32_t block, uint32_t page, const void *main, const void *stamp)
{
    struct disk *disk = at;
    memcpy(disk->page, stamp, MINTLINTEL_STAMP_BYTES);
    memcpy(disk->page + MINTLINTEL_STAMP_BYTES, main, PAGE_BYTES);
    if (pwrite(disk->fd, disk->page, RAW_BYTES, place_of(disk, block, page)) != RAW_BYTES)
        return errno == EIO ? FAILED : GONE;
    disk->zones[block].written = page + 1;
    return DONE;
}

static int command(struct disk *disk, unsigned long request, uint32_t block)
{
    struct blk_zone_range range = {(uint64_t)block * disk->zone_sectors, disk->zone_sectors};
    return ioctl(disk->fd, request, &range) == 0 ? DONE : errno == EIO ? FAILED : GONE;
}

static int erase(void *at, uint32_t block)
{
    struct disk *disk = at;
    int answer = command(disk, BLKRESETZONE, block);
    if (answer == DONE)
        disk->zones[block].written = 0;
    return answer;
}

static int is_bad(void *at, uint32_t block)
{
    return ((struct disk *)at)->zones[block].is_bad;
}

/* Notes the zones. A zone that an earlier handle left open is finished: it gets no page any more, and the device has few that may be open. */
static const char *find_zones(struct disk *disk, uint32_t count)
{
    size_t bytes = sizeof(struct blk_zone_report) + count * sizeof(struct blk_zone);
    struct blk_zone_report *report = calloc(1, bytes);
    const char *fault = report ? NULL : strerror(errno);
    if (report)
        report->nr_zones = count;
    if (report && (ioctl(disk->fd, BLKREPORTZONE, report) != 0 || report->nr_zones != count))
        fault = "the device doesn't tell its zones";
    for (uint32_t i = 0; !fault && i < count; i++) {
        const struct blk_zone *zone = &report->zones[i];
        uint64_t capacity = report->flags & BLK_ZONE_REP_CAPACITY ? zone->capacity : zone->len;
        int is_full = zone->cond == BLK_ZONE_COND_FULL || zone->cond == BLK_ZONE_COND_READONLY;
        if (disk->pages == 0 && zone->type != BLK_ZONE_TYPE_CONVENTIONAL)
            disk->pages = (uint32_t)(capacity / SECTORS_OF_A_PAGE);
        disk->zones[i].is_bad = zone->type == BLK_ZONE_TYPE_CONVENTIONAL || zone->cond == BLK_ZONE_COND_OFFLINE || capacity / SECTORS_OF_A_PAGE < disk->pages;
        disk->zones[i].written = is_full ? disk->pages : (uint32_t)((zone->wp - zone->start) / SECTORS_OF_A_PAGE);
        if (!disk->zones[i].is_bad && !is_full && zone->wp > zone->start && command(disk, BLKFINISHZONE, i) != DONE)
            fault = "a zone can't be finished";
    }
    free(report);
    return fault;
}

static const char *find_numbers(struct disk *disk, struct flash *flash)
{
    uint32_t count;
    if (ioctl(disk->fd, BLKGETZONESZ, &disk->zone_sectors) != 0 || ioctl(disk->fd, BLKGETNRZONES, &count) != 0 || disk->zone_sectors == 0)
        return "this is no zoned block device";
    disk->zones = calloc(count, sizeof *disk->zones);
    disk->page = aligned_alloc(RAW_BYTES, RAW_BYTES);
    const char *fault = disk->zones && disk->page ? find_zones(disk, count) : strerror(errno);
    *flash = (struct flash){{.chip = disk, .read = read_page, .program = program, .erase = erase, .is_bad = is_bad}, count, disk->pages, PAGE_BYTES};
    return fault;
}

const char *flash_open(struct flash *flash, const char *path, enum flash_place place)
{
    struct disk *disk = calloc(1, sizeof *disk);
    *flash = (struct flash){.nand = {.chip = disk}};
    if (!disk)
        return strerror(errno);
    disk->fd = open(path, O_RDWR | O_DIRECT | O_DSYNC | O_CLOEXEC);
    const char *fault = disk->fd == -1 ? strerror(errno) : place == FLASH_SPARE ? "a zone has no spare bytes: put the stamps into the pages"
                                                                               : find_numbers(disk, flash);
    if (fault)
        flash_close(flash);
    return fault;
}

void flash_close(struct flash *flash)
{
    struct disk *disk = flash->nand.chip;
    if (!disk)
        return;
    if (disk->fd != -1)
        close(disk->fd);
    free(disk->zones);
    free(disk->page);
    free(disk);
    flash->nand.chip = NULL;
}
