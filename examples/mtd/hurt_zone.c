/* hurt.h over a zoned block device. A cut write leaves nothing of its page, all of it, or something else under a pointer that has moved. */
#define _GNU_SOURCE
#include "hurt.h"
#include <fcntl.h>
#include <linux/blkzoned.h>
#include <stdlib.h>
#include <string.h>
#include <sys/ioctl.h>
#include <unistd.h>

static int fd;
static uint32_t zone_sectors, raw_bytes, pages;
static uint8_t *image;

int hurt_open(const struct flash *flash, const char *path, enum flash_place place)
{
    (void)place;
    fd = open(path, O_RDWR | O_DIRECT | O_DSYNC | O_CLOEXEC);
    raw_bytes = flash->page_bytes + MINTLINTEL_STAMP_BYTES;
    pages = flash->pages;
    image = aligned_alloc(raw_bytes, raw_bytes);
    return fd == -1 || !image ? -1 : ioctl(fd, BLKGETZONESZ, &zone_sectors);
}

void hurt_program(uint32_t block, uint32_t page, const void *main, const void *stamp, unsigned how)
{
    uint32_t some = MINTLINTEL_STAMP_BYTES + (uint32_t)rand() % (raw_bytes - MINTLINTEL_STAMP_BYTES);
    memcpy(image, stamp, MINTLINTEL_STAMP_BYTES);
    memcpy(image + MINTLINTEL_STAMP_BYTES, main, raw_bytes - MINTLINTEL_STAMP_BYTES);
    if (how == CUT_NOTHING)
        return;
    if (how == 2 || how == 3)
        memset(image + some, ~image[some], 1);
    else if (how == 4 || how == 5)
        image[rand() % MINTLINTEL_STAMP_BYTES] ^= 0x10;
    else if (how == 6)
        memset(image + MINTLINTEL_STAMP_BYTES, 0, raw_bytes - MINTLINTEL_STAMP_BYTES);
    else if (how == 7)
        memset(image, 0, MINTLINTEL_STAMP_BYTES);
    if (pwrite(fd, image, raw_bytes, ((off_t)block * zone_sectors * 512) + (off_t)page * raw_bytes) != (ssize_t)raw_bytes)
        abort();
}

void hurt_erase(uint32_t block, unsigned how)
{
    struct blk_zone_range range = {(uint64_t)block * zone_sectors, zone_sectors};
    if (how % 2 == 1 && ioctl(fd, BLKRESETZONE, &range) != 0)
        abort();
}

uint32_t hurt_held(uint32_t block)
{
    struct { struct blk_zone_report head; struct blk_zone zone; } report = {.head = {.sector = (uint64_t)block * zone_sectors, .nr_zones = 1}};
    if (ioctl(fd, BLKREPORTZONE, &report) != 0)
        abort();
    return report.zone.cond == BLK_ZONE_COND_FULL ? pages : (uint32_t)((report.zone.wp - report.zone.start) * 512 / raw_bytes);
}

int hurt_mended(void)
{
    return 0;
}

void hurt_flip(uint32_t block, int bits)
{
    (void)block, (void)bits;
}
