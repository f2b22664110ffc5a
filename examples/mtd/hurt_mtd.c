/* hurt.h over MTD, by its raw mode: what is written so has no ECC. */
#include "hurt.h"
#include <errno.h>
#include <fcntl.h>
#include <mtd/mtd-user.h>
#include <stdio.h>
#include <stdlib.h>
#include <string.h>
#include <sys/ioctl.h>
#include <unistd.h>

enum { MOST_RAW = 16384, MOST_SPARE = 1024, CHECK_BYTES = 4 };

/* A page of the chip as its parts: `main` and `stamp` point into one of them. */
struct image { uint8_t data[MOST_RAW], free[MINTLINTEL_STAMP_BYTES + CHECK_BYTES], *main, *stamp; uint32_t main_bytes; };

static int fd, mended;
static enum flash_place place;
static uint32_t pages, raw_bytes, spare_bytes, free_bytes; /* the last: of a stamp, with the driver's check behind it if there is room */
static struct nand_ecclayout_user layout;

static uint64_t at(uint32_t block, uint32_t page)
{
    return ((uint64_t)block * pages + page) * raw_bytes;
}

static int ecc_strength(const char *path)
{
    char name[80];
    int strength = 0;
    snprintf(name, sizeof name, "/sys/class/mtd/%s/ecc_strength", strrchr(path, '/') + 1);
    FILE *source = fopen(name, "r");
    if (!source || fscanf(source, "%d", &strength) != 1)
        abort();
    fclose(source);
    return strength;
}

int hurt_open(const struct flash *flash, const char *path, enum flash_place its_place)
{
    struct mtd_info_user info;
    fd = open(path, O_RDWR | O_CLOEXEC);
    if (fd == -1 || ioctl(fd, MEMGETINFO, &info) != 0)
        return -1;
    place = its_place;
    pages = flash->pages;
    raw_bytes = flash->page_bytes + (place == FLASH_HEAD ? MINTLINTEL_STAMP_BYTES : 0);
    spare_bytes = info.oobsize;
    mended = spare_bytes > 0 ? ecc_strength(path) : 0;
    int answer = spare_bytes > 0 ? ioctl(fd, ECCGETLAYOUT, &layout) : 0;
    free_bytes = MINTLINTEL_STAMP_BYTES + (layout.oobavail < MINTLINTEL_STAMP_BYTES + CHECK_BYTES ? 0 : CHECK_BYTES);
    return answer;
}

static struct image *image_of(const void *main, const void *stamp)
{
    static struct image image;
    memset(&image, 0xff, sizeof image);
    image.main = image.data + (place == FLASH_HEAD ? MINTLINTEL_STAMP_BYTES : 0);
    image.stamp = place == FLASH_HEAD ? image.data : image.free;
    image.main_bytes = raw_bytes - (place == FLASH_HEAD ? MINTLINTEL_STAMP_BYTES : 0);
    memcpy(image.main, main, image.main_bytes);
    memcpy(image.stamp, stamp, MINTLINTEL_STAMP_BYTES);
    uint32_t check = mintlintel_crc32c(0, stamp, MINTLINTEL_STAMP_BYTES);
    for (int i = 0; place == FLASH_SPARE && i < CHECK_BYTES; i++)
        image.free[MINTLINTEL_STAMP_BYTES + i] = (uint8_t)(check >> 8 * i);
    return &image;
}

/* Writes an image as the chip does, with its ECC. */
static void put(uint32_t block, uint32_t page, struct image *image)
{
    if (spare_bytes == 0) {
        if (pwrite(fd, image->data, raw_bytes, (off_t)at(block, page)) != (ssize_t)raw_bytes)
            abort();
        return;
    }
    struct mtd_write_req request = {.start = at(block, page), .len = raw_bytes, .usr_data = (uintptr_t)image->data, .mode = MTD_OPS_AUTO_OOB,
                                    .ooblen = place == FLASH_SPARE ? free_bytes : 0, .usr_oob = (uintptr_t)image->free};
    ioctl(fd, MEMWRITE, &request);
}

/* Writes data and all spare bytes as they are. */
static void put_raw(uint32_t block, uint32_t page, const uint8_t *data, const uint8_t *spare)
{
    struct mtd_write_req request = {.start = at(block, page), .len = raw_bytes, .usr_data = (uintptr_t)data, .mode = MTD_OPS_RAW,
                                    .ooblen = spare_bytes, .usr_oob = (uintptr_t)spare};
    ioctl(fd, MEMWRITE, &request);
}

static void get_raw(uint32_t block, uint32_t page, uint8_t *data, uint8_t *spare)
{
    struct mtd_read_req request = {.start = at(block, page), .len = raw_bytes, .usr_data = (uintptr_t)data, .mode = MTD_OPS_RAW,
                                   .ooblen = spare_bytes, .usr_oob = (uintptr_t)spare};
    if (ioctl(fd, MEMREAD, &request) != 0 && pread(fd, data, raw_bytes, (off_t)at(block, page)) != (ssize_t)raw_bytes)
        abort();
}

/* The image without ECC: its stamp goes to the spare bytes that the ECC leaves. */
static void put_bare(uint32_t block, uint32_t page, struct image *image)
{
    uint8_t spare[MOST_SPARE];
    memset(spare, 0xff, sizeof spare);
    for (uint32_t i = 0, region = 0, k = 0; i < free_bytes && region < MTD_MAX_OOBFREE_ENTRIES; k++) {
        if (k >= layout.oobfree[region].length)
            region++, k = (uint32_t)-1;
        else
            spare[layout.oobfree[region].offset + k] = image->free[i++];
    }
    if (spare_bytes > 0)
        put_raw(block, page, image->data, spare);
    else
        put(block, page, image);
}

/* Erases some bits again. */
static void fade(uint8_t *bytes, size_t count, int percent)
{
    for (size_t i = 0; i < count; i++)
        if (rand() % 100 < percent)
            bytes[i] |= (uint8_t)rand();
}

void hurt_program(uint32_t block, uint32_t page, const void *main, const void *stamp, unsigned how)
{
    struct image *image = image_of(main, stamp);
    uint32_t some = (uint32_t)rand() % image->main_bytes;
    switch (how) {
    case CUT_NOTHING: return;
    case CUT_WHOLE: break;
    case 2: memset(image->main + some, ~image->main[some], 1); put_bare(block, page, image); return;
    case 3: memset(image->main + some, 0xff, image->main_bytes - some); image->main[some] = (uint8_t)~((const uint8_t *)main)[some]; break;
    case 4: fade(image->stamp, MINTLINTEL_STAMP_BYTES, 50); image->stamp[0] = 0xff; break;
    case 5: fade(image->main, image->main_bytes, 10); image->stamp[7] ^= 0x40; put_bare(block, page, image); return;
    case 6: memset(image->main, 0xff, image->main_bytes); break;
    default: memset(image->stamp, 0xff, MINTLINTEL_STAMP_BYTES);
    }
    put(block, page, image);
}

void hurt_erase(uint32_t block, unsigned how)
{
    uint32_t bytes = raw_bytes + spare_bytes;
    uint8_t *all = malloc((size_t)bytes * pages);
    struct erase_info_user64 request = {.start = at(block, 0), .length = (uint64_t)pages * raw_bytes};
    for (uint32_t page = 0; all && page < pages; page++)
        get_raw(block, page, all + page * bytes, all + page * bytes + raw_bytes);
    if (all && how > 0 && ioctl(fd, MEMERASE64, &request) == 0)
        for (uint32_t page = 0; how > 1 && page < pages; page++) {
            uint8_t *held = all + page * bytes;
            int kind = rand() % 4;
            if (kind == 0)
                continue;
            fade(held, kind == 1 ? bytes : kind == 2 ? raw_bytes : 0, how == 2 ? 1 : 40);
            if (spare_bytes > 0)
                put_raw(block, page, held, held + raw_bytes);
            else
                pwrite(fd, held, raw_bytes, (off_t)at(block, page));
        }
    free(all);
}

uint32_t hurt_held(uint32_t block)
{
    static uint8_t held[MOST_RAW + MOST_SPARE];
    uint32_t count = 0;
    for (uint32_t page = 0; page < pages; page++) {
        uint32_t i = 0;
        get_raw(block, page, held, held + raw_bytes);
        while (i < raw_bytes + spare_bytes && held[i] == 0xff)
            i++;
        count += i < raw_bytes + spare_bytes;
    }
    return count;
}

int hurt_mended(void)
{
    return mended;
}

void hurt_flip(uint32_t block, int bits)
{
    static uint8_t held[MOST_RAW + MOST_SPARE];
    struct erase_info_user64 request = {.start = at(block, 0), .length = (uint64_t)pages * raw_bytes};
    get_raw(block, 0, held, held + raw_bytes);
    for (int i = 0; i < bits; i++)
        held[100 + i] ^= (uint8_t)(1 << (3 + i) % 8);
    if (ioctl(fd, MEMERASE64, &request) != 0)
        abort();
    put_raw(block, 0, held, held + raw_bytes);
}
