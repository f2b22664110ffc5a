/* mtd.c: a driver over /dev/mtdN. It is written to be copied: all it takes from elsewhere is the two headers.
 *
 * In the spare bytes a stamp has a check of this driver behind it, if there is room, so that it can be read without its page. Otherwise a page is read whole
 * even where its stamp alone is wanted. */
#include "flash.h"
#include <errno.h>
#include <fcntl.h>
#include <mtd/mtd-user.h>
#include <stdio.h>
#include <stdlib.h>
#include <string.h>
#include <sys/ioctl.h>
#include <unistd.h>

/* What a function of the driver returns. */
enum { DONE = 0, ERASED = 1, FAILED = 1, UNREADABLE = 2, GONE = 3 };
/* A page that can't be read is read again, as UBI does: a bit may flip on the way. */
enum { TRIES = 4 };
/* The pages of a device that has none, as NOR flash. */
enum { PAGE_OF_BYTES = 2048, SMALLEST_PAGE = 256 };
enum { CHECK_BYTES = 4, MOST_SPARE = MINTLINTEL_STAMP_BYTES + CHECK_BYTES };

struct chip {
    int fd;
    enum flash_place place;
    uint32_t pages, raw_bytes; /* pages of a block, bytes of a page of the chip */
    uint32_t spare_bytes;      /* of a stamp, with its check if there is room */
    uint8_t *page;             /* with room for a stamp behind it */
};

static uint64_t place_of(const struct chip *chip, uint32_t block, uint32_t page)
{
    return ((uint64_t)block * chip->pages + page) * chip->raw_bytes;
}

static int is_erased(const uint8_t *bytes, size_t count)
{
    while (count > 0 && bytes[count - 1] == 0xff)
        count--;
    return count == 0;
}

/* Reads a page with its stamp behind it. EUCLEAN says that the ECC has mended what it read, and EBADMSG that it couldn't. */
static int read_spare(struct chip *chip, uint64_t at)
{
    struct mtd_read_req request = {.start = at, .len = chip->raw_bytes, .ooblen = MINTLINTEL_STAMP_BYTES, .mode = MTD_OPS_AUTO_OOB,
                                   .usr_data = (uintptr_t)chip->page, .usr_oob = (uintptr_t)(chip->page + chip->raw_bytes)};
    if (ioctl(chip->fd, MEMREAD, &request) == 0 || errno == EUCLEAN)
        return DONE;
    return errno == EBADMSG || errno == EIO ? UNREADABLE : GONE;
}

static void put_check(uint8_t *spare)
{
    uint32_t check = mintlintel_crc32c(0, spare, MINTLINTEL_STAMP_BYTES);
    for (int i = 0; i < CHECK_BYTES; i++)
        spare[MINTLINTEL_STAMP_BYTES + i] = (uint8_t)(check >> 8 * i);
}

/* Reads a stamp without its page. The library knows which pages may be torn beside a whole stamp, and reads those whole. */
static int read_stamp(struct chip *chip, uint64_t at, void *stamp)
{
    uint8_t spare[MOST_SPARE], wanted[MOST_SPARE];
    struct mtd_read_req request = {.start = at, .ooblen = MOST_SPARE, .mode = MTD_OPS_AUTO_OOB, .usr_oob = (uintptr_t)spare};
    for (int i = 0; i < TRIES; i++) {
        if (ioctl(chip->fd, MEMREAD, &request) != 0 && errno != EUCLEAN && errno != EBADMSG && errno != EIO)
            return GONE;
        if (is_erased(spare, MOST_SPARE))
            return ERASED;
        memcpy(wanted, spare, MINTLINTEL_STAMP_BYTES);
        put_check(wanted);
        if (memcmp(spare, wanted, MOST_SPARE) != 0)
            continue;
        memcpy(stamp, spare, MINTLINTEL_STAMP_BYTES);
        return DONE;
    }
    return UNREADABLE;
}

/* Reads a page that begins with its stamp, and puts the stamp behind it. MTD gives without an error what the ECC couldn't mend: the stamp's check tells. */
static int read_head(struct chip *chip, uint64_t at)
{
    uint8_t stamp[MINTLINTEL_STAMP_BYTES];
    ssize_t count = pread(chip->fd, chip->page, chip->raw_bytes, (off_t)at);
    if (count != (ssize_t)chip->raw_bytes)
        return count < 0 && errno == EIO ? UNREADABLE : GONE;
    memcpy(stamp, chip->page, sizeof stamp);
    memmove(chip->page, chip->page + sizeof stamp, chip->raw_bytes - sizeof stamp);
    memcpy(chip->page + chip->raw_bytes - sizeof stamp, stamp, sizeof stamp);
    return DONE;
}

static int read_page(void *at, uint32_t block, uint32_t page, void *main, void *stamp)
{
    struct chip *chip = at;
    size_t bytes = chip->raw_bytes - (chip->place == FLASH_HEAD ? MINTLINTEL_STAMP_BYTES : 0);
    const uint8_t *its_stamp = chip->page + bytes;
    if (!main && chip->spare_bytes == MOST_SPARE)
        return read_stamp(chip, place_of(chip, block, page), stamp);
    for (int i = 0; i < TRIES; i++) {
        int answer = chip->place == FLASH_HEAD ? read_head(chip, place_of(chip, block, page)) : read_spare(chip, place_of(chip, block, page));
        if (answer == GONE)
            return GONE;
        if (answer == DONE && is_erased(chip->page, bytes + MINTLINTEL_STAMP_BYTES))
            return ERASED;
        if (answer == UNREADABLE || !mintlintel_stamp_fits(its_stamp, chip->page, bytes))
            continue;
        if (main)
            memcpy(main, chip->page, bytes);
        memcpy(stamp, its_stamp, MINTLINTEL_STAMP_BYTES);
        return DONE;
    }
    return UNREADABLE;
}

/* EIO is what MTD says of a program or an erase that failed. With another error the chip is gone. */
static int answer_of(int is_done)
{
    return is_done ? DONE : errno == EIO ? FAILED : GONE;
}

/* One call programs the page and its stamp. */
static int program(void *at, uint32_t block, uint32_t page, const void *main, const void *stamp)
{
    struct chip *chip = at;
    if (chip->place == FLASH_HEAD) {
        memcpy(chip->page, stamp, MINTLINTEL_STAMP_BYTES);
        memcpy(chip->page + MINTLINTEL_STAMP_BYTES, main, chip->raw_bytes - MINTLINTEL_STAMP_BYTES);
        return answer_of(pwrite(chip->fd, chip->page, chip->raw_bytes, (off_t)place_of(chip, block, page)) == (ssize_t)chip->raw_bytes);
    }
    uint8_t spare[MOST_SPARE];
    memcpy(spare, stamp, MINTLINTEL_STAMP_BYTES);
    put_check(spare);
    struct mtd_write_req request = {.start = place_of(chip, block, page), .len = chip->raw_bytes, .ooblen = chip->spare_bytes,
                                    .usr_data = (uintptr_t)main, .usr_oob = (uintptr_t)spare, .mode = MTD_OPS_AUTO_OOB};
    return answer_of(ioctl(chip->fd, MEMWRITE, &request) == 0);
}

static int erase(void *at, uint32_t block)
{
    struct chip *chip = at;
    struct erase_info_user64 request = {.start = place_of(chip, block, 0), .length = (uint64_t)chip->pages * chip->raw_bytes};
    return answer_of(ioctl(chip->fd, MEMERASE64, &request) == 0);
}

static int is_bad(void *at, uint32_t block)
{
    struct chip *chip = at;
    __kernel_loff_t place = (__kernel_loff_t)place_of(chip, block, 0);
    int answer = ioctl(chip->fd, MEMGETBADBLOCK, &place);
    return answer < 0 ? GONE : answer > 0;
}

static int mark_bad(void *at, uint32_t block)
{
    struct chip *chip = at;
    __kernel_loff_t place = (__kernel_loff_t)place_of(chip, block, 0);
    return ioctl(chip->fd, MEMSETBADBLOCK, &place) == 0 ? DONE : GONE;
}

/* What the chip or the kernel lacks for stamps in the spare bytes, or null. */
static const char *spare_fault(struct chip *chip)
{
    static char text[160];
    struct nand_ecclayout_user layout = {0};
    if (ioctl(chip->fd, ECCGETLAYOUT, &layout) != 0)
        return "the chip has no spare bytes: put the stamps into the pages";
    if (layout.oobavail < MINTLINTEL_STAMP_BYTES) {
        snprintf(text, sizeof text, "a stamp takes %u spare bytes of a page, and the ECC leaves %u: put the stamps into the pages",
                 (unsigned)MINTLINTEL_STAMP_BYTES, (unsigned)layout.oobavail);
        return text;
    }
    chip->spare_bytes = layout.oobavail < MOST_SPARE ? MINTLINTEL_STAMP_BYTES : MOST_SPARE;
    int answer = read_spare(chip, 0);
    return answer == GONE ? "the kernel can't read a page with its spare bytes, which MEMREAD of Linux 6.1 does: put the stamps into the pages" : NULL;
}

static const char *find_numbers(struct chip *chip, struct flash *flash)
{
    struct mtd_info_user info;
    off_t bytes = lseek(chip->fd, 0, SEEK_END); /* info.size has 32 bits */
    if (bytes <= 0 || ioctl(chip->fd, MEMGETINFO, &info) != 0)
        return "this is no device of MTD";
    if (info.type == MTD_MLCNANDFLASH)
        return "the chip has several bits in a cell, and a cut program may destroy another page";
    if (!(info.flags & MTD_WRITEABLE) || info.erasesize == 0)
        return "the device can't be written";
    chip->raw_bytes = info.writesize < SMALLEST_PAGE ? PAGE_OF_BYTES : info.writesize;
    chip->pages = info.erasesize / chip->raw_bytes;
    flash->pages = chip->pages;
    flash->blocks = (uint32_t)((uint64_t)bytes / info.erasesize);
    flash->page_bytes = chip->raw_bytes - (chip->place == FLASH_HEAD ? MINTLINTEL_STAMP_BYTES : 0);
    flash->nand = (struct mintlintel_nand){.chip = chip, .read = read_page, .program = program, .erase = erase};
    if (info.type == MTD_NANDFLASH) {
        flash->nand.is_bad = is_bad;
        flash->nand.mark_bad = mark_bad;
    }
    chip->page = malloc(chip->raw_bytes + MINTLINTEL_STAMP_BYTES);
    return chip->page ? chip->place == FLASH_SPARE ? spare_fault(chip) : NULL : strerror(errno);
}

const char *flash_open(struct flash *flash, const char *path, enum flash_place place)
{
    struct chip *chip = calloc(1, sizeof *chip);
    *flash = (struct flash){.nand = {.chip = chip}};
    if (!chip)
        return strerror(errno);
    chip->place = place;
    chip->fd = open(path, O_RDWR | O_CLOEXEC);
    const char *fault = chip->fd == -1 ? strerror(errno) : find_numbers(chip, flash);
    if (fault)
        flash_close(flash);
    return fault;
}

void flash_close(struct flash *flash)
{
    struct chip *chip = flash->nand.chip;
    if (!chip)
        return;
    if (chip->fd != -1)
        close(chip->fd);
    free(chip->page);
    free(chip);
    flash->nand.chip = NULL;
}
