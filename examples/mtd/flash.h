/* Flash behind a device of Linux, for mintlintel_durable_open: mtd.c is the driver of a NAND chip, /dev/mtdN, and zone.c that of a zoned block
 * device. */
#ifndef FLASH_H
#define FLASH_H

#include <mintlintel_durable.h>

/* Where a page's stamp stands. */
enum flash_place {
    FLASH_SPARE, /* in the spare bytes of its page: a page of the device is a page of the chip */
    FLASH_HEAD   /* in the first bytes of its page, under the chip's ECC: a page of the device is MINTLINTEL_STAMP_BYTES shorter */
};

struct flash {
    struct mintlintel_nand nand;
    uint32_t blocks, pages, page_bytes;
};

/* Opens the device. Null, or a text that says what it lacks; then nothing is open. */
const char *flash_open(struct flash *flash, const char *path, enum flash_place place);

void flash_close(struct flash *flash);

#endif
