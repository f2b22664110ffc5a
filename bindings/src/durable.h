/* The parts of a device that survives power cuts: durable.c, opening.c and torn.c. Plain C, and not proved. */
#ifndef DURABLE_H
#define DURABLE_H

#include "given.h"
#include "mintlintel_durable.h"
#include "stamp.h"

/* A block is in use, in reserve or bad. One that has failed is marked once nothing in it is needed; so a marked one is not read. One that fails an erase is
 * not read either: it kept nothing, and what is left in it must not be mapped, since an erase may lose pages before others. */
enum { GOOD, RESERVED, FAILED, BROKEN, MARKED };

/* A page as its stamp tells it: what a read of the stamp alone returned, and if that is 0 the version. Of how many sectors one is isn't kept, but
 * whether it is of several; nor the block that it names, but whether it names one. */
struct noted { uint32_t number_low, sector, number_high : 24, reading : 2, is_of_several : 1, names : 1; };

/* What a mount reads first: each page as its stamp tells it, and of each sector twice the newest number, and one more if two pages have it. */
struct stamps { struct noted *pages; uint64_t *newest; };

/* What a handle keeps beside its driver. A mount numbers the blocks that are in use, then those in reserve, then the bad ones: `chip_block` gives the
 * chip's number of each. `state` and `erases` go by the chip's numbers. */
struct mintlintel_flash {
    struct mtl_given *given; /* the memory that the caller has given, or null: then the allocator's */
    struct mintlintel_nand nand;
    struct mintlintel_durable_numbers numbers;
    uint32_t *chip_block, *erases;
    uint8_t *state;
    uint8_t *has_value; /* a bit for each sector: its newest page has a value. Where it is 0 the page's stamp says so */
    uint32_t used, good; /* how many blocks a mount has numbered as in use; and as those and the reserve */
    uint32_t stranded; /* the first sector that may be in a block that isn't in use */
    uint32_t failed; /* how many blocks have failed and aren't marked */
    uint32_t turn; /* from this one on the next page names one of these */
    int has_marked; /* blocks were marked since the reserve was looked at */
    uint64_t newest; /* the greatest number of a version */
    struct stamp found; /* of the page that was read last for the driver, into `moved` */
    struct mintlintel_totals totals; /* what was done since the open */
    uint64_t losses; /* what the last mount has told */
    int despite_losses; /* the caller goes on with losses */
    struct stamps stamps; /* while it mounts */
    struct mtl_reason *reason; /* if there is one, the flash is an image */
    int tells_torn; /* the flash tells torn pages by itself, as an image does */
    struct mintlintel_readers *readers; /* those that read beside it, or null */
    uint32_t stopped; /* the code that every call returns since the power went, or a sync or a mount failed, or 0 */
    uint32_t worn; /* the code of writes and trims since bad blocks have left no room, or the numbers have run out, or 0 */
    uint8_t *page, *moved;
    const uint8_t *known; /* pages whose checks are known, or null */
    const uint32_t *checks;
    size_t known_pages;
};

/* What an open finds out, and a mount after a failure knows: there is a version other than the first; a page that was read whole fits its check. */
struct opening { int has_trace, has_fit; };

/* The reading of a page of the chip: 0 and its stamp's fields, or 1 erased, 2 unreadable, 3 power gone. A page whose check doesn't fit is unreadable. */
int mtl_read_page(struct mintlintel_flash *flash, uint32_t block, uint32_t page, void *main, struct stamp *stamp);

/* After these codes memory and flash may differ, so that only an open helps. */
uint32_t mtl_stops(struct mintlintel_flash *flash, uint32_t code);

/* How many good blocks are in reserve for those that fail. */
uint32_t mtl_count_reserve(const struct mintlintel_flash *flash);

/* Mounts without the blocks that have failed. If there is no room without them, the device is only read from now on: 27. */
uint32_t mtl_mount_again(struct mintlintel_durable *device);

/* Whether an open learns of the blocks that were marked before. If not, it takes each one for good, and no page names one. */
int mtl_keeps_marks(const struct mintlintel_flash *flash);

/* Whether a mount reads a block. */
int mtl_is_read(const struct mintlintel_flash *flash, uint32_t block);

/* Memory of zeros for what a handle keeps, or null; and frees it. */
void *mtl_take(struct mtl_given *given, uint64_t bytes);
void mtl_free_to(struct mtl_given *given, void *memory);

/* How many bytes a device takes of memory that is given for it. */
uint64_t mtl_durable_bytes(const struct mintlintel_durable_numbers *numbers, int tells_torn);

/* Reads what the stamps tell, of a flash that doesn't tell torn pages by itself: 0, 6, 28 or 30. And frees it. */
uint32_t mtl_stamps_read(struct mintlintel_flash *flash, struct opening *opening);
void mtl_stamps_free(struct mintlintel_flash *flash);

/* A page as a mount has to note it: what `mtl_read_page` returns. The kind of a version isn't kept, but that only a trim is of several sectors. */
int mtl_stamps_reading(struct mintlintel_flash *flash, uint32_t block, uint32_t page, struct stamp *stamp);

#endif
