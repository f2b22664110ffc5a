/* What the image needs of the device beside its calls, and a block device of an image. Plain C, and not proved. */
#ifndef FLASH_H
#define FLASH_H

#include "mintlintel_durable.h"
#include "mintlintel_image.h"
#include "mintlintel_reader.h"

/* What an image is asked beside the calls of a chip: `of` tells why it refuses each call, or 0; `drain` does what was given, and returns 0 or 3, with no
 * thread at it; `read_beside` reads pages that stand one behind another beside any other call, with their stamps, which are ones for a page without a
 * version: 0 or 3. `readers` are told of each page once it is in the file. */
struct mtl_reason {
    uint32_t (*of)(struct mtl_reason *reason);
    int (*drain)(struct mtl_reason *reason);
    int (*read_beside)(struct mtl_reason *reason, uint32_t block, uint32_t page, uint32_t count, void *main, void *stamps);
    struct mintlintel_readers *readers;
};

/* Opens a device whose calls return the code of the reason, if it isn't 0. With `losses` it opens one that has losses too, and tells them. */
uint32_t mtl_durable_open(struct mintlintel_durable *device, const struct mintlintel_nand *nand, const struct mintlintel_durable_numbers *numbers,
                          struct mtl_reason *reason, uint64_t *losses);

/* How many pages a block may have; and the first fault of a device's numbers, or 0. */
enum { MTL_MOST_PAGES = 16384 };
uint32_t mtl_durable_fault(const struct mintlintel_durable_numbers *numbers);

/* The page of the chip that has the sector's newest version, a value or a trim: 1 with its place; 0 if none has; the code that each call returns. */
uint32_t mtl_durable_find(struct mintlintel_durable *device, uint32_t sector, struct mintlintel_place *place);

/* How often each block of the chip of an open device was erased, as mintlintel_durable_block tells it. */
const uint32_t *mtl_durable_erases(const struct mintlintel_durable *device);

/* Tells the CRC-32C of these pages, one behind another, up to another call, by which there may be none: then writes of them don't compute it. */
void mtl_durable_know(struct mintlintel_durable *device, const uint8_t *pages, const uint32_t *checks, size_t count);

/* ---- An image under a block device ---- */

/* mintlintel_image_open, also of an image beside which a block device has listed bad blocks. With `losses` it opens one that has losses too. */
uint32_t mtl_image_open(struct mintlintel_image *image, const char *path, enum mintlintel_image_mode mode, const struct mintlintel_durable_numbers *numbers,
                        uint64_t *losses);

/* The process that calls this has the image from now on, in place of the one that opened it: a server in the background is a child. */
void mtl_image_take_over(struct mintlintel_image *image);

/* Syncs what was done, as a flush does. Beside it only sectors may be looked up and read: 0, or the code that each call returns from then on. */
uint32_t mtl_image_sync(struct mintlintel_image *image);

/* Reads the list of bad blocks that a block device has kept beside an image. `bad` gets a 1 for each of them, if it isn't null; `is_worn` tells whether the
 * device can only be read. 1; 0 if there is no list, or nothing in it; -1 if the file can't be read or isn't one. */
int mtl_bad_blocks(const char *image, uint32_t blocks, uint8_t *bad, int *is_worn);

/* ---- Many pages of an image at once ---- */

/* From now on writes of these pages may return before they have programmed anything, until the caller lets go: so that pages that stand one behind
 * another in a block are written together. What was returned is acknowledged only once it is committed. `checks` is the CRC-32C of each page, if the
 * caller has computed them, or null. */
void mtl_image_keep(struct mintlintel_image *image, const void *pages, const uint32_t *checks, size_t count);

/* Ends that. What waits is done by mtl_image_commit with the ticket that this returns. It may be called beside any other call, and returns once all of
 * this ticket and of those before it is done: 0, or 46, after which each call returns 46. */
uint64_t mtl_image_let_go(struct mintlintel_image *image);
uint32_t mtl_image_commit(struct mintlintel_image *image, uint64_t ticket);

/* Reads so many sectors of an image from one on, at most MTL_MOST_OF_A_RUN, each as mintlintel_reader_read does, with zeros for an empty one: how many of them,
 * from the first on, it could read. Those that stand one behind another in a block are read together. */
enum { MTL_MOST_OF_A_RUN = 64 };
uint32_t mtl_reader_read_run(struct mintlintel_reader *reader, uint32_t sector, uint32_t count, void *out);

#endif
