/* What the device tells its readers: readers.c. Plain C, and not proved. */
#ifndef READERS_H
#define READERS_H

#include "mintlintel_reader.h"
#include "stamp.h"

/* What has come to a page: a version that is new, or a copy. */
enum told { TOLD_NEW, TOLD_COPY };

#if __STDC_HOSTED__
/* Tells of a page of the chip that was programmed with this stamp: after the program, and before anything is erased. The first is for a device, and an
 * image tells by the second, once a page is in its file. */
void mtl_readers_tell(struct mintlintel_flash *flash, enum told what, const struct stamp *stamp, uint32_t chip_block, uint32_t page);
void mtl_readers_told(struct mintlintel_readers *readers, enum told what, const struct stamp *stamp, uint32_t chip_block, uint32_t page);

/* Tells where each sector's version is, after a mount: 0, 28, or why an image refuses each call. */
uint32_t mtl_readers_fill(struct mintlintel_durable *device);

/* No reader answers from now on: each read returns this code. */
void mtl_readers_leave(struct mintlintel_flash *flash, uint32_t code);
#else
/* Firmware has no readers. */
#define mtl_readers_tell(flash, what, stamp, chip_block, page) ((void)(stamp))
#define mtl_readers_fill(device) MINTLINTEL_DONE
#define mtl_readers_leave(flash, code) ((void)(flash))
#endif

#endif
