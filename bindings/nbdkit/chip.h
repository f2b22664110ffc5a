// The chip of an image's disk, between the layer's commands and the image's file. Its commands take a part's time, and fail by a rate.
//
// A program that fails leaves a page that can't be read; from then on each program and erase of its block fails. The layer goes on without the block,
// and marks it bad when nothing in it is needed any more. Its number is then kept in a file beside the image, and the block isn't used again. So is a
// word that too few blocks are good: then the layer is shown all blocks, of which it only reads.
//
// The layer keeps few blocks in reserve, which a high rate of failures may use up at once. So if commands may fail, half of the blocks that the
// sectors don't need are hidden from it; it gets one, and is mounted again, whenever it has no block left.
//
// The library mounts an image by a call that is linked to the one here. All of this is used under the image's lock.
#ifndef NBDKIT_CHIP_H
#define NBDKIT_CHIP_H

#include <flash.h>
#include <mintlintel_image.h>
#include <stdint.h>

#include "luns.h"
#include "options.h"

// What has happened to the chip's blocks.
struct chip_counts {
    struct mintlintel_totals before; // what the layer did before its last mount here
    uint64_t failed_programs, failed_erases;
    uint32_t bad_blocks, factory_bad_blocks, reserve_blocks;
};

struct chip {
    const struct options *options;
    struct mintlintel_nand nand; // of the image's file
    struct mintlintel_durable_numbers numbers;
    struct mtl_reason *reason; // why the file refuses each call
    uint64_t *losses; // of whoever opens the device despite them
    uint8_t *blocks;
    struct luns luns;
    uint64_t random;
    uint64_t end; // of the last command
    int is_untimed; // reads take no time
    int has_looked; // the last command was a read of a stamp of this block, whose time isn't taken yet
    uint32_t looked_at;
    int has_collected; // since the last request, or page of one, has begun
    int is_worn;
    char *file; // with the numbers of the blocks that have become bad
    struct chip_counts counts;
};

// Before an image is opened: 0, or -1 with an error reported. The next one to be opened has this chip.
int chip_begin(struct chip *chip, const struct options *options);
void chip_end(struct chip *chip);

// From now on commands take time.
void chip_start(struct chip *chip);

// A request, or a page of one, begins with a command that can't begin before `from`; chip_done says when its last command ends.
void chip_ask(struct chip *chip, uint64_t from);
uint64_t chip_done(struct chip *chip);

// Whether the layer has copied a page or erased a block for it.
int chip_has_collected(const struct chip *chip);

// What comes next takes no time, up to the next request.
void chip_look(struct chip *chip);

// Mounts with a hidden block more, if there is one, after the layer has had no block left: 1 if the call can be made once more.
int chip_mount_again(struct chip *chip, struct mintlintel_durable *device);

// The blocks that the sectors don't need, without so many bad ones.
uint32_t chip_spare(const struct chip *chip, uint32_t bad_blocks);

// Too few blocks are good: the disk can be read, and not be changed any more. This is so after the next start too.
void chip_wear_out(struct chip *chip);
int chip_is_worn(const struct chip *chip);

#endif
