#define _GNU_SOURCE
#define NBDKIT_API_VERSION 2
#include "chip.h"

#include <errno.h>
#include <inttypes.h>
#include <nbdkit-plugin.h>
#include <stdio.h>
#include <stdlib.h>
#include <string.h>
#include <unistd.h>

#include "luns.h"
#include "power.h"
#include "random.h"

enum { DONE = 0, FAILED = 1, UNREADABLE = 2 }; // what the chip answers

// A block: it works; its programs and erases fail from now on; it must not be used; it works, and is hidden from the layer.
enum block { GOOD, FAILING, BAD, RESERVED };

// The line of the file of bad blocks that says that too few are good.
static const char WORN[] = "worn";

// The chip of the image that is being opened. One thread opens all of them.
static struct chip *opening;

uint32_t __real_mtl_durable_open(struct mintlintel_durable *device, const struct mintlintel_nand *nand, const struct mintlintel_durable_numbers *numbers,
                                 struct mtl_reason *reason, uint64_t *losses);
uint32_t __wrap_mtl_durable_open(struct mintlintel_durable *device, const struct mintlintel_nand *nand, const struct mintlintel_durable_numbers *numbers,
                                 struct mtl_reason *reason, uint64_t *losses);

static int may_fail(const struct chip *chip) {
    return chip->options->fail_programs > 0 || chip->options->fail_erases > 0;
}

// ---- The commands. The layer mounts after one that failed, and after it has marked blocks, and then only reads up to its next command: that takes no
// time, as all mounts.

// Whether a command fails: by the rate, or since its block fails.
static int fails(struct chip *chip, uint32_t block, double rate) {
    if (rate > 0 && (double) (next_number(&chip->random) >> 11) / (1ull << 53) < rate)
        chip->blocks[block] = FAILING;
    return chip->blocks[block] == FAILING;
}

// Leaves a page that can't be read: no stamp is all ones.
static int fail_program(struct chip *chip, uint32_t block, uint32_t page, const void *main) {
    uint8_t stamp[MINTLINTEL_STAMP_BYTES];
    memset(stamp, 0xff, sizeof stamp);
    chip->counts.failed_programs++;
    chip->is_untimed = 1;
    int answer = chip->nand.program(chip->nand.chip, block, page, main, stamp);
    return answer == DONE ? FAILED : answer;
}

// A copyback reads its page's stamp by itself, so a stamp takes its time once something else comes.
static void end_look(struct chip *chip) {
    if (chip->has_looked)
        chip->end = luns_read(&chip->luns, chip->looked_at, chip->end);
    chip->has_looked = 0;
}

// Nothing in a block was needed when it was marked, and since then the layer may have dropped the trims that are newer than its pages. A worn chip shows
// the layer such blocks too, so none of their pages is given.
static int chip_read(void *at, uint32_t block, uint32_t page, void *main, void *stamp) {
    struct chip *chip = at;
    end_look(chip);
    chip->has_looked = !chip->is_untimed && !main;
    chip->looked_at = block;
    if (!chip->is_untimed && main)
        chip->end = luns_read(&chip->luns, block, chip->end);
    return chip->blocks[block] == BAD ? UNREADABLE : chip->nand.read(chip->nand.chip, block, page, main, stamp);
}

static int chip_program(void *at, uint32_t block, uint32_t page, const void *main, const void *stamp) {
    struct chip *chip = at;
    end_look(chip);
    chip->is_untimed = 0;
    chip->end = luns_program(&chip->luns, block, chip->end);
    announce_given();
    int answer = fails(chip, block, chip->options->fail_programs) ? fail_program(chip, block, page, main)
                                                                  : chip->nand.program(chip->nand.chip, block, page, main, stamp);
    announce_had_back();
    return answer;
}

static int chip_copyback(void *at, uint32_t from_block, uint32_t from_page, uint32_t block, uint32_t page, const void *stamp) {
    static const uint8_t nothing[MAX_PAGE_BYTES];
    struct chip *chip = at;
    chip->is_untimed = chip->has_looked = 0;
    chip->has_collected = 1;
    chip->end = luns_copy(&chip->luns, from_block, block, chip->end);
    return fails(chip, block, chip->options->fail_programs) ? fail_program(chip, block, page, nothing)
                                                            : chip->nand.copyback(chip->nand.chip, from_block, from_page, block, page, stamp);
}

static int chip_erase(void *at, uint32_t block) {
    struct chip *chip = at;
    end_look(chip);
    chip->is_untimed = 0;
    chip->has_collected = 1;
    chip->end = luns_erase(&chip->luns, block, chip->end);
    if (!fails(chip, block, chip->options->fail_erases))
        return chip->nand.erase(chip->nand.chip, block);
    chip->counts.failed_erases++;
    chip->is_untimed = 1;
    return FAILED;
}

static int chip_is_bad(void *at, uint32_t block) {
    struct chip *chip = at;
    return !chip->is_worn && (chip->blocks[block] == BAD || chip->blocks[block] == RESERVED);
}

static int chip_sync(void *at) {
    struct chip *chip = at;
    return chip->nand.sync(chip->nand.chip);
}

// ---- Bad blocks.

static void set_bad(struct chip *chip, uint32_t block) {
    chip->counts.bad_blocks += chip->blocks[block] != BAD;
    chip->blocks[block] = BAD;
}

// Adds a line to the file. If that fails, its `what` isn't known after the server's next start.
static void keep_line(const struct chip *chip, const char *line, const char *what) {
    FILE *file = fopen(chip->file, "ae");
    int has_failed = !file || fprintf(file, "%s\n", line) < 0;
    if (file)
        has_failed |= fclose(file) != 0;
    if (has_failed)
        nbdkit_error("%s: %s: %s %s, which will be forgotten", chip->file, strerror(errno), what, line);
}

// The image is synced first: a power cut may bring a block back to what it had at the last flush, and one that is marked isn't read.
static int chip_mark_bad(void *at, uint32_t block) {
    struct chip *chip = at;
    char number[sizeof "4294967295"];
    int answer = chip->nand.sync(chip->nand.chip);
    if (answer != DONE)
        return answer;
    set_bad(chip, block);
    chip->is_untimed = 1;
    snprintf(number, sizeof number, "%" PRIu32, block);
    keep_line(chip, number, "a bad block:");
    return DONE;
}

// What earlier servers have kept.
static int read_lines(struct chip *chip) {
    uint8_t *bad = calloc(chip->numbers.blocks, 1);
    int found = bad ? mtl_bad_blocks(chip->options->image, chip->numbers.blocks, bad, &chip->is_worn) : -1;
    for (uint32_t block = 0; found == 1 && block < chip->numbers.blocks; block++)
        if (bad[block])
            set_bad(chip, block);
    free(bad);
    if (found == -1)
        nbdkit_error("%s: it can't be read, or it isn't a list of blocks, one a line", chip->file);
    return found == -1 ? -1 : 0;
}

static int is_erased(const struct chip *chip, uint32_t block) {
    uint8_t stamp[MINTLINTEL_STAMP_BYTES];
    for (uint32_t page = 0; page < chip->numbers.pages; page++)
        if (chip->nand.read(chip->nand.chip, block, page, NULL, stamp) != 1)
            return 0;
    return 1;
}

// The blocks that are bad from the factory: they have never been used.
static int take_bad_blocks(struct chip *chip) {
    const struct numbers *bad = &chip->options->bad;
    if (bad->count > 0 && numbers_most(bad) >= chip->numbers.blocks) {
        nbdkit_error("bad=%" PRIu32 ": the chip has the blocks 0 to %" PRIu32, numbers_most(bad), chip->numbers.blocks - 1);
        return -1;
    }
    for (uint32_t block = 0; block < chip->numbers.blocks; block++) {
        chip->counts.factory_bad_blocks += (uint32_t) numbers_have(bad, block);
        if (chip->blocks[block] == BAD || !numbers_have(bad, block))
            continue;
        if (!is_erased(chip, block)) {
            nbdkit_error("bad=%" PRIu32 ": the block has pages of the disk: give the same blocks from the image's first start on", block);
            return -1;
        }
        set_bad(chip, block);
    }
    return 0;
}

uint32_t chip_spare(const struct chip *chip, uint32_t bad_blocks) {
    uint32_t good = chip->numbers.blocks - bad_blocks, needed = chip->numbers.sectors / chip->numbers.pages + 2;
    return good > needed ? good - needed : 0;
}

// Hides half of the blocks that the sectors don't need, of those that are erased.
static void keep_reserve(struct chip *chip) {
    uint32_t wanted = may_fail(chip) ? chip_spare(chip, chip->counts.bad_blocks) / 2 : 0;
    for (uint32_t block = chip->numbers.blocks; block-- > 0 && chip->counts.reserve_blocks < wanted;) {
        if (chip->blocks[block] != GOOD || !is_erased(chip, block))
            continue;
        chip->blocks[block] = RESERVED;
        chip->counts.reserve_blocks++;
    }
}

// Lets the layer have a hidden block. 0 if there is none.
static int take_from_reserve(struct chip *chip) {
    for (uint32_t block = 0; block < chip->numbers.blocks; block++) {
        if (chip->blocks[block] != RESERVED)
            continue;
        chip->blocks[block] = GOOD;
        chip->counts.reserve_blocks--;
        return 1;
    }
    return 0;
}

// ---- Mounts.

static uint32_t mount(struct chip *chip, struct mintlintel_durable *device) {
    struct mintlintel_nand nand = chip->nand;
    nand.chip = chip;
    nand.read = chip_read;
    nand.program = chip_program;
    nand.copyback = chip_copyback;
    nand.erase = chip_erase;
    nand.sync = chip_sync;
    nand.is_bad = chip_is_bad;
    nand.mark_bad = may_fail(chip) && !chip->is_worn ? chip_mark_bad : NULL; // with it the layer keeps blocks in reserve
    chip->is_untimed = 1;
    return __real_mtl_durable_open(device, &nand, &chip->numbers, chip->reason, chip->losses);
}

// Mounts with a hidden block more each time that there are too few, and in the end with all blocks, to read only.
static uint32_t mount_somehow(struct chip *chip, struct mintlintel_durable *device) {
    uint32_t code;
    do
        code = mount(chip, device);
    while (code == MINTLINTEL_NO_ROOM && take_from_reserve(chip));
    if (code != MINTLINTEL_NO_ROOM)
        return code;
    chip->is_worn = 1;
    return mount(chip, device);
}

uint32_t __wrap_mtl_durable_open(struct mintlintel_durable *device, const struct mintlintel_nand *nand, const struct mintlintel_durable_numbers *numbers,
                                 struct mtl_reason *reason, uint64_t *losses) {
    struct chip *chip = opening;
    chip->nand = *nand;
    chip->numbers = *numbers;
    chip->reason = reason;
    chip->losses = losses;
    chip->blocks = calloc(numbers->blocks, sizeof *chip->blocks);
    if (!chip->blocks)
        return MINTLINTEL_NO_MEMORY;
    luns_begin(&chip->luns, &chip->options->part, numbers->luns, numbers->blocks);
    if (read_lines(chip) == -1 || take_bad_blocks(chip) == -1)
        return MINTLINTEL_NO_SUCH_BLOCK;
    keep_reserve(chip);
    return mount_somehow(chip, device);
}

int chip_mount_again(struct chip *chip, struct mintlintel_durable *device) {
    struct mintlintel_totals totals = {0}, *before = &chip->counts.before;
    if (chip->is_worn || !take_from_reserve(chip))
        return 0;
    mintlintel_durable_counts(device, &totals); // which begin with each open
    before->programs += totals.programs;
    before->copies += totals.copies;
    before->erases += totals.erases;
    mintlintel_durable_close(device);
    return mount_somehow(chip, device) == MINTLINTEL_DONE && !chip->is_worn;
}

void chip_wear_out(struct chip *chip) {
    if (!chip->is_worn)
        keep_line(chip, WORN, "the disk is");
    chip->is_worn = 1;
}

int chip_is_worn(const struct chip *chip) {
    return chip->is_worn;
}

// ---- Beginning and end.

int chip_begin(struct chip *chip, const struct options *options) {
    memset(chip, 0, sizeof *chip);
    opening = chip;
    chip->options = options;
    chip->random = options->seed;
    if (asprintf(&chip->file, "%s.bad", options->image) == -1) {
        chip->file = NULL;
        nbdkit_error("there is no memory for the name of a file");
        return -1;
    }
    if (access(options->image, F_OK) == -1 && errno == ENOENT)
        unlink(chip->file); // of an image that was here before
    return 0;
}

void chip_end(struct chip *chip) {
    if (chip->blocks)
        luns_end(&chip->luns);
    free(chip->blocks);
    free(chip->file);
    memset(chip, 0, sizeof *chip);
}

void chip_start(struct chip *chip) {
    luns_time(&chip->luns);
}

void chip_ask(struct chip *chip, uint64_t from) {
    chip->end = from;
    chip->is_untimed = chip->has_looked = 0;
    chip->has_collected = 0;
}

void chip_look(struct chip *chip) {
    chip->is_untimed = 1;
}

uint64_t chip_done(struct chip *chip) {
    end_look(chip);
    return chip->end;
}

int chip_has_collected(const struct chip *chip) {
    return chip->has_collected;
}
