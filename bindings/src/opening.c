/* How a device is opened, and mounted again: which blocks are in use, in reserve and bad, and what the stamps tell. This file is plain C, and not proved. */
#include "durable.h"
#include "flash.h"
#include "readers.h"

/* How many versions an open reads whole, to tell a device with pages of another size. */
enum { SAMPLES = 8 };
/* Of so many blocks one is in reserve, and at least one of a device, if the sectors leave room for it. */
enum { ONE_RESERVE_IN = 50 };
enum { ALL_FLAGS = MINTLINTEL_DESPITE_LOSSES | MINTLINTEL_TELLS_TORN };

/* ---- The calls that take memory of the core, or free it ---- */

static uint32_t core_open(struct mintlintel_durable *device)
{
    const struct mintlintel_flash *flash = device->flash;
    mtl_core_given = flash->given;
    uint32_t code = mintlintel_core_open_over(&device->core, flash->numbers.blocks, flash->used, flash->numbers.pages, flash->numbers.sectors);
    mtl_core_given = NULL;
    return code;
}

static uint32_t core_finish(struct mintlintel_durable *device)
{
    mtl_core_given = device->flash->given;
    uint32_t code = mintlintel_core_finish(&device->core);
    mtl_core_given = NULL;
    return code;
}

static void core_close(struct mintlintel_durable *device)
{
    mtl_core_given = device->flash ? device->flash->given : NULL;
    mintlintel_core_close(&device->core);
    mtl_core_given = NULL;
}

static void free_flash(struct mintlintel_flash *flash)
{
    struct mtl_given *given = flash ? flash->given : NULL;
    if (!flash)
        return;
    mtl_free_to(given, flash->chip_block);
    mtl_free_to(given, flash->erases);
    mtl_free_to(given, flash->state);
    mtl_free_to(given, flash->has_value);
    mtl_free_to(given, flash->page);
    mtl_free_to(given, flash->moved);
    mtl_free_to(given, flash);
}

static struct mintlintel_flash *make_flash(struct mtl_given *given, const struct mintlintel_nand *nand, const struct mintlintel_durable_numbers *numbers)
{
    struct mintlintel_flash *flash = mtl_take(given, sizeof *flash);
    if (!flash)
        return NULL;
    flash->given = given;
    flash->nand = *nand;
    flash->numbers = *numbers;
    flash->chip_block = mtl_take(given, numbers->blocks * sizeof *flash->chip_block);
    flash->erases = mtl_take(given, numbers->blocks * sizeof *flash->erases);
    flash->state = mtl_take(given, numbers->blocks);
    flash->has_value = mtl_take(given, numbers->sectors / 8 + 1);
    flash->page = mtl_take(given, numbers->page_bytes);
    flash->moved = mtl_take(given, numbers->page_bytes);
    if (flash->chip_block && flash->erases && flash->state && flash->has_value && flash->page && flash->moved)
        return flash;
    free_flash(flash);
    return NULL;
}

/* How many blocks are bad. */
static uint32_t count_bad(const struct mintlintel_flash *flash)
{
    uint32_t bad = 0;
    for (uint32_t block = 0; block < flash->numbers.blocks; block++)
        bad += flash->state[block] >= FAILED;
    return bad;
}

/* How many good blocks are in reserve for those that fail: of those that were planned each bad block has taken one, but one is left while the sectors
 * leave room for it. A chip that marks no block has none. */
uint32_t mtl_count_reserve(const struct mintlintel_flash *flash)
{
    const struct mintlintel_durable_numbers *n = &flash->numbers;
    uint32_t bad = count_bad(flash), needed = n->sectors / n->pages + 2 + bad, planned = n->blocks / ONE_RESERVE_IN + 1;
    uint32_t room = n->blocks > needed ? n->blocks - needed : 0, wanted = planned > bad ? planned - bad : 1;
    return !flash->nand.mark_bad ? 0 : wanted < room ? wanted : room;
}

/* Numbers the blocks: the good ones in the chip's order, of which the last or the first `reserve` come after the others and aren't in use, and then the bad
 * ones. */
static uint32_t number_blocks(struct mintlintel_flash *flash, uint32_t reserve, int is_front)
{
    uint32_t blocks = flash->numbers.blocks, count = 0;
    flash->good = blocks - count_bad(flash);
    flash->used = flash->good - reserve;
    for (uint8_t state = GOOD; state <= FAILED; state++)
        for (uint32_t block = 0, rank = is_front ? 0 : reserve; block < blocks; block++) {
            int is_good = flash->state[block] < FAILED;
            if (is_good)
                flash->state[block] = rank < reserve || rank >= flash->good ? RESERVED : GOOD;
            rank += is_good;
            if ((is_good ? flash->state[block] : FAILED) == state)
                flash->chip_block[count++] = block;
        }
    uint64_t room = flash->used > 1 ? (uint64_t)(flash->used - 1) * flash->numbers.pages : 0;
    return flash->numbers.sectors < room ? MINTLINTEL_DONE : MINTLINTEL_NO_ROOM;
}

/* Numbers all blocks as in use. */
static void number_all(struct mintlintel_flash *flash)
{
    for (uint32_t block = 0; block < flash->numbers.blocks; block++)
        flash->chip_block[block] = block;
    flash->used = flash->good = flash->numbers.blocks;
}

int mtl_keeps_marks(const struct mintlintel_flash *flash)
{
    return flash->nand.is_bad && flash->nand.mark_bad;
}

int mtl_is_read(const struct mintlintel_flash *flash, uint32_t block)
{
    return flash->state[flash->chip_block[block]] <= FAILED;
}

/* Notes the stamps of a block that is read. At an open its erases are those that its newest version with erases tells: the copies in it tell those of
 * other blocks. The trims of an image may be dropped: its pages read the same each time, and a half-erased page of a chip may not. */
static uint32_t note_block(struct mintlintel_durable *device, uint32_t block, struct opening *opening)
{
    struct mintlintel_flash *flash = device->flash;
    uint64_t newest = 0;
    for (uint32_t page = 0; page < flash->numbers.pages; page++) {
        struct stamp stamp = {0, 0, 0, 0, 0};
        int reading = mtl_is_read(flash, block) ? mtl_stamps_reading(flash, block, page, &stamp) : 1;
        if (reading == 3)
            return MINTLINTEL_POWER_GONE;
        if (reading == 0 && !mtl_stamp_is_of(&stamp, flash->numbers.sectors, flash->numbers.blocks))
            return MINTLINTEL_OTHER_DEVICE;
        uint32_t kind = reading != 0 ? 0 : flash->reason && stamp.kind == STAMP_TRIM ? 2 : 1;
        uint32_t code = mintlintel_core_note(&device->core, kind, stamp.sector, stamp.count, stamp.number);
        if (code != MINTLINTEL_DONE)
            return code;
        if (reading != 0)
            continue;
        flash->newest = stamp.number > flash->newest ? stamp.number : flash->newest;
        flash->stranded = block < flash->used ? flash->stranded : 0;
        if (opening)
            opening->has_trace = 1;
        if (opening && !flash->stamps.pages && stamp.number >= newest && !mtl_names(&stamp)) {
            newest = stamp.number;
            flash->erases[flash->chip_block[block]] = stamp.erases;
        }
    }
    return MINTLINTEL_DONE;
}

/* The code of a mount by which no page that was read whole has fitted: reads some newest versions whole. If none of these does, the flash holds pages of
 * another size. So it does if there are none: only the first number may be that of torn pages alone. An image may have dropped its trims. */
static uint32_t sample(struct mintlintel_durable *device, uint32_t code)
{
    struct mintlintel_flash *flash = device->flash;
    struct mintlintel_place at;
    struct stamp stamp;
    int read = 0;
    for (uint32_t sector = 0; sector < flash->numbers.sectors && read < SAMPLES; sector++) {
        if (mintlintel_driver_page(&device->core, sector, &at) != MINTLINTEL_WRITTEN)
            continue;
        int reading = mtl_read_page(flash, at.block, at.page, flash->page, &stamp);
        if (reading == 0)
            return code;
        if (reading == 3)
            return MINTLINTEL_POWER_GONE;
        read++;
    }
    return read == 0 && flash->reason ? code : MINTLINTEL_OTHER_DEVICE;
}

/* Tells the core by how many erases each block is ahead of the least erased one. */
static void tell_erases(struct mintlintel_durable *device)
{
    struct mintlintel_flash *flash = device->flash;
    uint32_t least = UINT32_MAX;
    for (uint32_t block = 0; block < flash->used; block++)
        if (flash->erases[flash->chip_block[block]] < least)
            least = flash->erases[flash->chip_block[block]];
    for (uint32_t block = 0; block < flash->used; block++)
        mintlintel_core_erased(&device->core, block, flash->erases[flash->chip_block[block]] - least);
}

/* The mounted core becomes the driver of the chip. */
static uint32_t drive(struct mintlintel_durable *device)
{
    const struct mintlintel_flash *flash = device->flash;
    mtl_core_given = flash->given;
    uint32_t code = mintlintel_driver_open(&device->core, flash->chip_block, flash->numbers.blocks, flash->good);
    mtl_core_given = NULL;
    return code;
}

/* Mounts the core by these numbers of the blocks. */
static uint32_t mount_core(struct mintlintel_durable *device, struct opening *opening)
{
    struct mintlintel_flash *flash = device->flash;
    core_close(device);
    flash->stranded = flash->numbers.sectors;
    uint32_t code = core_open(device);
    if (code == MINTLINTEL_DONE)
        code = mtl_stamps_read(flash, opening);
    for (uint32_t block = 0; code == MINTLINTEL_DONE && block < flash->numbers.blocks; block++)
        code = note_block(device, block, opening);
    mtl_stamps_free(flash);
    if (code == MINTLINTEL_DONE)
        code = core_finish(device);
    if (code != MINTLINTEL_DONE)
        return code;
    tell_erases(device);
    mintlintel_core_losses(&device->core, &flash->losses);
    code = drive(device);
    if (code == MINTLINTEL_DONE && flash->losses > 0 && !flash->despite_losses)
        code = MINTLINTEL_PAGES_LOST;
    return code == MINTLINTEL_DONE ? mtl_readers_fill(device) : code;
}

/* Mounts without the bad blocks and the reserve. Where no block of the others can be freed, other blocks are the reserve, or none. If a stamp names a block
 * that has failed, the mount begins again without it. */
static uint32_t mount(struct mintlintel_durable *device, struct opening *opening)
{
    struct mintlintel_flash *flash = device->flash;
    uint32_t failed = flash->failed, reserve = mtl_count_reserve(flash), code = MINTLINTEL_NO_BLOCK;
    for (int way = reserve > 0 ? 0 : 2; code == MINTLINTEL_NO_BLOCK && way < 3; way++) {
        code = number_blocks(flash, way < 2 ? reserve : 0, way);
        if (code == MINTLINTEL_DONE)
            code = mount_core(device, opening);
    }
    if (flash->failed > failed && code != MINTLINTEL_POWER_GONE)
        return mount(device, opening);
    return code == MINTLINTEL_NO_BLOCK && count_bad(flash) > 0 ? MINTLINTEL_NO_ROOM : code;
}

/* Mounts without the blocks that have failed: what a failed command leaves is what a power cut leaves inside it, so the core's proof holds. If there is no
 * room without them, the device is only read from now on. */
uint32_t mtl_mount_again(struct mintlintel_durable *device)
{
    struct mintlintel_flash *flash = device->flash;
    uint32_t code = mount(device, NULL);
    if (code == MINTLINTEL_NO_ROOM) {
        number_all(flash);
        flash->worn = MINTLINTEL_EXHAUSTED;
        code = mount_core(device, NULL);
    }
    if (code != MINTLINTEL_DONE)
        flash->stopped = code;
    return code == MINTLINTEL_DONE ? flash->worn : code;
}

/* Asks the chip for its bad blocks, and mounts. */
static uint32_t open_flash(struct mintlintel_durable *device)
{
    struct mintlintel_flash *flash = device->flash;
    struct opening opening = {0, 0};
    for (uint32_t block = 0; flash->nand.is_bad && block < flash->numbers.blocks; block++) {
        int answer = flash->nand.is_bad(flash->nand.chip, block);
        if (answer != 0 && answer != 1)
            return MINTLINTEL_POWER_GONE;
        flash->state[block] = answer ? MARKED : GOOD;
    }
    uint32_t code = mount(device, &opening);
    int is_mounted = code == MINTLINTEL_DONE || (!flash->reason && (code == MINTLINTEL_PAGES_LOST || code == MINTLINTEL_NO_BLOCK));
    return is_mounted && opening.has_trace && !opening.has_fit ? sample(device, code) : code;
}

/* Opens a device that `flags` tell of, in memory that is given or else by the allocator. */
static uint32_t open_in(struct mintlintel_durable *device, const struct mintlintel_nand *nand, const struct mintlintel_durable_numbers *numbers, uint32_t flags,
                        struct mtl_reason *reason, struct mtl_given *given)
{
    device->flash = make_flash(given, nand, numbers);
    if (!device->flash)
        return MINTLINTEL_NO_MEMORY;
    device->flash->reason = reason;
    device->flash->tells_torn = reason || flags & MINTLINTEL_TELLS_TORN;
    device->flash->despite_losses = flags & MINTLINTEL_DESPITE_LOSSES;
    uint32_t code = mtl_stops(device->flash, open_flash(device));
    if (code != MINTLINTEL_DONE)
        mintlintel_durable_close(device);
    return code;
}

uint32_t mtl_durable_open(struct mintlintel_durable *device, const struct mintlintel_nand *nand, const struct mintlintel_durable_numbers *numbers,
                          struct mtl_reason *reason, uint64_t *losses)
{
    uint32_t code = device->flash ? MINTLINTEL_ALREADY_OPEN : mtl_durable_fault(numbers);
    if (code == MINTLINTEL_DONE)
        code = open_in(device, nand, numbers, losses ? MINTLINTEL_DESPITE_LOSSES : 0, reason, NULL);
    if (code == MINTLINTEL_DONE && losses)
        *losses = device->flash->losses;
    return code;
}

uint32_t mintlintel_durable_open(struct mintlintel_durable *device, const struct mintlintel_nand *nand, uint32_t luns, uint32_t blocks,
                                 uint32_t pages, uint32_t page_bytes, uint32_t sectors)
{
    struct mintlintel_durable_numbers numbers = {luns, blocks, pages, page_bytes, sectors};
    return mtl_durable_open(device, nand, &numbers, NULL, NULL);
}

uint32_t mintlintel_durable_open_despite_losses(struct mintlintel_durable *device, const struct mintlintel_nand *nand, uint32_t luns, uint32_t blocks,
                                                uint32_t pages, uint32_t page_bytes, uint32_t sectors, uint64_t *losses)
{
    struct mintlintel_durable_numbers numbers = {luns, blocks, pages, page_bytes, sectors};
    return mtl_durable_open(device, nand, &numbers, NULL, losses);
}

uint32_t mintlintel_durable_open_in(struct mintlintel_durable *device, const struct mintlintel_nand *nand, const struct mintlintel_durable_numbers *numbers,
                                    uint32_t flags, void *memory, size_t bytes)
{
    uint32_t code = device->flash ? MINTLINTEL_ALREADY_OPEN : mtl_durable_fault(numbers);
    if (code == MINTLINTEL_DONE && flags & ~(uint32_t)ALL_FLAGS)
        code = MINTLINTEL_BAD_MODE;
    if (code != MINTLINTEL_DONE)
        return code;
    struct mtl_given *given = mtl_given_from(memory, bytes, mtl_durable_bytes(numbers, flags & MINTLINTEL_TELLS_TORN));
    return given ? open_in(device, nand, numbers, flags, NULL, given) : MINTLINTEL_NO_MEMORY;
}

uint64_t mintlintel_durable_bytes(const struct mintlintel_durable_numbers *numbers, uint32_t flags)
{
    return mtl_durable_fault(numbers) != MINTLINTEL_DONE || flags & ~(uint32_t)ALL_FLAGS ? 0 : mtl_durable_bytes(numbers, flags & MINTLINTEL_TELLS_TORN);
}

void mintlintel_durable_close(struct mintlintel_durable *device)
{
    if (device->flash)
        mtl_readers_leave(device->flash, MINTLINTEL_CLOSED);
    core_close(device);
    free_flash(device->flash);
    device->flash = NULL;
}
