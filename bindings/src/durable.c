/* A device that survives power cuts: it performs the steps of the proved driver by the caller's functions. This file is plain C, and not proved. */
#include "durable.h"
#include "crc.h"
#include "flash.h"
#include "readers.h"
#include <string.h>

/* The kinds of steps, and the answers of the chip's functions. */
enum { ENDED, PROGRAM, COPY, ERASE, READ, MARK };
enum { WORKED = 0, BROKE = 1, POWER_OFF = 3 };
/* What a step programs: the caller's bytes, those of a page that was read, none of a trim, or none since they are lost. */
enum { CALLERS = 1, OF_PAGE, TRIMMED, LOST };
/* At how many sectors a call looks for one that has to move out of the reserve. */
enum { LOOKED_AT = 4096 };
/* How many sectors one page may trim: a mount notes each of them. */
enum { MOST_TRIMMED = 4096 };

/* A new version of some sectors: its kind, and the bytes of a value. */
struct update { uint32_t kind, first, count; const uint8_t *bytes; };

int mtl_read_page(struct mintlintel_flash *flash, uint32_t block, uint32_t page, void *main, struct stamp *stamp)
{
    uint8_t bytes[MINTLINTEL_STAMP_BYTES];
    int answer = flash->nand.read(flash->nand.chip, block, page, main, bytes);
    if (answer != 0)
        return answer == 1 || answer == 2 ? answer : 3;
    if (!mintlintel_stamp_fits(bytes, main, flash->numbers.page_bytes))
        return 2;
    *stamp = mtl_stamp_from(bytes);
    return 0;
}

/* The CRC-32C of a page, which may be known. */
static uint32_t crc_of(const struct mintlintel_flash *flash, const uint8_t *page)
{
    size_t bytes = flash->numbers.page_bytes, at = flash->known && page >= flash->known ? (size_t)(page - flash->known) : SIZE_MAX;
    return at / bytes < flash->known_pages && at % bytes == 0 ? flash->checks[at / bytes] : mtl_crc(0, page, bytes);
}

/* Notes whether the newest page of these sectors has a value. */
static void note_values(struct mintlintel_flash *flash, uint32_t first, uint32_t count, int has_value)
{
    for (uint32_t sector = first; sector < first + count; sector++) {
        uint8_t bit = (uint8_t)(1u << sector % 8), *bits = &flash->has_value[sector / 8];
        *bits = has_value ? *bits | bit : *bits & (uint8_t)~bit;
    }
}

/* Whether a block has failed and isn't marked. */
static int is_failed(const struct mintlintel_flash *flash, uint32_t block)
{
    return flash->state[block] == FAILED || flash->state[block] == BROKEN;
}

/* What a page tells in place of these erases while blocks have failed and aren't marked: one of them, in turn. A copy keeps the name of one. */
static uint32_t erases_or_failed(struct mintlintel_flash *flash, uint32_t erases)
{
    uint32_t block = flash->turn, named = erases & STAMP_MOST_ERASES;
    if (flash->failed == 0 || !mtl_keeps_marks(flash) || (erases != named && named < flash->numbers.blocks && is_failed(flash, named)))
        return erases;
    while (!is_failed(flash, block))
        block = (block + 1) % flash->numbers.blocks;
    flash->turn = (block + 1) % flash->numbers.blocks;
    return (flash->state[block] == FAILED ? STAMP_FAILED : STAMP_BROKEN) | block;
}

/* Programs the page of a step with a version of this kind and number. What is no value is a page of zeros. */
static int program_page(struct mintlintel_flash *flash, const struct mintlintel_step *step, uint32_t kind, uint64_t number, const uint8_t *bytes)
{
    struct stamp stamp = {kind, number, step->first, step->count, erases_or_failed(flash, flash->erases[step->block])};
    uint8_t made[MINTLINTEL_STAMP_BYTES];
    if (!bytes)
        memset(flash->page, 0, flash->numbers.page_bytes);
    const uint8_t *page = bytes ? bytes : flash->page;
    mtl_stamp_into(made, &stamp, crc_of(flash, page));
    return flash->nand.program(flash->nand.chip, step->block, step->page, page, made);
}

/* A page of other sectors than those that move, as a faulty chip may give, tells nothing of them. */
static int program(struct mintlintel_flash *flash, const struct mintlintel_step *step, const struct update *update)
{
    uint32_t kind = step->value == TRIMMED ? STAMP_TRIM : step->value == CALLERS ? update->kind
        : step->value == OF_PAGE && mtl_covers(&flash->found, step->first) ? flash->found.kind : STAMP_LOST;
    const uint8_t *bytes = kind != STAMP_VALUE ? NULL : step->value == CALLERS ? update->bytes : flash->moved;
    note_values(flash, step->first, step->count, 0);
    flash->newest = step->number;
    int answer = program_page(flash, step, kind, step->number, bytes);
    if (answer == WORKED) {
        struct stamp new = {kind, step->number, step->first, step->count, 0};
        mtl_readers_tell(flash, TOLD_NEW, &new, step->block, step->page);
        note_values(flash, step->first, step->count, kind == STAMP_VALUE);
    }
    flash->totals.programs += answer == WORKED;
    return answer;
}

/* A copy keeps its stamp with its check, but for a name. A copyback is given the stamp alone, and the page isn't read. In place of a page that can't be read
 * its sector gets a version that is lost, by the greatest number so far: each older version of the sector has a smaller one, and the next update a
 * greater one. */
static int copy(struct mintlintel_flash *flash, const struct mintlintel_step *step)
{
    const struct mintlintel_nand *nand = &flash->nand;
    int is_copyback = nand->copyback && flash->failed == 0;
    uint8_t stamp[MINTLINTEL_STAMP_BYTES], *page = is_copyback ? NULL : flash->page;
    int answer = nand->read(nand->chip, step->from_block, step->from_page, page, stamp);
    if (answer < 0 || answer > 2)
        return POWER_OFF;
    if (answer != 0 || !mintlintel_stamp_fits(stamp, page, flash->numbers.page_bytes))
        answer = program_page(flash, step, STAMP_LOST, flash->newest, NULL);
    else {
        struct stamp copied = mtl_stamp_from(stamp);
        if (flash->failed > 0) {
            copied.erases = erases_or_failed(flash, copied.erases);
            mtl_stamp_into(stamp, &copied, crc_of(flash, page));
        }
        answer = is_copyback ? nand->copyback(nand->chip, step->from_block, step->from_page, step->block, step->page, stamp)
                             : nand->program(nand->chip, step->block, step->page, page, stamp);
        if (answer == WORKED)
            mtl_readers_tell(flash, TOLD_COPY, &copied, step->block, step->page);
    }
    flash->totals.copies += answer == WORKED;
    return answer;
}

static int erase(struct mintlintel_flash *flash, uint32_t block)
{
    int answer = flash->nand.erase(flash->nand.chip, block);
    flash->erases[block] += answer == WORKED && flash->erases[block] < STAMP_MOST_ERASES;
    flash->totals.erases += answer == WORKED;
    return answer;
}

/* Marks a block that has failed, since nothing in it is needed any more. */
static int mark(struct mintlintel_flash *flash, uint32_t block)
{
    flash->state[block] = MARKED;
    flash->failed--;
    flash->has_marked = 1;
    return flash->nand.mark_bad && flash->nand.mark_bad(flash->nand.chip, block) != 0 ? POWER_OFF : WORKED;
}

/* Reads a page for the driver. That of a program which has failed is looked at; another one is kept, since its sectors move. */
static int tell(struct mintlintel_durable *device, struct mintlintel_step *step, int is_looked_at)
{
    struct mintlintel_flash *flash = device->flash;
    struct stamp looked = {0, 0, 0, 0, 0}, *found = is_looked_at ? &looked : &flash->found;
    int reading = mtl_read_page(flash, step->block, step->page, is_looked_at ? flash->page : flash->moved, found);
    if (reading == 3)
        return POWER_OFF;
    if (is_looked_at && reading == 0)
        mtl_readers_tell(flash, TOLD_NEW, found, step->block, step->page);
    uint32_t has_version = reading != 0 ? 0 : found->kind == STAMP_TRIM ? 2 : 1;
    mintlintel_driver_found(&device->core, has_version, found->sector, found->count, found->number, step);
    return WORKED;
}

/* After these codes memory and flash may differ, so that only an open helps. */
uint32_t mtl_stops(struct mintlintel_flash *flash, uint32_t code)
{
    uint32_t reason = flash->reason ? flash->reason->of(flash->reason) : MINTLINTEL_DONE;
    if (code == MINTLINTEL_POWER_GONE && reason)
        code = reason;
    else if (code != MINTLINTEL_POWER_GONE && code != MINTLINTEL_FAILED)
        return code;
    flash->stopped = code;
    return code;
}

/* Performs a step, and tells the driver how it has ended, which says the next one. The answer of the last step was this. */
static int perform(struct mintlintel_durable *device, struct mintlintel_step *step, const struct update *update, int last)
{
    struct mintlintel_flash *flash = device->flash;
    uint32_t kind = step->kind;
    int answer = kind == PROGRAM ? program(flash, step, update) : kind == COPY ? copy(flash, step) : kind == ERASE ? erase(flash, step->block)
        : kind == MARK ? mark(flash, step->block) : tell(device, step, last == BROKE);
    if (kind < READ)
        flash->state[step->block] = answer != BROKE ? GOOD : kind == ERASE ? BROKEN : FAILED;
    flash->failed += kind < READ && answer == BROKE;
    if (answer != WORKED && answer != BROKE)
        mtl_stops(flash, MINTLINTEL_POWER_GONE);
    if (kind != READ || answer != WORKED)
        mintlintel_driver_done(&device->core, (uint32_t)answer, step);
    return answer;
}

/* Gives sectors a new version: 0, 27 if a block has failed and none is in reserve, or why each call is refused. */
static uint32_t run(struct mintlintel_durable *device, struct update update)
{
    struct mintlintel_flash *flash = device->flash;
    struct mintlintel_step step;
    uint32_t code = mintlintel_driver_begin(&device->core, update.first, update.count, update.kind == STAMP_TRIM, &step);
    for (int answer = WORKED; code == MINTLINTEL_DONE && step.kind != ENDED; answer = perform(device, &step, &update, answer))
        if (step.kind == PROGRAM && step.number >= STAMP_MOST_NUMBER)
            return flash->worn = MINTLINTEL_NO_NUMBER;
    if (code == MINTLINTEL_DONE)
        code = mintlintel_driver_result(&device->core);
    return code == MINTLINTEL_POWER_GONE ? flash->stopped : code;
}

/* ---- Calls ---- */

/* The code that every call of this handle returns, or 0. */
static uint32_t refusal(const struct mintlintel_durable *device)
{
    const struct mintlintel_flash *flash = device->flash;
    uint32_t code = !flash ? MINTLINTEL_CLOSED : flash->stopped;
    return code == MINTLINTEL_DONE && flash->reason ? flash->reason->of(flash->reason) : code;
}

/* The same, and whether the device has the sector and the buffer is a page. */
static uint32_t refusal_of(const struct mintlintel_durable *device, uint32_t sector, size_t bytes)
{
    uint32_t code = refusal(device);
    if (code != MINTLINTEL_DONE)
        return code;
    if (sector >= device->flash->numbers.sectors)
        return MINTLINTEL_NO_SECTOR;
    return bytes == device->flash->numbers.page_bytes ? MINTLINTEL_DONE : MINTLINTEL_NOT_A_PAGE;
}

/* Whether a sector is written: 1 or 0, or 28, or why each call is refused. A page that can't be read had something. */
static uint32_t was(struct mintlintel_durable *device, uint32_t sector)
{
    struct mintlintel_place at;
    struct stamp stamp;
    if (device->flash->stopped)
        return device->flash->stopped;
    if (device->flash->has_value[sector / 8] >> sector % 8 & 1)
        return MINTLINTEL_WRITTEN;
    if (mintlintel_driver_page(&device->core, sector, &at) != MINTLINTEL_WRITTEN)
        return MINTLINTEL_EMPTY;
    int reading = mtl_read_page(device->flash, at.block, at.page, NULL, &stamp);
    if (reading == 3)
        return mtl_stops(device->flash, MINTLINTEL_POWER_GONE);
    note_values(device->flash, sector, 1, reading == 0 && stamp.kind == STAMP_VALUE);
    return reading != 0 || stamp.kind != STAMP_TRIM ? MINTLINTEL_WRITTEN : MINTLINTEL_EMPTY;
}

/* How many sectors from this one on have this page. */
static uint32_t count_at(struct mintlintel_durable *device, uint32_t first, struct mintlintel_place place)
{
    struct mintlintel_place at;
    uint32_t sector = first;
    while (sector < device->flash->numbers.sectors && mintlintel_driver_page(&device->core, sector, &at) == MINTLINTEL_WRITTEN
           && at.block == place.block && at.page == place.page)
        sector++;
    return sector - first;
}

/* Moves a sector, with those after it that have the same page. Those whose page can't be read are lost from now on. */
static uint32_t move(struct mintlintel_durable *device, uint32_t sector, struct mintlintel_place at)
{
    struct mintlintel_flash *flash = device->flash;
    struct stamp stamp;
    int reading = mtl_read_page(flash, at.block, at.page, flash->moved, &stamp);
    if (reading == 3)
        return mtl_stops(flash, MINTLINTEL_POWER_GONE);
    struct update moved = {reading == 0 && mtl_covers(&stamp, sector) ? stamp.kind : STAMP_LOST, sector, count_at(device, sector, at), NULL};
    moved.bytes = moved.kind == STAMP_VALUE ? flash->moved : NULL;
    flash->stranded = sector + moved.count;
    uint32_t code = run(device, moved);
    flash->stranded = code == MINTLINTEL_DONE ? flash->stranded : 0;
    return code;
}

/* Moves the next sector, among so many, whose page is in the reserve of a mount; while blocks have failed, in one of them. */
static uint32_t move_next(struct mintlintel_durable *device, uint32_t most)
{
    struct mintlintel_flash *flash = device->flash;
    struct mintlintel_place at;
    for (uint32_t looked = 0; flash->stranded < flash->numbers.sectors && looked < most; looked++) {
        uint32_t sector = flash->stranded++;
        if (mintlintel_driver_page(&device->core, sector, &at) == MINTLINTEL_WRITTEN && flash->state[at.block] >= (flash->failed ? FAILED : RESERVED))
            return move(device, sector, at);
    }
    return MINTLINTEL_DONE;
}

/* Moves what blocks hold that had failed before the mount, so many, and marks them, unless another one has failed that the driver can't replace. */
static void give_up_failed(struct mintlintel_durable *device, uint32_t failed)
{
    struct mintlintel_flash *flash = device->flash;
    uint32_t code = MINTLINTEL_DONE;
    while (code == MINTLINTEL_DONE && flash->failed == failed && flash->stranded < flash->numbers.sectors)
        code = move_next(device, flash->numbers.sectors);
    for (uint32_t block = 0; code == MINTLINTEL_DONE && flash->failed == failed && block < flash->numbers.blocks; block++)
        if (is_failed(flash, block))
            code = mark(flash, block) == WORKED ? MINTLINTEL_DONE : mtl_stops(flash, MINTLINTEL_POWER_GONE), failed--;
    flash->stranded = 0;
}

/* Whether the driver has failed blocks that it couldn't mark, or a reserve that can be set aside anew once they are marked. */
static int lacks_reserve(struct mintlintel_durable *device)
{
    struct mintlintel_flash *flash = device->flash;
    uint32_t reserve = 0;
    if ((flash->failed == 0 && !flash->has_marked) || flash->stopped || flash->worn)
        return 0;
    if (flash->failed > 0)
        return 1;
    flash->has_marked = 0;
    mintlintel_driver_reserve(&device->core, &reserve);
    return reserve == 0 && mtl_count_reserve(flash) > 0;
}

/* Does what the driver can't do without a block in reserve, after another mount. The call had this code. */
static uint32_t go_on(struct mintlintel_durable *device, struct update new, uint32_t code)
{
    uint32_t failed = device->flash->failed, mounted = mtl_mount_again(device);
    if (code == MINTLINTEL_EXHAUSTED)
        code = mounted == MINTLINTEL_DONE ? run(device, new) : mounted;
    if (mounted == MINTLINTEL_DONE && code == MINTLINTEL_DONE && failed > 0)
        give_up_failed(device, failed);
    return code;
}

/* Gives sectors a new version for a caller, and moves one out of the reserve, if it has any. */
static uint32_t change(struct mintlintel_durable *device, struct update new)
{
    uint32_t code = device->flash->worn;
    if (code == MINTLINTEL_DONE && device->flash->failed > 0)
        give_up_failed(device, device->flash->failed);
    if (code == MINTLINTEL_DONE)
        code = device->flash->stopped ? device->flash->stopped : run(device, new);
    while (lacks_reserve(device))
        code = go_on(device, new, code);
    if (!device->flash->stopped && !device->flash->worn)
        move_next(device, LOOKED_AT);
    while (lacks_reserve(device))
        go_on(device, new, MINTLINTEL_DONE);
    return code;
}

void mtl_durable_know(struct mintlintel_durable *device, const uint8_t *pages, const uint32_t *checks, size_t count)
{
    if (!device->flash)
        return;
    device->flash->known = pages;
    device->flash->checks = checks;
    device->flash->known_pages = count;
}

uint32_t mtl_durable_find(struct mintlintel_durable *device, uint32_t sector, struct mintlintel_place *place)
{
    const struct mintlintel_flash *flash = device->flash;
    uint32_t code = !flash ? MINTLINTEL_CLOSED : flash->stopped ? flash->stopped : sector < flash->numbers.sectors ? MINTLINTEL_DONE : MINTLINTEL_NO_SECTOR;
    if (code != MINTLINTEL_DONE)
        return code;
    return mintlintel_driver_page(&device->core, sector, place);
}

uint32_t mintlintel_durable_read(struct mintlintel_durable *device, uint32_t sector, void *out, size_t bytes)
{
    struct mintlintel_place at;
    struct stamp stamp;
    uint32_t code = refusal_of(device, sector, bytes);
    if (code != MINTLINTEL_DONE)
        return code;
    if (mintlintel_driver_page(&device->core, sector, &at) != MINTLINTEL_WRITTEN)
        return MINTLINTEL_EMPTY;
    int reading = mtl_read_page(device->flash, at.block, at.page, device->flash->page, &stamp);
    if (reading == 3)
        return mtl_stops(device->flash, MINTLINTEL_POWER_GONE);
    if (reading != 0 || !mtl_covers(&stamp, sector))
        return MINTLINTEL_UNREADABLE;
    if (stamp.kind != STAMP_VALUE)
        return stamp.kind == STAMP_TRIM ? MINTLINTEL_EMPTY : MINTLINTEL_UNREADABLE;
    memcpy(out, device->flash->page, bytes);
    return MINTLINTEL_WRITTEN;
}

uint32_t mintlintel_durable_write(struct mintlintel_durable *device, uint32_t sector, const void *bytes, size_t count)
{
    uint32_t code = refusal_of(device, sector, count);
    if (code != MINTLINTEL_DONE)
        return code;
    uint32_t had = was(device, sector);
    if (had > MINTLINTEL_WRITTEN)
        return had;
    code = change(device, (struct update){STAMP_VALUE, sector, 1, bytes});
    return code == MINTLINTEL_DONE ? had : code;
}

uint32_t mintlintel_durable_write_new(struct mintlintel_durable *device, uint32_t sector, const void *bytes, size_t count)
{
    uint32_t code = refusal_of(device, sector, count);
    if (code != MINTLINTEL_DONE)
        return code;
    uint32_t had = was(device, sector);
    return had != MINTLINTEL_EMPTY ? had : change(device, (struct update){STAMP_VALUE, sector, 1, bytes});
}

/* Leaves of these sectors those from the first one that is written to the last: 1, or 0 if none is, or 28, or why each call is refused. A page that
 * several of them have is read once. */
static uint32_t find_written(struct mintlintel_durable *device, struct update *trim)
{
    uint32_t end = trim->first + trim->count, from = end, to = end;
    for (uint32_t sector = trim->first; sector < end;) {
        struct mintlintel_place at;
        uint32_t had = was(device, sector);
        if (had > MINTLINTEL_WRITTEN)
            return had;
        if (had == MINTLINTEL_WRITTEN) {
            from = from == end ? sector : from;
            to = sector + 1;
        }
        int is_trim = had == MINTLINTEL_EMPTY && mintlintel_driver_page(&device->core, sector, &at) == MINTLINTEL_WRITTEN;
        sector += is_trim ? count_at(device, sector, at) : 1;
    }
    *trim = (struct update){STAMP_TRIM, from, to - from, NULL};
    return from == end ? MINTLINTEL_EMPTY : MINTLINTEL_WRITTEN;
}

uint32_t mintlintel_durable_trim(struct mintlintel_durable *device, uint32_t first, uint32_t count)
{
    uint32_t any = MINTLINTEL_EMPTY, code = refusal(device);
    if (code != MINTLINTEL_DONE)
        return code;
    uint32_t sectors = device->flash->numbers.sectors;
    if (first > sectors || count > sectors - first)
        return MINTLINTEL_NO_SECTOR;
    for (uint32_t done = 0; done < count; done += MOST_TRIMMED) {
        struct update trim = {STAMP_TRIM, first + done, count - done < MOST_TRIMMED ? count - done : MOST_TRIMMED, NULL};
        uint32_t had = find_written(device, &trim);
        if (had > MINTLINTEL_WRITTEN)
            return had;
        if (had == MINTLINTEL_EMPTY)
            continue;
        code = change(device, trim);
        if (code != MINTLINTEL_DONE)
            return code;
        any = MINTLINTEL_WRITTEN;
    }
    return any;
}

uint32_t mintlintel_durable_flush(struct mintlintel_durable *device)
{
    uint32_t code = refusal(device);
    if (code != MINTLINTEL_DONE || !device->flash->nand.sync)
        return code;
    int answer = device->flash->nand.sync(device->flash->nand.chip);
    return mtl_stops(device->flash, answer == WORKED ? MINTLINTEL_DONE : answer == BROKE ? MINTLINTEL_FAILED : MINTLINTEL_POWER_GONE);
}

uint32_t mintlintel_durable_counts(struct mintlintel_durable *device, struct mintlintel_totals *totals)
{
    if (!device->flash)
        return MINTLINTEL_CLOSED;
    *totals = device->flash->totals;
    return MINTLINTEL_DONE;
}

uint32_t mintlintel_durable_losses(struct mintlintel_durable *device, uint64_t *losses)
{
    if (!device->flash)
        return MINTLINTEL_CLOSED;
    *losses = device->flash->losses;
    return MINTLINTEL_DONE;
}

const uint32_t *mtl_durable_erases(const struct mintlintel_durable *device) { return device->flash->erases; }

/* How many pages of a block have a sector. Several may have the same one: as many pages at a time are looked through as a page has bits for. */
static uint32_t count_live(struct mintlintel_durable *device, uint32_t block)
{
    struct mintlintel_flash *flash = device->flash;
    struct mintlintel_place at;
    uint32_t live = 0, bits = 8 * flash->numbers.page_bytes;
    for (uint32_t first = 0; first < flash->numbers.pages; first += bits) {
        memset(flash->page, 0, flash->numbers.page_bytes);
        for (uint32_t sector = 0; sector < flash->numbers.sectors; sector++) {
            if (mintlintel_driver_page(&device->core, sector, &at) != MINTLINTEL_WRITTEN || at.block != block)
                continue;
            uint32_t bit = at.page - first;
            if (at.page < first || bit >= bits)
                continue;
            live += !(flash->page[bit / 8] >> bit % 8 & 1);
            flash->page[bit / 8] |= (uint8_t)(1u << bit % 8);
        }
    }
    return live;
}

uint32_t mintlintel_durable_block(struct mintlintel_durable *device, uint32_t block, struct mintlintel_block *report)
{
    struct mintlintel_flash *flash = device->flash;
    if (!flash || block >= flash->numbers.blocks)
        return flash ? MINTLINTEL_NO_SUCH_BLOCK : MINTLINTEL_CLOSED;
    report->erases = flash->erases[block];
    report->live = count_live(device, block);
    report->retired = flash->state[block] >= FAILED;
    return MINTLINTEL_DONE;
}

uint32_t mintlintel_durable_numbers(struct mintlintel_durable *device, struct mintlintel_durable_numbers *numbers)
{
    if (!device->flash)
        return MINTLINTEL_CLOSED;
    *numbers = device->flash->numbers;
    return MINTLINTEL_DONE;
}
