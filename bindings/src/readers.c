/* Reads that wait for nobody: they read the pages that the proved map names. This file is plain C, and not proved. */
#include "readers.h"
#include "durable.h"
#include "flash.h"
#include <stdlib.h>
#include <string.h>

/* By how many looks a read finds a sector's page. */
enum { LOOKS = 64 };
/* The page of an empty sector. */
#define NO_PAGE UINT64_MAX

/* What a device shares with its readers. Those that hold it are the device and each reader; `code` is what each read returns, or 0; `newest` is the greatest
 * number that was told. */
struct mintlintel_readers {
    struct mintlintel_map map;
    int (*read)(void *chip, uint32_t block, uint32_t page, void *main, void *stamp);
    struct mtl_reason *reason; /* if there is one, the flash is an image */
    struct mintlintel_durable_numbers numbers;
    uint32_t holders, code;
    uint64_t newest;
};

static void give_up(struct mintlintel_readers *readers)
{
    if (__atomic_sub_fetch(&readers->holders, 1, __ATOMIC_SEQ_CST) == 0)
        free(readers);
}

/* ---- What the device tells ---- */

static void end(struct mintlintel_readers *readers, uint32_t code)
{
    uint32_t none = 0;
    __atomic_compare_exchange_n(&readers->code, &none, code, 0, __ATOMIC_SEQ_CST, __ATOMIC_SEQ_CST);
}

/* Has the map name a page of the chip for the sectors of a stamp. */
static void name_page(struct mintlintel_readers *readers, enum told what, const struct stamp *stamp, uint32_t chip_block, uint32_t page)
{
    uint64_t at = (uint64_t)chip_block * readers->numbers.pages + page;
    for (uint32_t i = 0; i < stamp->count; i++) {
        uint32_t sector = stamp->sector + i;
        uint32_t code = what == TOLD_COPY ? mintlintel_map_follow(&readers->map, sector, stamp->number, at)
                                          : mintlintel_map_publish(&readers->map, sector, stamp->number, at);
        if (code > MINTLINTEL_WRITTEN)
            end(readers, code);
    }
}

void mtl_readers_told(struct mintlintel_readers *readers, enum told what, const struct stamp *stamp, uint32_t chip_block, uint32_t page)
{
    readers->newest = stamp->number > readers->newest ? stamp->number : readers->newest;
    if (stamp->kind != STAMP_TRIM)
        name_page(readers, what, stamp, chip_block, page);
    else if (what == TOLD_NEW)
        mintlintel_map_clear(&readers->map, stamp->sector, stamp->count);
}

void mtl_readers_tell(struct mintlintel_flash *flash, enum told what, const struct stamp *stamp, uint32_t chip_block, uint32_t page)
{
    if (flash->readers && !flash->reason)
        mtl_readers_told(flash->readers, what, stamp, chip_block, page);
}

/* Tells where a sector's version is. What can't be read is told as a version that no page has: the greatest number is another sector's. */
static uint32_t fill_sector(struct mintlintel_durable *device, uint32_t sector, uint64_t *greatest)
{
    struct mintlintel_flash *flash = device->flash;
    struct mintlintel_place at;
    struct stamp stamp = {STAMP_TRIM, 0, sector, 1, 0};
    if (mintlintel_driver_page(&device->core, sector, &at) == MINTLINTEL_WRITTEN) {
        int reading = mtl_read_page(flash, at.block, at.page, NULL, &stamp);
        if (reading == 3)
            return MINTLINTEL_POWER_GONE;
        int is_known = reading == 0 && mtl_covers(&stamp, sector);
        *greatest = is_known && stamp.number > *greatest ? stamp.number : *greatest;
        stamp = (struct stamp){is_known ? stamp.kind : STAMP_LOST, is_known ? stamp.number : flash->newest, sector, 1, 0};
    }
    if (stamp.kind == STAMP_TRIM)
        mintlintel_map_clear(&flash->readers->map, sector, 1);
    else
        name_page(flash->readers, TOLD_NEW, &stamp, at.block, at.page);
    return MINTLINTEL_DONE;
}

/* If the greatest number that was told is no sector's any more, the core may give it again, and what a reader knows of it isn't sure. */
static uint32_t fill(struct mintlintel_durable *device)
{
    struct mintlintel_readers *readers = device->flash->readers;
    uint64_t greatest = 0;
    uint32_t code = readers->reason && readers->reason->drain(readers->reason) != 0 ? readers->reason->of(readers->reason) : MINTLINTEL_DONE;
    for (uint32_t sector = 0; code == MINTLINTEL_DONE && sector < readers->numbers.sectors; sector++)
        code = fill_sector(device, sector, &greatest);
    if (greatest < readers->newest)
        end(readers, MINTLINTEL_NO_NUMBER);
    readers->newest = greatest;
    return code;
}

uint32_t mtl_readers_fill(struct mintlintel_durable *device)
{
    return device->flash->readers ? fill(device) : MINTLINTEL_DONE;
}

void mtl_readers_leave(struct mintlintel_flash *flash, uint32_t code)
{
    struct mintlintel_readers *readers = flash->readers;
    if (!readers)
        return;
    if (readers->reason) {
        readers->reason->drain(readers->reason);
        readers->reason->readers = NULL;
    }
    flash->readers = NULL;
    end(readers, code);
    mintlintel_map_close(&readers->map);
    give_up(readers);
}

/* ---- Readers ---- */

/* Makes the map of a device, and fills it. */
static uint32_t make_readers(struct mintlintel_durable *device)
{
    struct mintlintel_flash *flash = device->flash;
    struct mintlintel_readers *readers = calloc(1, sizeof *readers);
    if (!readers)
        return MINTLINTEL_NO_MEMORY;
    readers->read = flash->nand.read;
    readers->reason = flash->reason;
    readers->numbers = flash->numbers;
    readers->holders = 1;
    uint32_t code = mintlintel_map_open(&readers->map, flash->numbers.sectors, (uint64_t)flash->numbers.blocks * flash->numbers.pages);
    flash->readers = readers;
    if (code == MINTLINTEL_DONE)
        code = fill(device);
    if (flash->reason)
        flash->reason->readers = readers;
    if (code == MINTLINTEL_DONE)
        code = readers->code;
    if (code != MINTLINTEL_DONE)
        mtl_readers_leave(flash, code);
    return code;
}

uint32_t mintlintel_reader_open(struct mintlintel_reader *reader, struct mintlintel_durable *device)
{
    struct mintlintel_flash *flash = device->flash;
    uint32_t code = reader->of ? MINTLINTEL_ALREADY_OPEN : !flash ? MINTLINTEL_CLOSED : flash->stopped;
    if (code != MINTLINTEL_DONE)
        return code;
    if (flash->readers && flash->readers->code != MINTLINTEL_DONE)
        mtl_readers_leave(flash, MINTLINTEL_CLOSED);
    if (!flash->readers)
        code = make_readers(device);
    if (code == MINTLINTEL_DONE)
        code = mintlintel_map_reader(&flash->readers->map, &reader->search);
    if (code == MINTLINTEL_DONE) {
        reader->of = flash->readers;
        reader->chip = flash->nand.chip;
        __atomic_add_fetch(&reader->of->holders, 1, __ATOMIC_SEQ_CST);
    }
    return code;
}

/* Reads pages that stand one behind another, of an image, or one of a chip: 0, or what the chip answers. */
static int read_pages(const struct mintlintel_reader *reader, uint64_t at, uint32_t count, void *out, void *stamps)
{
    const struct mintlintel_readers *readers = reader->of;
    uint32_t block = (uint32_t)(at / readers->numbers.pages), page = (uint32_t)(at % readers->numbers.pages);
    if (readers->reason)
        return readers->reason->read_beside(readers->reason, block, page, count, out, stamps);
    return readers->read(reader->chip, block, page, out, stamps);
}

/* Whether a page that was read has a version of the sector. */
static int is_version(const struct mintlintel_readers *readers, const uint8_t *bytes, const void *page, uint32_t sector, struct stamp *stamp)
{
    *stamp = mtl_stamp_from(bytes);
    return mintlintel_stamp_fits(bytes, page, readers->numbers.page_bytes) && mtl_covers(stamp, sector);
}

/* Reads a page, and says whether it has a version of the sector: 1 or 0, or 3. */
static int read_version(const struct mintlintel_reader *reader, uint64_t at, uint32_t sector, void *out, struct stamp *stamp)
{
    uint8_t bytes[MINTLINTEL_STAMP_BYTES];
    int answer = read_pages(reader, at, 1, out, bytes);
    return answer == 0 ? is_version(reader->of, bytes, out, sector, stamp) : answer == 1 || answer == 2 ? 0 : 3;
}

/* Why each read is refused, or 0. */
static uint32_t refusal(const struct mintlintel_readers *readers)
{
    uint32_t code = readers ? __atomic_load_n(&readers->code, __ATOMIC_SEQ_CST) : MINTLINTEL_CLOSED;
    return code == MINTLINTEL_DONE && readers->reason ? readers->reason->of(readers->reason) : code;
}

uint32_t mintlintel_reader_read(struct mintlintel_reader *reader, uint32_t sector, void *out, size_t bytes)
{
    const struct mintlintel_readers *readers = reader->of;
    struct stamp stamp = {0, 0, 0, 0, 0};
    uint64_t at = 0;
    uint32_t code = refusal(readers);
    if (code != MINTLINTEL_DONE)
        return code;
    if (sector >= readers->numbers.sectors)
        return MINTLINTEL_NO_SECTOR;
    if (bytes != readers->numbers.page_bytes)
        return MINTLINTEL_NOT_A_PAGE;
    code = mintlintel_map_search(&reader->search, sector, LOOKS, &at);
    while (code == MINTLINTEL_READ_PAGE) {
        int has_version = read_version(reader, at, sector, out, &stamp);
        if (has_version == 3)
            return MINTLINTEL_POWER_GONE;
        code = mintlintel_map_answer(&reader->search, (uint32_t)has_version, stamp.number, &at);
    }
    if (code == MINTLINTEL_WRITTEN && stamp.kind != STAMP_VALUE)
        return stamp.kind == STAMP_TRIM ? MINTLINTEL_EMPTY : MINTLINTEL_UNREADABLE;
    return code;
}

/* Reads a sector, or zeros of an empty one: 1, or 0 if it can't. */
static int read_one(struct mintlintel_reader *reader, uint32_t sector, void *page)
{
    size_t bytes = reader->of->numbers.page_bytes;
    uint32_t code = mintlintel_reader_read(reader, sector, page, bytes);
    if (code == MINTLINTEL_EMPTY)
        memset(page, 0, bytes);
    return code <= MINTLINTEL_WRITTEN;
}

/* Whether a page that was read while the map named it is what its sector has; if not, reads the sector by itself: 1, or 0 if it can't. */
static int settle(struct mintlintel_reader *reader, uint32_t sector, const uint8_t *bytes, void *page)
{
    struct stamp stamp;
    uint64_t at;
    int has_version = is_version(reader->of, bytes, page, sector, &stamp);
    uint32_t code = mintlintel_map_search(&reader->search, sector, 1, &at);
    if (code == MINTLINTEL_READ_PAGE && mintlintel_map_answer(&reader->search, (uint32_t)has_version, stamp.number, &at) == MINTLINTEL_WRITTEN
        && stamp.kind == STAMP_VALUE)
        return 1;
    return read_one(reader, sector, page);
}

/* Pages are read where the map names them; then it is asked again, and each number that it still names was read. */
uint32_t mtl_reader_read_run(struct mintlintel_reader *reader, uint32_t sector, uint32_t count, void *out)
{
    const struct mintlintel_readers *readers = reader->of;
    uint64_t at[MTL_MOST_OF_A_RUN];
    uint8_t stamps[MTL_MOST_OF_A_RUN][MINTLINTEL_STAMP_BYTES], *pages = out;
    if (refusal(readers) != MINTLINTEL_DONE)
        return 0;
    if (count == 1)
        return (uint32_t)read_one(reader, sector, out);
    uint32_t in_block = readers->numbers.pages, bytes = readers->numbers.page_bytes, found = 0;
    for (uint32_t code; found < count; found++) {
        code = mintlintel_map_search(&reader->search, sector + found, 1, &at[found]);
        if (code != MINTLINTEL_READ_PAGE && code != MINTLINTEL_EMPTY)
            break;
        at[found] = code == MINTLINTEL_EMPTY ? NO_PAGE : at[found];
    }
    for (uint32_t i = 0, run; i < found; i += run) {
        for (run = 1; i + run < found && at[i] != NO_PAGE && at[i + run] == at[i] + run && at[i + run] % in_block > 0;)
            run++;
        if (at[i] == NO_PAGE)
            memset(pages + (size_t)i * bytes, 0, bytes);
        else if (read_pages(reader, at[i], run, pages + (size_t)i * bytes, stamps[i]) != 0)
            return 0;
    }
    for (uint32_t i = 0; i < found; i++)
        if (at[i] != NO_PAGE && !settle(reader, sector + i, stamps[i], pages + (size_t)i * bytes))
            return i;
    return found;
}

void mintlintel_reader_close(struct mintlintel_reader *reader)
{
    mintlintel_map_close(&reader->search);
    if (reader->of)
        give_up(reader->of);
    reader->of = NULL;
}
