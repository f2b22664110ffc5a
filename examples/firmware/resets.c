/* A device that is reset in the middle of commands. Each start mounts it, and compares every sector with what was acknowledged before: only the call that
 * the reset came in may be there or not. Then it writes, trims and reads until the next reset. */
#include "board.h"
#include "controller.h"
#include "driver.h"
#include "log.h"
#include <string.h>

#ifndef RESETS
#define RESETS 1000
#endif
enum { NEW = 0x7265636f, MOST_COMMANDS = 40, MOST_TRIMMED = 12, MEMORY_BYTES = 24 << 10 };

/* What the firmware of a real device couldn't know: each sector's newest acknowledged serial (0: empty), and the call that is begun. */
static volatile struct {
    uint32_t is_new, starts, calls, serial, wrong, there, acked[SECTORS], begun_first, begun_count, begun;
} record OUTLIVES_RESET;

static struct mintlintel_durable device;
static const struct mintlintel_durable_numbers numbers = {1, BLOCKS, PAGES, PAGE_BYTES, SECTORS};
/* All the memory that the device has, but for its handle. mintlintel_durable_bytes says how much it needs. */
static uint8_t memory[MEMORY_BYTES] OF_DEVICE;
static uint8_t page[PAGE_BYTES] __attribute__((aligned(8))), out[PAGE_BYTES] __attribute__((aligned(8)));

static void fail(const char *what, uint32_t code)
{
    record.wrong++;
    say("WRONG:"), tell(what, code), tell("start", record.starts), say("\n");
    if (record.wrong > 20)
        board_end(1);
}

/* A page's bytes follow from its serial and its sector. */
static void fill(uint8_t *bytes, uint32_t serial, uint32_t sector)
{
    uint32_t word = serial * 0x9e3779b9u + sector;
    for (uint32_t i = 8; i + 4 <= PAGE_BYTES; i += 4, word += 0x01030507)
        memcpy(bytes + i, &word, 4);
    memcpy(bytes, &serial, 4);
    memcpy(bytes + 4, &sector, 4);
}

/* The serial that a read finds, 0 for an empty sector. */
static uint32_t found(uint32_t sector)
{
    uint32_t serial = 0, code = mintlintel_durable_read(&device, sector, out, PAGE_BYTES);
    if (code > MINTLINTEL_WRITTEN)
        fail("read", code);
    if (code != MINTLINTEL_WRITTEN)
        return 0;
    memcpy(&serial, out, 4);
    fill(page, serial, sector);
    if (memcmp(page, out, PAGE_BYTES))
        fail("bytes of sector", sector);
    return serial;
}

static void mount(void)
{
    uint32_t reads = controller_counts()->reads, there = 0;
    uint32_t code = mintlintel_durable_open_in(&device, &driver, &numbers, MINTLINTEL_TELLS_TORN, memory, sizeof memory);
    if (code != MINTLINTEL_DONE) {
        fail("open", code), tell("bytes needed", (uint32_t)mintlintel_durable_bytes(&numbers, MINTLINTEL_TELLS_TORN));
        board_end(1);
    }
    reads = controller_counts()->reads - reads;
    for (uint32_t sector = 0; sector < SECTORS; sector++) {
        uint32_t serial = found(sector), is_begun = sector - record.begun_first < record.begun_count && serial == record.begun;
        if (serial != record.acked[sector] && !is_begun)
            fail("sector", sector);
        there |= serial != record.acked[sector];
        record.acked[sector] = serial;
    }
    record.begun_count = 0;
    record.there += there;
    say("start "), number(record.starts), tell("page reads", reads), tell("begun call is there", there), tell("wrong", record.wrong), say("\n");
}

static void begin_call(uint32_t first, uint32_t count, uint32_t serial)
{
    record.calls++;
    record.begun_first = first;
    record.begun = serial;
    record.begun_count = count;
}

static void write(uint32_t sector)
{
    uint32_t serial = record.serial = record.serial + 1;
    fill(page, serial, sector);
    begin_call(sector, 1, serial);
    uint32_t code = mintlintel_durable_write(&device, sector, page, PAGE_BYTES);
    if (code != (record.acked[sector] != 0))
        fail("write", code);
    record.acked[sector] = serial;
    record.begun_count = 0;
}

static void trim(uint32_t first, uint32_t count)
{
    uint32_t had = 0;
    begin_call(first, count, 0);
    uint32_t code = mintlintel_durable_trim(&device, first, count);
    for (uint32_t sector = first; sector < first + count; sector++) {
        had |= record.acked[sector] != 0;
        record.acked[sector] = 0;
    }
    if (code != had)
        fail("trim", code);
    record.begun_count = 0;
}

static void call(void)
{
    uint32_t what = any(16), sector = any(SECTORS - MOST_TRIMMED);
    if (what < 12)
        write(any(4) ? sector % 20 : sector);
    else if (what < 13)
        trim(sector, 1 + any(MOST_TRIMMED));
    else if (found(sector) != record.acked[sector])
        fail("read of sector", sector);
}

static void end(void)
{
    const struct chip_counts *chip = controller_counts();
    mintlintel_durable_close(&device);
    say("end:"), tell("resets", chip->cuts), tell("in programs", chip->cut_programs), tell("in erases", chip->cut_erases);
    tell("torn pages", chip->torn), tell("calls", record.calls), tell("begun calls there", record.there);
    tell("programs", chip->programs), tell("erases", chip->erases), say("\n");
    say("left:"), tell("interrupts", chip->interrupts), tell("bytes needed", (uint32_t)mintlintel_durable_bytes(&numbers, MINTLINTEL_TELLS_TORN));
    tell("stack", board_stack()), say("\n");
    say("result:"), tell("wrong", record.wrong), tell("wrong commands", chip->wrong), say("\n");
    board_end(record.wrong || chip->wrong);
}

void firmware(void)
{
    if (record.is_new != NEW) {
        memset((void *)(uintptr_t)&record, 0, sizeof record);
        record.is_new = NEW;
        say("blocks "), number(BLOCKS), tell("pages", PAGES), tell("page bytes", PAGE_BYTES), tell("sectors", SECTORS), say("\n");
    }
    record.starts++;
    mount();
    for (uint32_t sector = 0; record.starts == 1 && sector < SECTORS; sector++)
        write(sector);
    if (controller_counts()->cuts >= RESETS)
        end();
    controller_cut(1 + any(MOST_COMMANDS));
    for (;;)
        call();
}
