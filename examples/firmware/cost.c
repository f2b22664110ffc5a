/* What calls cost on a full device of 128 MiB, in instructions: a nanosecond of QEMU's -icount shift=0 is one. The flash is a list of stamps, all pages have
 * the same few bytes, and what its driver takes isn't counted. */
#include "board.h"
#include "log.h"
#include <mintlintel_durable.h>
#include <string.h>

enum { BLOCKS = 1024, PAGES = 64, SECTORS = 61440, PAGE_BYTES = 64, WARM = 20000, MEASURED = 2000, TRIMMED = 64, WHOLE_PAGE = 2048, MEMORY_BYTES = 4 << 20 };

static const struct mintlintel_durable_numbers numbers = {1, BLOCKS, PAGES, PAGE_BYTES, SECTORS};
static uint8_t memory[MEMORY_BYTES] OF_DEVICE;

static struct { uint8_t stamp[MINTLINTEL_STAMP_BYTES], has_version; } flash[BLOCKS * PAGES] OUTLIVES_RESET;
static uint32_t commands, page_reads, driver_time, driver_began;
static uint8_t page[PAGE_BYTES], whole[WHOLE_PAGE];
static struct mintlintel_durable device;

static void begin(uint32_t *count)
{
    driver_began = board_instructions();
    ++*count;
}

static int end(int answer)
{
    driver_time += board_instructions() - driver_began;
    return answer;
}

static int read(void *chip, uint32_t block, uint32_t index, void *main, void *stamp)
{
    (void)chip;
    begin(&page_reads);
    if (!flash[block * PAGES + index].has_version)
        return end(1);
    if (main)
        memset(main, 0, PAGE_BYTES);
    memcpy(stamp, flash[block * PAGES + index].stamp, MINTLINTEL_STAMP_BYTES);
    return end(0);
}

static int program(void *chip, uint32_t block, uint32_t index, const void *main, const void *stamp)
{
    (void)chip, (void)main;
    begin(&commands);
    memcpy(flash[block * PAGES + index].stamp, stamp, MINTLINTEL_STAMP_BYTES);
    flash[block * PAGES + index].has_version = 1;
    return end(0);
}

static int copyback(void *chip, uint32_t from_block, uint32_t from, uint32_t block, uint32_t index, const void *stamp)
{
    (void)from_block, (void)from;
    return program(chip, block, index, NULL, stamp);
}

static int erase(void *chip, uint32_t block)
{
    (void)chip;
    begin(&commands);
    for (uint32_t index = 0; index < PAGES; index++)
        flash[block * PAGES + index].has_version = 0;
    return end(0);
}

static int mark_bad(void *chip, uint32_t block)
{
    (void)chip, (void)block;
    return 0;
}

static const struct mintlintel_nand nand = {NULL, read, program, copyback, erase, NULL, mark_bad, NULL};

static uint32_t any(uint32_t below)
{
    static uint64_t chance = 0x9e3779b97f4a7c15u;
    chance ^= chance << 13;
    chance ^= chance >> 7;
    chance ^= chance << 17;
    return (uint32_t)(chance >> 32) % below;
}

static void open(uint32_t flags)
{
    uint32_t code = mintlintel_durable_open_in(&device, &nand, &numbers, flags, memory, (size_t)mintlintel_durable_bytes(&numbers, flags));
    if (code)
        say("WRONG:"), tell("open", code), say("\n"), board_end(1);
}

/* The mean and the most of a call, and of its commands. */
static void cost(const char *name, uint32_t count, uint32_t (*call)(void))
{
    uint32_t total = 0, most = 0, all_commands = 0, most_commands = 0;
    for (uint32_t k = 0; k < count; k++) {
        commands = driver_time = 0;
        uint32_t from = board_instructions(), code = call(), took = board_instructions() - from - driver_time;
        if (code > 1)
            say("WRONG:"), tell("a call", code), say("\n"), board_end(1);
        total += took;
        most = took > most ? took : most;
        all_commands += commands;
        most_commands = commands > most_commands ? commands : most_commands;
    }
    say(name), say(":"), tell("mean", total / count), tell("most", most);
    tell("commands of 100", all_commands * 100 / count), tell("most commands", most_commands), say("\n");
}

static uint32_t write(void) { return mintlintel_durable_write(&device, any(SECTORS), page, PAGE_BYTES); }
static uint32_t trim(void) { return mintlintel_durable_trim(&device, any(SECTORS - TRIMMED), TRIMMED); }
static uint32_t look(void) { return mintlintel_durable_read(&device, any(SECTORS), page, PAGE_BYTES); }
static uint32_t check(void) { return mintlintel_crc32c(0, whole, WHOLE_PAGE) & 1; }

static uint32_t reopen(void)
{
    mintlintel_durable_close(&device);
    page_reads = 0;
    board_stack_anew();
    open(MINTLINTEL_TELLS_TORN);
    return 0;
}

/* The same where the flash doesn't tell torn pages. */
static uint32_t reopen_by_checks(void)
{
    mintlintel_durable_close(&device);
    page_reads = 0;
    open(0);
    return 0;
}

void controller_begin(void) {}
void controller_interrupt(void) {}

/* The memory that a device needs where the flash tells torn pages, and where it doesn't. */
static void tell_memory(void)
{
    static const struct mintlintel_durable_numbers sizes[] = {SIZES};
    for (size_t i = 0; i < sizeof sizes / sizeof *sizes; i++) {
        say("needs:"), tell("blocks", sizes[i].blocks), tell("bytes", (uint32_t)mintlintel_durable_bytes(&sizes[i], MINTLINTEL_TELLS_TORN));
        tell("by checks", (uint32_t)mintlintel_durable_bytes(&sizes[i], 0)), say("\n");
    }
}

void firmware(void)
{
    open(MINTLINTEL_TELLS_TORN);
    for (uint32_t sector = 0; sector < SECTORS; sector++)
        mintlintel_durable_write(&device, sector, page, PAGE_BYTES);
    for (uint32_t k = 0; k < WARM; k++)
        write();
    board_stack_anew();
    cost("write", MEASURED, write);
    cost("read", MEASURED, look);
    say("calls:"), tell("stack", board_stack()), say("\n");
    cost("open", 1, reopen);
    say("opens:"), tell("stack", board_stack()), tell("page reads", page_reads), say("\n");
    cost("check", 1, reopen_by_checks);
    say("checks:"), tell("page reads", page_reads), say("\n");
    cost("trim", MEASURED / 10, trim);
    cost("crc", 10, check);
    tell_memory();
    say("end\n");
    board_end(0);
}
