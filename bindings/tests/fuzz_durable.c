/* Makes sequences of calls from libFuzzer's bytes: on a device over a chip whose power is cut and that fails, and on the core over a small flash.
 * Some calls have a wrong sector, length, number or command, and some a handle that is closed, stopped or of another kind. */
#include "cut_chip.h"

/* The calls that return a code, and how often each of them returned which. */
enum call {
    CALL_open, CALL_open_despite_losses, CALL_read, CALL_write, CALL_write_new, CALL_trim, CALL_flush, CALL_counts, CALL_losses, CALL_block,
    CALL_numbers, CALL_core_open, CALL_core_open_over, CALL_core_note, CALL_core_finish, CALL_core_page, CALL_core_next, CALL_core_done,
    CALL_core_counts, CALL_core_losses, CALLS
};
enum { CODES = 128 };
#define DURABLE(name, ...) counted(CALL_##name, mintlintel_durable_##name(__VA_ARGS__))
#define CORE(name, ...) counted(CALL_core_##name, mintlintel_core_##name(__VA_ARGS__))

static uint64_t returned[CALLS][CODES], power_cuts;
/* libFuzzer doesn't see into what is proved. It keeps an input by which a call returns another code. */
static uint8_t is_returned[CALLS][CODES] __attribute__((section("__libfuzzer_extra_counters")));

static uint32_t counted(enum call call, uint32_t code)
{
    CHECK(code < CODES);
    returned[call][code]++;
    is_returned[call][code] = 1;
    return code;
}

struct input { const uint8_t *bytes; size_t left; };

static uint32_t next(struct input *in)
{
    if (in->left == 0)
        return 0;
    in->left--;
    return *in->bytes++;
}

/* ---- A device over a chip ---- */

enum { MOST_SECTORS = (CHIP_BLOCKS - 1) * CHIP_PAGES - 1, EMPTY = 0, AT_SECTOR = 8 };

/* What a sector holds: the byte of its page, or EMPTY; or one of two of these, if a call for it was cut or found no room. */
struct shadow { uint32_t value, other; int is_open; };

static struct cut_chip chip;
static struct mintlintel_nand nand;
static struct mintlintel_durable device;
static struct shadow shadows[MOST_SECTORS];
static uint32_t sectors;
static uint32_t state_code; /* what each call for sectors returns: 2 for a closed handle, 28 since a call returned that, or 0 */
static int is_worn;         /* no call changes a sector any more */

/* The device takes part in no call any more for sectors, if this code says so. */
static int has_stopped(uint32_t code)
{
    if (code != MINTLINTEL_POWER_GONE)
        return 0;
    CHECK(chip.is_off);
    state_code = code;
    return 1;
}

static void check_sector(uint32_t sector)
{
    uint8_t out[CHIP_PAGE_BYTES], wanted[CHIP_PAGE_BYTES];
    struct shadow *shadow = &shadows[sector];
    memset(out, 0x5a, sizeof out);
    uint32_t code = DURABLE(read, &device, sector, out, sizeof out), value = EMPTY;
    if (has_stopped(code))
        return;
    CHECK(code <= MINTLINTEL_WRITTEN);
    if (code == MINTLINTEL_WRITTEN)
        value = out[0];
    memset(wanted, code == MINTLINTEL_WRITTEN ? (int)value : 0x5a, sizeof wanted);
    CHECK(memcmp(out, wanted, sizeof out) == 0 && (value == EMPTY) == (code == MINTLINTEL_EMPTY));
    CHECK(value == shadow->value || (shadow->is_open && value == shadow->other));
    *shadow = (struct shadow){value, EMPTY, 0};
}

static void check_sectors(void)
{
    for (uint32_t sector = 0; sector < sectors && state_code == 0; sector++)
        check_sector(sector);
}

/* Whether a version on the chip is of a sector that a device of so many lacks. */
static int has_version_beyond(uint32_t count, int with_bad)
{
    for (uint32_t block = 0; block < CHIP_BLOCKS; block++)
        for (uint32_t page = 0; page < CHIP_PAGES && (with_bad || !chip.bad[block]); page++) {
            const struct chip_page *p = &chip.pages[block][page];
            const uint8_t *at = p->stamp + AT_SECTOR;
            uint32_t first = at[0] | (uint32_t)at[1] << 8 | (uint32_t)at[2] << 16 | (uint32_t)at[3] << 24;
            if (p->contents == VERSION && first + (at[4] | (uint32_t)at[5] << 8 | (uint32_t)at[6] << 16) > count)
                return 1;
        }
    return 0;
}

/* Opens a device of these numbers, which can't be on this chip if a bit of `faults` makes one of them wrong: the code of the first fault then. No page
 * of the chip becomes unreadable, so no cut and no failure leaves a loss. */
static uint32_t open_with(uint32_t faults, uint32_t count, int despite_losses)
{
    uint32_t blocks = faults & 2 ? 2 : CHIP_BLOCKS, wanted = 0;
    uint32_t luns = faults & 1 ? 9 : 1, pages = faults & 4 ? 0 : CHIP_PAGES, bytes = faults & 8 ? 65537 : CHIP_PAGE_BYTES;
    uint32_t asked = faults & 16 ? 0 : faults & 32 ? MOST_SECTORS + 1 : count;
    for (uint32_t i = 0; i < 5 && wanted == 0; i++)
        if (faults & 1u << i)
            wanted = MINTLINTEL_BAD_LUNS + i;
    if (wanted == 0 && faults & 32)
        wanted = MINTLINTEL_TOO_FEW_BLOCKS;
    uint64_t losses = 77;
    uint32_t code = despite_losses ? DURABLE(open_despite_losses, &device, &nand, luns, blocks, pages, bytes, asked, &losses)
                                   : DURABLE(open, &device, &nand, luns, blocks, pages, bytes, asked);
    CHECK(losses == (despite_losses && code == MINTLINTEL_DONE ? 0 : 77));
    CHECK(!wanted || code == (state_code == MINTLINTEL_CLOSED ? wanted : (uint32_t)MINTLINTEL_ALREADY_OPEN));
    return code;
}

/* A call that is a new open: what the chip holds says which codes are right. */
static void open_call(struct input *in)
{
    uint32_t faults = next(in), byte = next(in), count = byte < 128 ? sectors : 1 + byte % MOST_SECTORS, usable = 0;
    for (uint32_t block = 0; block < CHIP_BLOCKS; block++)
        usable += !chip.bad[block];
    if (faults % 4 > 0)
        faults = 0;
    if (state_code == MINTLINTEL_CLOSED) {
        chip.is_off = 0;
        memset(chip.failed, 0, sizeof chip.failed);
    }
    chip.is_off |= byte % 16 == 0;
    uint32_t code = open_with(faults >> 2, count, (int)(byte >> 6 & 1));
    if (faults >> 2 || state_code != MINTLINTEL_CLOSED) {
        CHECK(state_code == MINTLINTEL_CLOSED || code == MINTLINTEL_ALREADY_OPEN);
        return;
    }
    int fits = usable > 1 && count < (usable - 1) * CHIP_PAGES;
    CHECK((code == MINTLINTEL_NO_ROOM) == !fits || (code == MINTLINTEL_NO_ROOM && chip.fails > 0));
    CHECK(code != MINTLINTEL_OTHER_DEVICE || has_version_beyond(count, 1));
    CHECK(code != MINTLINTEL_POWER_GONE || chip.is_off);
    CHECK(code == MINTLINTEL_DONE || code == MINTLINTEL_NO_ROOM || code == MINTLINTEL_OTHER_DEVICE || code == MINTLINTEL_POWER_GONE);
    if (code != MINTLINTEL_DONE)
        return;
    CHECK(!has_version_beyond(count, 0));
    for (uint32_t sector = count; sector < sectors; sector++) {
        CHECK(shadows[sector].value == EMPTY || (shadows[sector].is_open && shadows[sector].other == EMPTY));
        shadows[sector] = (struct shadow){EMPTY, EMPTY, 0};
    }
    sectors = count;
    state_code = 0;
    is_worn = 0;
    check_sectors();
}

static void close_device(void)
{
    mintlintel_durable_close(&device);
    state_code = MINTLINTEL_CLOSED;
}

/* A call was begun for these sectors: with 28, or the first 27, each may hold this value from now on, which the next read says. A later 27 changes
 * nothing. */
static int was_done(uint32_t code, uint32_t first, uint32_t count, uint32_t value)
{
    if (!has_stopped(code) && code != MINTLINTEL_EXHAUSTED) {
        CHECK(code <= MINTLINTEL_WRITTEN);
        return 1;
    }
    CHECK(code != MINTLINTEL_EXHAUSTED || chip.fails > 0);
    for (uint32_t sector = first; sector < first + count && !is_worn; sector++) {
        if (!shadows[sector].is_open)
            shadows[sector] = (struct shadow){shadows[sector].value, value, 1};
        if (!state_code)
            check_sector(sector);
    }
    is_worn |= code == MINTLINTEL_EXHAUSTED;
    return 0;
}

/* A call was refused with the code that was due, or since the power went while the last call moved pages out of a block that had failed. */
static void check_refused(uint32_t code, uint32_t wanted)
{
    CHECK(code == wanted || (!state_code && has_stopped(code)));
}

static uint32_t refused(uint32_t sector, size_t length)
{
    if (state_code)
        return state_code;
    return sector >= sectors ? MINTLINTEL_NO_SECTOR : length != CHIP_PAGE_BYTES ? MINTLINTEL_NOT_A_PAGE : 0;
}

static void write_call(int only_new, uint32_t sector, uint32_t value, size_t length)
{
    uint8_t page[CHIP_PAGE_BYTES + 1];
    memset(page, (int)value, sizeof page);
    uint32_t wanted = refused(sector, length), had = sector < sectors && shadows[sector].value != EMPTY;
    uint32_t code = only_new ? DURABLE(write_new, &device, sector, page, length) : DURABLE(write, &device, sector, page, length);
    if (wanted) {
        check_refused(code, wanted);
    } else if (was_done(code, sector, 1, value)) {
        CHECK(code == had);
        if (!only_new || !had)
            shadows[sector].value = value;
    }
}

static void trim_call(uint32_t first, uint32_t count)
{
    uint32_t wanted = state_code ? state_code : first > sectors || count > sectors - first ? MINTLINTEL_NO_SECTOR : 0, any = 0;
    uint32_t code = DURABLE(trim, &device, first, count);
    if (wanted) {
        check_refused(code, wanted);
    } else if (was_done(code, first, count, EMPTY)) {
        for (uint32_t sector = first; sector < first + count; sector++) {
            any |= shadows[sector].value != EMPTY;
            shadows[sector].value = EMPTY;
        }
        CHECK(code == any);
    }
}

static void read_call(uint32_t sector, size_t length)
{
    uint8_t out[CHIP_PAGE_BYTES + 1];
    uint32_t wanted = refused(sector, length);
    if (!wanted) {
        check_sector(sector);
        return;
    }
    memset(out, 0x5a, sizeof out);
    check_refused(DURABLE(read, &device, sector, out, length), wanted);
    for (size_t i = 0; i < sizeof out; i++)
        CHECK(out[i] == 0x5a);
}

/* The reports need an open handle, and no power. */
static void report_call(uint32_t block)
{
    int is_closed = state_code == MINTLINTEL_CLOSED;
    struct mintlintel_durable_numbers numbers = {7, 7, 7, 7, 7}, wanted = {1, CHIP_BLOCKS, CHIP_PAGES, CHIP_PAGE_BYTES, sectors};
    struct mintlintel_totals totals = {7, 7, 7};
    struct mintlintel_block report = {77, 77, 77};
    uint64_t losses = 77;
    CHECK(DURABLE(numbers, &device, &numbers) == (is_closed ? (uint32_t)MINTLINTEL_CLOSED : 0));
    CHECK(is_closed ? numbers.luns == 7 && numbers.sectors == 7 : memcmp(&numbers, &wanted, sizeof numbers) == 0);
    CHECK(DURABLE(counts, &device, &totals) == (is_closed ? (uint32_t)MINTLINTEL_CLOSED : 0));
    CHECK(!is_closed || (totals.programs == 7 && totals.copies == 7 && totals.erases == 7));
    CHECK(DURABLE(losses, &device, &losses) == (is_closed ? (uint32_t)MINTLINTEL_CLOSED : 0) && losses == (is_closed ? 77 : 0));
    uint32_t code = DURABLE(block, &device, block, &report);
    CHECK(code == (is_closed ? (uint32_t)MINTLINTEL_CLOSED : block >= CHIP_BLOCKS ? (uint32_t)MINTLINTEL_NO_SUCH_BLOCK : 0));
    CHECK(code ? report.erases == 77 && report.live == 77 && report.retired == 77 : report.retired >= chip.bad[block] && report.live <= CHIP_PAGES);
}

static void device_call(struct input *in)
{
    static const size_t lengths[8] = {CHIP_PAGE_BYTES, CHIP_PAGE_BYTES, CHIP_PAGE_BYTES, CHIP_PAGE_BYTES, CHIP_PAGE_BYTES, 0, CHIP_PAGE_BYTES - 1,
                                      CHIP_PAGE_BYTES + 1};
    uint32_t kind = next(in) % 24, sector = next(in) % (MOST_SECTORS + 2), byte = next(in), code;
    size_t length = lengths[byte >> 5];
    if (kind < 9)
        write_call(kind > 6, sector, 1 + byte % 255, length);
    else if (kind < 11)
        trim_call(sector, byte % 16 == 0 ? UINT32_MAX : byte % 5);
    else if (kind < 13)
        read_call(sector, length);
    else if (kind == 13) {
        code = DURABLE(flush, &device);
        CHECK(state_code ? code == state_code : has_stopped(code) || code == 0);
    } else if (kind == 14)
        report_call(byte % (CHIP_BLOCKS + 2));
    else if (kind < 18) /* from now on one command in so many is cut, and one in so many fails */
        chip.one_cut_in = byte % 8;
    else if (kind == 18)
        chip.one_fail_in = byte % 16;
    else if (kind == 19 && byte < 64)
        close_device();
    else {
        if (state_code && byte % 4 > 0)
            close_device();
        open_call(in);
    }
}

static void begin_device(struct input *in)
{
    memset(&chip, 0, sizeof chip);
    memset(shadows, 0, sizeof shadows);
    chip.state = 1 + next(in);
    uint32_t left_out = next(in), bad = left_out >> 4 & 1;
    chip.bad[left_out >> 5] = (uint8_t)bad;
    sectors = 1 + next(in) % ((CHIP_BLOCKS - bad - 1) * CHIP_PAGES - 1);
    nand = (struct mintlintel_nand){&chip, chip_read, chip_program, chip_copyback, chip_erase, chip_is_bad, chip_mark_bad, chip_sync};
    if (left_out & 1)
        nand.copyback = NULL;
    if (left_out & 2)
        nand.sync = NULL;
    state_code = MINTLINTEL_CLOSED;
    is_worn = 0;
    CHECK(open_with(0, sectors, left_out >> 2 & 1) == MINTLINTEL_DONE);
    state_code = 0;
}

/* ---- The core over a flash of a few pages ---- */

enum { BLOCKS = 4, PAGES = 3, SECTORS = 5, PROGRAM = 1, COPY = 2, ERASE = 3, MOST_COMMANDS = 4 * BLOCKS * PAGES };

struct version { enum contents contents; uint32_t first, count; uint64_t number; };

static struct mintlintel_core core;
static struct version flash[BLOCKS][PAGES];
static enum { CLOSED, MOUNTING, MOUNTED } phase;
static uint32_t noted, used; /* pages that are noted; the blocks from this one on are only read */
static int is_true; /* each note has said what the flash has */
static struct mintlintel_totals totals;

/* The code of a call that needs this phase, or 0. */
static uint32_t unfit(int wanted)
{
    return phase == CLOSED ? MINTLINTEL_CLOSED : (int)phase != wanted ? MINTLINTEL_WRONG_KIND : 0;
}

static int has_sector(const struct version *v, uint32_t sector)
{
    return v->contents == VERSION && sector >= v->first && sector - v->first < v->count;
}

/* Whether these are sectors of the device. */
static int are_sectors(uint32_t first, uint32_t count)
{
    return first < SECTORS && count > 0 && count <= SECTORS - first;
}

/* One more than the number of the sector's newest version outside this block, or of any sector's; 0 if there is none. */
static uint64_t after(uint32_t sector, uint32_t without)
{
    uint64_t number = 0;
    for (uint32_t block = 0; block < BLOCKS; block++)
        for (uint32_t page = 0; page < PAGES && block != without; page++) {
            const struct version *v = &flash[block][page];
            if ((has_sector(v, sector) || (v->contents == VERSION && sector == SECTORS)) && v->number >= number)
                number = v->number + 1;
        }
    return number;
}

/* Begins a mount of all blocks, or of all but the last one, or one with wrong numbers. */
static void core_open(uint32_t byte)
{
    uint32_t count = byte % 8 == 0 ? (BLOCKS - 1) * PAGES : SECTORS, is_over = byte % 4 > 1, blocks = BLOCKS - is_over;
    uint32_t read_blocks = is_over && byte % 16 == 2 ? blocks - 1 : BLOCKS, is_wrong = count != SECTORS || read_blocks < blocks;
    uint32_t wanted = phase != CLOSED ? MINTLINTEL_ALREADY_OPEN : is_wrong ? MINTLINTEL_TOO_FEW_BLOCKS : 0;
    uint32_t code = is_over ? CORE(open_over, &core, read_blocks, blocks, PAGES, count) : CORE(open, &core, blocks, PAGES, count);
    CHECK(code == wanted);
    if (wanted)
        return;
    used = blocks;
    phase = MOUNTING;
    noted = 0;
    is_true = 1;
}

/* Notes what the next page has. A page that has no version counts as torn from then on: the core can't tell. */
static void core_note(struct input *in)
{
    uint32_t byte = next(in), wanted = unfit(MOUNTING);
    struct version none = {TORN, 0, 0, 0}, *at = noted < BLOCKS * PAGES ? &flash[noted / PAGES][noted % PAGES] : &none, told = *at;
    if (byte % 4 == 0)
        told = (struct version){byte & 16 ? TORN : VERSION, byte >> 5, byte >> 2 & 3, byte & 32 ? UINT64_MAX : next(in) + 1};
    int is_foreign = told.contents == VERSION && (!are_sectors(told.first, told.count) || told.number == UINT64_MAX);
    if (!wanted)
        wanted = noted == BLOCKS * PAGES ? MINTLINTEL_OUT_OF_ORDER : is_foreign ? MINTLINTEL_OTHER_DEVICE : 0;
    CHECK(CORE(note, &core, told.contents == VERSION, told.first, told.count, told.number) == wanted);
    if (wanted)
        return;
    is_true &= byte % 4 > 0;
    if (at->contents != VERSION)
        at->contents = TORN;
    noted++;
}

static void core_finish(void)
{
    uint32_t wanted = unfit(MOUNTING);
    if (!wanted && noted < BLOCKS * PAGES)
        wanted = MINTLINTEL_OUT_OF_ORDER;
    uint32_t code = CORE(finish, &core);
    CHECK(code == wanted || (!wanted && (!is_true || used < BLOCKS) && code == MINTLINTEL_NO_BLOCK));
    if (code == MINTLINTEL_NO_BLOCK)
        phase = CLOSED;
    if (code)
        return;
    phase = MOUNTED;
    memset(&totals, 0, sizeof totals);
}

static void core_page(uint32_t sector)
{
    struct mintlintel_place at = {77, 77};
    uint32_t wanted = unfit(MOUNTED), code = CORE(page, &core, sector, &at);
    if (!wanted && sector >= SECTORS)
        wanted = MINTLINTEL_NO_SECTOR;
    if (wanted || !is_true) {
        CHECK(!wanted || code == wanted);
        CHECK(code == MINTLINTEL_WRITTEN ? at.block < BLOCKS && at.page < PAGES : at.block == 77 && at.page == 77);
        return;
    }
    uint64_t number = after(sector, BLOCKS);
    CHECK(code == (number > 0));
    if (code == MINTLINTEL_WRITTEN) {
        const struct version *v = &flash[at.block][at.page];
        CHECK(has_sector(v, sector) && v->number + 1 == number);
    } else {
        CHECK(at.block == 77 && at.page == 77);
    }
}

/* The command keeps the rules of NAND flash, and a power cut before or inside it loses no newest version. */
static void check_command(const struct mintlintel_command *c, uint32_t first)
{
    CHECK(c->kind >= PROGRAM && c->kind <= ERASE && c->block < used);
    if (c->kind == ERASE) {
        for (uint32_t s = 0; s < SECTORS; s++)
            CHECK(after(s, c->block) == after(s, BLOCKS));
        return;
    }
    for (uint32_t page = c->page; page < PAGES; page++)
        CHECK(c->page < PAGES && flash[c->block][page].contents == ERASED);
    if (c->kind == PROGRAM) {
        CHECK(c->sector == first && c->number == after(SECTORS, BLOCKS) && c->number < UINT64_MAX);
        return;
    }
    const struct version *from = &flash[c->from_block][c->from_page];
    CHECK(c->from_block < BLOCKS && c->from_page < PAGES && has_sector(from, c->sector));
    CHECK(from->number + 1 == after(c->sector, BLOCKS));
}

/* What a command for so many sectors leaves of the flash: all of it; or if it is cut nothing, or torn pages. */
static void perform(const struct mintlintel_command *c, uint32_t count, int is_cut, uint32_t left)
{
    struct version whole = c->kind == PROGRAM ? (struct version){VERSION, c->sector, count, c->number} : (struct version){ERASED, 0, 0, 0};
    if (c->kind == COPY)
        whole = flash[c->from_block][c->from_page];
    for (uint32_t page = 0; page < PAGES; page++)
        if (c->kind == ERASE ? !is_cut || left >> page & 1 : page == c->page && (!is_cut || left % 3 > 0)) {
            flash[c->block][page] = whole;
            if (is_cut && (c->kind == ERASE ? left >> (page + 3) & 1 : left % 3 == 1))
                flash[c->block][page].contents = TORN;
        }
}

/* Asks for the next command of some sectors, and gives it, a cut one, or another one as done. Returns whether their update goes on. */
static int core_step(uint32_t first, uint32_t count, uint32_t byte)
{
    struct mintlintel_command command = {77, 77, 77, 77, 77, 77, 77}, kept = command, again = command, other;
    uint32_t wanted = unfit(MOUNTED);
    if (!wanted && !are_sectors(first, count))
        wanted = MINTLINTEL_NO_SECTOR;
    int has_numbers = is_true && after(SECTORS, BLOCKS) < UINT64_MAX;
    uint32_t code = CORE(next, &core, first, count, &command);
    CHECK(code == wanted || (!wanted && !has_numbers && code == MINTLINTEL_NO_NUMBER));
    if (code) {
        CHECK(memcmp(&command, &kept, sizeof command) == 0);
        CHECK(CORE(done, &core, first, count, &command) == (code == MINTLINTEL_NO_NUMBER ? (uint32_t)MINTLINTEL_OUT_OF_ORDER : code));
        return 0;
    }
    CHECK(CORE(next, &core, first, count, &again) == 0 && memcmp(&command, &again, sizeof command) == 0);
    if (is_true)
        check_command(&command, first);
    other = command;
    *(&other.kind + byte % 6) += 1 + byte / 64;
    CHECK(CORE(done, &core, first, count, &other) == MINTLINTEL_OUT_OF_ORDER);
    if (is_true && byte >= 224) {
        power_cuts++;
        perform(&command, count, 1, byte);
        mintlintel_core_close(&core);
        phase = CLOSED;
        return 0;
    }
    CHECK(CORE(done, &core, first, count, &command) == 0);
    if (is_true)
        perform(&command, count, 0, 0);
    totals.programs += command.kind == PROGRAM;
    totals.copies += command.kind == COPY;
    totals.erases += command.kind == ERASE;
    return command.kind != PROGRAM;
}

static void core_counts(void)
{
    struct mintlintel_totals found = {7, 7, 7}, wanted = {7, 7, 7};
    uint32_t unfit_code = unfit(MOUNTED);
    if (!unfit_code)
        wanted = totals;
    CHECK(CORE(counts, &core, &found) == unfit_code && memcmp(&found, &wanted, sizeof found) == 0);
}

/* No cut leaves a loss. What was noted wrong may look like one. */
static void core_losses(void)
{
    uint64_t losses = 77;
    uint32_t wanted = unfit(MOUNTED);
    CHECK(CORE(losses, &core, &losses) == wanted);
    CHECK(wanted ? losses == 77 : is_true ? losses == 0 : losses < BLOCKS * PAGES);
}

/* Mounts what the flash has, which succeeds unless a block is left out. */
static void mount_core(uint32_t byte)
{
    static const uint8_t as_it_is[1] = {1};
    mintlintel_core_close(&core);
    phase = CLOSED;
    core_open(byte % 4 == 3 ? 3 : 1);
    for (uint32_t page = 0; page < BLOCKS * PAGES; page++)
        core_note(&(struct input){as_it_is, 1});
    core_finish();
    CHECK(phase == MOUNTED || used < BLOCKS);
}

static void core_call(struct input *in)
{
    uint32_t head = next(in), kind = head % 16, sector = next(in) % (SECTORS + 1), byte = next(in), commands = 0;
    uint32_t count = head >> 4 & 3 ? 1 : head >> 6;
    if (kind < 7) {
        while (commands < MOST_COMMANDS && core_step(sector, count, byte))
            commands++;
        CHECK(!is_true || commands < MOST_COMMANDS);
    } else if (kind < 9)
        core_page(sector);
    else if (kind == 9) {
        core_counts();
        core_losses();
    } else if (kind == 10)
        for (uint32_t i = 0; i <= byte % 16; i++)
            core_note(in);
    else if (kind == 11)
        core_finish();
    else if (kind == 12)
        core_open(byte);
    else if (kind == 13 && byte < 64) {
        mintlintel_core_close(&core);
        phase = CLOSED;
    } else
        mount_core(byte);
}

/* An empty flash, or one whose only version has one of the last numbers. */
static void begin_core(struct input *in)
{
    uint32_t byte = next(in);
    memset(flash, 0, sizeof flash);
    if (byte >= 192)
        flash[byte % BLOCKS][0] = (struct version){VERSION, byte % SECTORS, 1, UINT64_MAX - 1 - byte % 16};
    mount_core(0);
}

int LLVMFuzzerTestOneInput(const uint8_t *bytes, size_t size)
{
    struct input in = {bytes, size};
    begin_device(&in);
    begin_core(&in);
    while (in.left > 0) {
        if (next(&in) % 3 == 0)
            core_call(&in);
        else
            device_call(&in);
    }
    check_sectors();
    close_device();
    mintlintel_core_close(&core);
    phase = CLOSED;
    power_cuts += (uint64_t)chip.cuts;
    return 0;
}
