/* A device on a chip whose power is cut at random, and that fails, against an array that knows what was acknowledged. */
#include "cut_chip.h"

enum { MOST_SECTORS = (CHIP_BLOCKS - 1) * CHIP_PAGES - 1, EMPTY = 0 };

/* What a sector holds: a value, or one of two if a call for it was cut. The bytes of a page are made of its value. */
struct shadow { uint32_t value, other; int is_open; };

static struct cut_chip chip;
static struct mintlintel_nand nand;
static struct mintlintel_durable device;
static struct shadow shadows[MOST_SECTORS];
static uint32_t sectors, last_value;
static long reserve; /* how many failures the device survives at least */
static uint64_t state = 88172645463325252u;
static long calls, reads, opens, ends;
static void *given; /* the memory of a device that was opened in some */
static int tells_torn; /* the chip tells each torn page */

static void fill(uint8_t *page, uint32_t value)
{
    for (int i = 0; i < CHIP_PAGE_BYTES; i++)
        page[i] = (uint8_t)(value >> 8 * (i % 4)) ^ (uint8_t)i;
}

/* The sector holds what it may hold. */
static void check_sector(uint32_t sector)
{
    uint8_t out[CHIP_PAGE_BYTES], wanted[CHIP_PAGE_BYTES], untouched[CHIP_PAGE_BYTES];
    struct shadow *shadow = &shadows[sector];
    memset(untouched, 0x5a, sizeof untouched);
    memcpy(out, untouched, sizeof out);
    uint32_t code = mintlintel_durable_read(&device, sector, out, sizeof out);
    reads++;
    if (code == MINTLINTEL_POWER_GONE)
        return;
    CHECK(code <= MINTLINTEL_WRITTEN);
    for (int try = 0; try <= shadow->is_open; try++) {
        uint32_t value = try == 0 ? shadow->value : shadow->other;
        fill(wanted, value);
        if (memcmp(out, value == EMPTY ? untouched : wanted, sizeof out) == 0 && (code == MINTLINTEL_EMPTY) == (value == EMPTY)) {
            *shadow = (struct shadow){value, 0, 0};
            return;
        }
    }
    CHECK(!"a sector holds neither what was acknowledged nor what was begun");
}

static void close_device(void)
{
    mintlintel_durable_close(&device);
    free(given);
    given = NULL;
}

/* Opens the device by the allocator, or in exactly as much memory as it needs; where the chip tells torn pages, also with the flag for that. */
static uint32_t open_in_turn(void)
{
    struct mintlintel_durable_numbers numbers = {1, CHIP_BLOCKS, CHIP_PAGES, CHIP_PAGE_BYTES, sectors};
    uint32_t flags = tells_torn && opens % 2 ? MINTLINTEL_TELLS_TORN : 0;
    size_t bytes = (size_t)mintlintel_durable_bytes(&numbers, flags);
    if (opens++ % 3 == 0)
        return mintlintel_durable_open(&device, &nand, 1, CHIP_BLOCKS, CHIP_PAGES, CHIP_PAGE_BYTES, sectors);
    given = malloc(bytes);
    return mintlintel_durable_open_in(&device, &nand, &numbers, flags, given, bytes);
}

/* Opens the device, again and again while the power goes, and 0 once bad blocks have left no room. */
static int open_device(void)
{
    for (;;) {
        chip.is_off = 0;
        memset(chip.failed, 0, sizeof chip.failed);
        close_device();
        uint32_t code = open_in_turn();
        if (code == MINTLINTEL_NO_ROOM) {
            CHECK(chip.fails > reserve);
            return 0;
        }
        if (code == MINTLINTEL_POWER_GONE)
            continue;
        CHECK(code == MINTLINTEL_DONE);
        for (uint32_t sector = 0; sector < sectors; sector++)
            check_sector(sector);
        if (!chip.is_off)
            return 1;
    }
}

/* What a call that was cut, or that found no room, may have left of these sectors: what they held, or this value. */
static void begun(uint32_t first, uint32_t count, uint32_t value)
{
    for (uint32_t sector = first; sector < first + count; sector++)
        if (!shadows[sector].is_open)
            shadows[sector] = (struct shadow){shadows[sector].value, value, 1};
}

static int was_cut(uint32_t code)
{
    CHECK(code != MINTLINTEL_POWER_GONE || chip.is_off);
    CHECK(code != MINTLINTEL_EXHAUSTED || chip.fails > reserve);
    return code == MINTLINTEL_POWER_GONE || code == MINTLINTEL_EXHAUSTED;
}

static uint32_t write_one(uint32_t sector, int only_new)
{
    uint8_t page[CHIP_PAGE_BYTES];
    uint32_t value = ++last_value, had = shadows[sector].value != EMPTY;
    fill(page, value);
    uint32_t code = only_new ? mintlintel_durable_write_new(&device, sector, page, sizeof page)
        : mintlintel_durable_write(&device, sector, page, sizeof page);
    if (was_cut(code))
        begun(sector, 1, value);
    else {
        CHECK(code == had);
        if (!only_new || !had)
            shadows[sector].value = value;
    }
    return code;
}

static uint32_t trim_some(uint32_t first, uint32_t count)
{
    uint32_t any = 0;
    uint32_t code = mintlintel_durable_trim(&device, first, count);
    if (was_cut(code))
        begun(first, count, EMPTY);
    else {
        for (uint32_t sector = first; sector < first + count; sector++) {
            any |= shadows[sector].value != EMPTY;
            shadows[sector].value = EMPTY;
        }
        CHECK(code == any);
    }
    return code;
}

/* Calls with a wrong sector, a wrong length or a second open change nothing. */
static uint32_t refused(void)
{
    uint8_t page[CHIP_PAGE_BYTES + 1] = {0};
    struct mintlintel_block report;
    CHECK(mintlintel_durable_read(&device, sectors, page, CHIP_PAGE_BYTES) == MINTLINTEL_NO_SECTOR);
    CHECK(mintlintel_durable_write(&device, UINT32_MAX, page, CHIP_PAGE_BYTES) == MINTLINTEL_NO_SECTOR);
    CHECK(mintlintel_durable_write_new(&device, 0, page, CHIP_PAGE_BYTES + 1) == MINTLINTEL_NOT_A_PAGE);
    CHECK(mintlintel_durable_trim(&device, sectors, 1) == MINTLINTEL_NO_SECTOR);
    CHECK(mintlintel_durable_trim(&device, 1, sectors) == MINTLINTEL_NO_SECTOR);
    CHECK(mintlintel_durable_trim(&device, sectors, 0) == MINTLINTEL_EMPTY);
    CHECK(mintlintel_durable_block(&device, CHIP_BLOCKS, &report) == MINTLINTEL_NO_SUCH_BLOCK);
    CHECK(mintlintel_durable_open(&device, &nand, 1, CHIP_BLOCKS, CHIP_PAGES, CHIP_PAGE_BYTES, sectors) == MINTLINTEL_ALREADY_OPEN);
    return MINTLINTEL_DONE;
}

/* The reports agree with the device's numbers. */
static uint32_t reports(void)
{
    struct mintlintel_durable_numbers numbers;
    struct mintlintel_totals totals;
    struct mintlintel_block block;
    uint32_t live = 0;
    CHECK(mintlintel_durable_numbers(&device, &numbers) == MINTLINTEL_DONE);
    CHECK(numbers.blocks == CHIP_BLOCKS && numbers.pages == CHIP_PAGES && numbers.page_bytes == CHIP_PAGE_BYTES && numbers.sectors == sectors);
    CHECK(mintlintel_durable_counts(&device, &totals) == MINTLINTEL_DONE);
    for (uint32_t b = 0; b < CHIP_BLOCKS; b++) {
        CHECK(mintlintel_durable_block(&device, b, &block) == MINTLINTEL_DONE);
        CHECK(block.live <= CHIP_PAGES && block.retired >= chip.bad[b]);
        live += block.live;
    }
    CHECK(live <= sectors);
    return MINTLINTEL_DONE;
}

static uint32_t any_call(void)
{
    uint32_t sector = drawn(&state) % sectors, kind = drawn(&state) % 32;
    calls++;
    if (kind < 20)
        return write_one(sector, 0);
    if (kind < 23)
        return write_one(sector, 1);
    if (kind < 26)
        return trim_some(sector, 1 + drawn(&state) % (sectors - sector));
    if (kind < 29) {
        check_sector(sector);
        return chip.is_off ? MINTLINTEL_POWER_GONE : MINTLINTEL_DONE;
    }
    return kind == 29 ? mintlintel_durable_flush(&device) : kind == 30 ? refused() : reports();
}

/* A closed handle answers that it is closed. */
static void check_closed(void)
{
    uint8_t page[CHIP_PAGE_BYTES];
    struct mintlintel_totals totals;
    struct mintlintel_block block;
    struct mintlintel_durable_numbers numbers;
    close_device();
    CHECK(mintlintel_durable_read(&device, 0, page, sizeof page) == MINTLINTEL_CLOSED);
    CHECK(mintlintel_durable_write(&device, 0, page, sizeof page) == MINTLINTEL_CLOSED);
    CHECK(mintlintel_durable_write_new(&device, 0, page, sizeof page) == MINTLINTEL_CLOSED);
    CHECK(mintlintel_durable_trim(&device, 0, 1) == MINTLINTEL_CLOSED);
    CHECK(mintlintel_durable_flush(&device) == MINTLINTEL_CLOSED);
    CHECK(mintlintel_durable_counts(&device, &totals) == MINTLINTEL_CLOSED);
    CHECK(mintlintel_durable_block(&device, 0, &block) == MINTLINTEL_CLOSED);
    CHECK(mintlintel_durable_numbers(&device, &numbers) == MINTLINTEL_CLOSED);
}

/* A new chip: some blocks bad, some functions missing, and its own rates of cuts and fails. */
static void begin(void)
{
    static const uint32_t cuts[4] = {0, 4, 20, 100}, fails[4] = {0, 0, 50, 300};
    memset(&chip, 0, sizeof chip);
    memset(shadows, 0, sizeof shadows);
    chip.state = state | 1;
    uint32_t bad = drawn(&state) % 3;
    for (uint32_t i = 0; i < bad; i++)
        chip.bad[2 * i + 1] = 1;
    sectors = 1 + drawn(&state) % ((CHIP_BLOCKS - bad - 1) * CHIP_PAGES - 1);
    chip.one_cut_in = cuts[drawn(&state) % 4];
    chip.one_fail_in = fails[drawn(&state) % 4];
    chip.hides_torn = drawn(&state) % 2;
    tells_torn = !chip.hides_torn;
    reserve = sectors < (CHIP_BLOCKS - bad - 2) * CHIP_PAGES && bad == 0;
    nand = (struct mintlintel_nand){&chip, chip_read, chip_program, chip_copyback, chip_erase, chip_is_bad, chip_mark_bad, chip_sync};
    uint32_t left_out = drawn(&state);
    if (left_out & 1)
        nand.copyback = NULL;
    if (left_out & 2)
        nand.sync = NULL;
    if (left_out / 4 % 4 == 3) {
        nand.mark_bad = NULL;
        reserve = 0;
    }
}

/* A device that bad blocks have worn out is read still, and not written. */
static void check_worn(void)
{
    uint8_t page[CHIP_PAGE_BYTES] = {0};
    CHECK(mintlintel_durable_write(&device, 0, page, sizeof page) == MINTLINTEL_EXHAUSTED || chip.is_off);
    for (uint32_t sector = 0; sector < sectors; sector++)
        check_sector(sector);
}

/* No page that is needed is in a bad block, and all commands that were done are counted, before and after a block has failed. */
static void check_blocks(void)
{
    struct mintlintel_block block;
    struct mintlintel_totals totals;
    uint64_t erases = 0;
    for (uint32_t b = 0; b < CHIP_BLOCKS; b++) {
        CHECK(mintlintel_durable_block(&device, b, &block) == MINTLINTEL_DONE && block.erases == chip.erases[b]);
        CHECK(block.retired == chip.bad[b] && (!block.retired || block.live == 0));
        erases += block.erases;
    }
    CHECK(mintlintel_durable_counts(&device, &totals) == MINTLINTEL_DONE);
    CHECK(totals.programs + totals.copies == chip.programs && totals.erases == erases);
}

/* A new chip without faults, whose sectors leave room for one block in reserve. */
static void begin_sound(void)
{
    begin();
    memset(chip.bad, 0, sizeof chip.bad);
    sectors = (CHIP_BLOCKS - 2) * CHIP_PAGES - 1;
    chip.one_cut_in = chip.one_fail_in = tells_torn = 0;
    reserve = 1;
    nand.mark_bad = chip_mark_bad;
}

static void write_some(int count)
{
    for (int i = 0; i < count; i++)
        CHECK(write_one(drawn(&state) % sectors, 0) <= MINTLINTEL_WRITTEN);
}

/* A chip whose blocks were all in use gets a reserve, again and again. */
static void add_reserve(void)
{
    begin_sound();
    for (int round = 0; round < 200; round++) {
        nand.mark_bad = round % 2 ? chip_mark_bad : NULL;
        CHECK(open_device());
        write_some(1 + drawn(&state) % 60);
    }
    close_device();
}

/* With room for five blocks more than the sectors need, five blocks fail one after another, and no call is refused: another block is in reserve soon
 * after each failure. */
static void fail_often(void)
{
    for (int round = 0; round < 300; round++) {
        begin_sound();
        sectors = 2 * CHIP_PAGES - 1;
        CHECK(open_device());
        for (long failures = 1; failures <= CHIP_BLOCKS - 3; failures++) {
            write_some(60);
            chip.fail_at = chip.commands + 1 + drawn(&state) % 8;
            while (chip.fails < failures)
                write_some(1);
        }
        write_some(60);
        check_blocks();
        close_device();
    }
}

/* Opens the device as it is, and blocks that have failed before count as failed still. */
static void open_again(void)
{
    close_device();
    CHECK(mintlintel_durable_open(&device, &nand, 1, CHIP_BLOCKS, CHIP_PAGES, CHIP_PAGE_BYTES, sectors) == MINTLINTEL_DONE);
}

/* Whether each block that has failed is marked. */
static int are_marked(void)
{
    for (uint32_t b = 0; b < CHIP_BLOCKS; b++)
        if (chip.failed[b] && !chip.bad[b])
            return 0;
    return 1;
}

/* A block that has failed is marked once the call returns, also if others fail in it, and gets no command after another open; but for a call that has
 * found no room without the block, which the next one tells. */
static void mark_at_once(void)
{
    long marked = 0;
    for (int round = 0; round < 300; round++) {
        begin_sound();
        sectors = CHIP_PAGES;
        CHECK(open_device());
        chip.one_fail_in = 4 + drawn(&state) % 30;
        for (int is_marked = 1; write_one(drawn(&state) % sectors, 0) != MINTLINTEL_EXHAUSTED;) {
            CHECK(is_marked);
            is_marked = are_marked();
            marked += chip.fails * is_marked;
            if (is_marked && drawn(&state) % 8 == 0)
                open_again();
        }
        check_worn();
        close_device();
    }
    CHECK(marked > 1000);
}

/* Whether another block has the version of a page. */
static int has_twin(uint32_t block, uint32_t page)
{
    const struct chip_page *p = &chip.pages[block][page], *other = chip.pages[0];
    for (; p->contents == VERSION && other < chip.pages[CHIP_BLOCKS]; other++)
        if (other->contents == VERSION && (other < chip.pages[block] || other >= chip.pages[block + 1]) && memcmp(other->stamp, p->stamp, sizeof p->stamp) == 0)
            return 1;
    return 0;
}

/* Where a program fails, a page of its block can't be read any more, but by its stamp: one with a version that no other block has. */
static int program_and_rot(void *at, uint32_t block, uint32_t page, const void *main, const void *stamp)
{
    int answer = chip_program(at, block, page, main, stamp);
    for (uint32_t p = 0; answer == 1 && p + 1 < page; p++)
        if (!has_twin(block, p)) {
            chip.pages[block][p].contents = TORN;
            chip.pages[block][p].has_stamp = 1;
            chip.pages[block][p].main[0] ^= 1;
            return answer;
        }
    return answer;
}

/* A sector whose page can't be read in a block that has failed is lost, also after each later open, until it is written. The block is marked. */
static void lose_pages(void)
{
    uint8_t page[CHIP_PAGE_BYTES];
    long found = 0;
    for (int round = 0; round < 300; round++) {
        begin_sound();
        sectors = 2 * CHIP_PAGES;
        nand.program = program_and_rot;
        CHECK(open_device());
        write_some(200);
        chip.fail_at = chip.commands + 1 + drawn(&state) % 8;
        while (chip.fails == 0)
            write_some(1);
        CHECK(are_marked());
        uint32_t lost = sectors;
        for (uint32_t sector = 0; sector < sectors && lost == sectors; sector++)
            lost = mintlintel_durable_read(&device, sector, page, sizeof page) == MINTLINTEL_UNREADABLE ? sector : lost;
        for (int opened = 0; opened < 20; opened++) {
            for (uint32_t sector = 0; sector < sectors; sector++)
                if (sector != lost)
                    check_sector(sector);
            CHECK(lost == sectors || mintlintel_durable_read(&device, lost, page, sizeof page) == MINTLINTEL_UNREADABLE);
            open_again();
            CHECK(write_one((lost + 1 + drawn(&state) % (sectors - 1)) % sectors, 0) <= MINTLINTEL_WRITTEN);
        }
        found += lost < sectors;
        CHECK(lost == sectors || write_one(lost, 0) == MINTLINTEL_WRITTEN);
        CHECK(open_device());
        close_device();
    }
    CHECK(found > 10);
}

/* A block that needs no page is torn in each page whose version another block has too, as in an erase, and its stamps stay whole. With few sectors it
 * isn't the only one that needs none. */
static void tear_twins(void)
{
    struct mintlintel_block block;
    long found = 0;
    for (int round = 0; round < 300; round++) {
        begin_sound();
        sectors = (CHIP_BLOCKS - 2 - round % 5) * CHIP_PAGES - 1;
        CHECK(open_device());
        write_some(100 + (int)(drawn(&state) % 100));
        for (uint32_t b = 0; b < CHIP_BLOCKS; b++) {
            CHECK(mintlintel_durable_block(&device, b, &block) == MINTLINTEL_DONE);
            for (uint32_t page = 0; block.live == 0 && page < CHIP_PAGES; page++)
                if (has_twin(b, page)) {
                    chip.pages[b][page].contents = TORN;
                    chip.pages[b][page].has_stamp = 1;
                    chip.pages[b][page].main[0] ^= 1;
                    found++;
                }
        }
        chip.hides_torn = 1;
        CHECK(open_device());
        for (uint32_t sector = 0; sector < sectors; sector++)
            check_sector(sector);
        close_device();
    }
    CHECK(found > 100);
}

/* Each command of a run fails in turn, and with few sectors a second one. No call tells of it, and what was acknowledged is there, before and after an open. */
static long fail_each(void)
{
    long fails = 0;
    for (long command = 1; command <= 400; command++) {
        begin_sound();
        if (command % 2 == 0)
            sectors = 2 * CHIP_PAGES;
        chip.fail_at = command;
        CHECK(open_device());
        while (chip.commands < 600)
            write_some(1);
        CHECK(chip.fails == 1);
        if (command % 2 == 0) {
            chip.fail_at = chip.commands + 1;
            while (chip.commands < 900)
                write_some(1);
            CHECK(chip.fails == 2);
        }
        fails += chip.fails;
        reports();
        check_blocks();
        CHECK(open_device());
        close_device();
    }
    return fails;
}

/* One page trims all sectors, and none those that are empty. */
static void trim_at_once(void)
{
    struct mintlintel_totals before, after;
    begin_sound();
    CHECK(open_device());
    for (int round = 0; round < 100; round++) {
        for (uint32_t sector = round % 2; sector < sectors; sector += 2)
            CHECK(write_one(sector, 0) <= MINTLINTEL_WRITTEN);
        CHECK(mintlintel_durable_counts(&device, &before) == MINTLINTEL_DONE);
        CHECK(trim_some(0, sectors) == MINTLINTEL_WRITTEN && trim_some(0, sectors) == MINTLINTEL_EMPTY);
        CHECK(mintlintel_durable_counts(&device, &after) == MINTLINTEL_DONE && after.programs == before.programs + 1);
        if (round % 10 == 0)
            CHECK(open_device());
    }
    reports();
    close_device();
}

static void run(long steps)
{
    begin();
    if (!open_device())
        CHECK(!"a new device has no room");
    for (long step = 0; step < steps; step++) {
        uint32_t code = any_call();
        if (code == MINTLINTEL_EXHAUSTED) {
            check_worn();
            ends++;
        }
        /* A page was moved out of a bad block after the call. */
        if (chip.is_off && !was_cut(code))
            CHECK(mintlintel_durable_flush(&device) == MINTLINTEL_POWER_GONE);
        if ((was_cut(code) || chip.is_off) && !open_device())
            break;
    }
    check_closed();
}

/* A mount keeps the page of a trim that is noted as a version, and not of one that is told as a trim. Another kind is refused. */
static void note_kinds(void)
{
    struct mintlintel_core core = {0};
    struct mintlintel_place at;
    for (uint32_t kind = 1; kind <= 2; kind++) {
        CHECK(mintlintel_core_open(&core, 3, 2, 1) == MINTLINTEL_DONE);
        CHECK(mintlintel_core_note(&core, 3, 0, 1, 5) == MINTLINTEL_OTHER_DEVICE);
        CHECK(mintlintel_core_note(&core, kind, 0, 1, 5) == MINTLINTEL_DONE);
        for (int page = 1; page < 6; page++)
            CHECK(mintlintel_core_note(&core, 0, 0, 0, 0) == MINTLINTEL_DONE);
        CHECK(mintlintel_core_note(&core, 3, 0, 1, 5) == MINTLINTEL_OUT_OF_ORDER);
        CHECK(mintlintel_core_finish(&core) == MINTLINTEL_DONE);
        CHECK(mintlintel_core_page(&core, 0, &at) == (kind == 1 ? MINTLINTEL_WRITTEN : MINTLINTEL_EMPTY));
        CHECK(mintlintel_core_note(&core, 3, 0, 1, 5) == MINTLINTEL_WRONG_KIND);
        mintlintel_core_close(&core);
    }
    CHECK(mintlintel_core_note(&core, 3, 0, 1, 5) == MINTLINTEL_CLOSED);
}

/* Sets each page with a value of one of the sectors before this one to other contents, in blocks that need no page, and says how many there were. */
static long set_values(uint32_t end, enum contents from, enum contents to)
{
    struct mintlintel_block block;
    long count = 0;
    for (uint32_t b = 0; b < CHIP_BLOCKS; b++) {
        CHECK(mintlintel_durable_block(&device, b, &block) == MINTLINTEL_DONE);
        for (struct chip_page *page = chip.pages[b]; block.live == 0 && page < chip.pages[b + 1]; page++)
            if (page->contents == from && page->stamp[0] == 1 && page->stamp[8] < end) {
                page->contents = to;
                count++;
            }
    }
    return count;
}

/* Pages of a block that an erase was cut in can't be read at one mount, and read as they were at the next. The trim that hides them is kept in between,
 * though its own block may be erased. */
static void keep_trims(void)
{
    enum { TRIMMED = 2 };
    long found = 0;
    for (int round = 0; round < 1000; round++) {
        begin_sound();
        sectors = 2 * CHIP_PAGES;
        CHECK(open_device());
        for (uint32_t sector = 0; sector < sectors; sector++)
            CHECK(write_one(sector, 0) == MINTLINTEL_EMPTY);
        CHECK(trim_some(0, TRIMMED) == MINTLINTEL_WRITTEN);
        for (int mounts = 0; mounts < 2; mounts++) {
            for (uint32_t i = drawn(&state) % 20; i > 0; i--)
                CHECK(write_one(TRIMMED + drawn(&state) % (sectors - TRIMMED), 0) == MINTLINTEL_WRITTEN);
            found += set_values(TRIMMED, mounts ? TORN : VERSION, mounts ? VERSION : TORN) * mounts;
            CHECK(open_device());
        }
        close_device();
    }
    CHECK(found > 100);
}

/* A core over a flash without versions, and how often each of its blocks was erased. */
enum { CORE_BLOCKS = 256 };
static struct mintlintel_core core;
static double erases[CORE_BLOCKS];

static void open_core(uint32_t blocks, uint32_t pages, uint32_t of)
{
    memset(erases, 0, sizeof erases);
    CHECK(mintlintel_core_open(&core, blocks, pages, of) == MINTLINTEL_DONE);
    CHECK(mintlintel_core_erased(&core, 0, 1) == MINTLINTEL_WRONG_KIND);
    for (uint32_t page = 0; page < blocks * pages; page++)
        CHECK(mintlintel_core_note(&core, 0, 0, 0, 0) == MINTLINTEL_DONE);
    CHECK(mintlintel_core_finish(&core) == MINTLINTEL_DONE);
}

static void write_core(uint32_t sector)
{
    struct mintlintel_command command;
    do {
        CHECK(mintlintel_core_next(&core, sector, 1, &command) == MINTLINTEL_DONE);
        CHECK(mintlintel_core_done(&core, sector, 1, &command) == MINTLINTEL_DONE);
        if (command.kind == 3)
            erases[command.block % CORE_BLOCKS]++;
    } while (command.kind != 1);
}

/* The variance of the blocks' erases over the square of their mean, after writes of sectors in order, or of nine in ten to a tenth of them. */
static double unevenness(int in_order)
{
    enum { PAGES = 64, ALL = CORE_BLOCKS * PAGES, SECTORS = ALL / 10 * 9 };
    double sum = 0, squares = 0;
    uint64_t draws = 1;
    open_core(CORE_BLOCKS, PAGES, SECTORS);
    for (uint32_t i = 0; i < SECTORS + 20 * ALL; i++) {
        uint32_t below = drawn(&draws) % 10 ? SECTORS / 10 : SECTORS;
        write_core(in_order || i < SECTORS ? i % SECTORS : drawn(&draws) % below);
    }
    for (int block = 0; block < CORE_BLOCKS; block++) {
        sum += erases[block];
        squares += erases[block] * erases[block];
    }
    mintlintel_core_close(&core);
    return squares * CORE_BLOCKS / (sum * sum) - 1;
}

/* Of equal victims and free blocks a less erased one is taken: without that 0.0084 would be left of the second figure. */
static void wear_evenly(void)
{
    CHECK(unevenness(1) < 0.0005);
    CHECK(unevenness(0) < 0.0045);
}

/* The core counts the erases of before the mount, of the blocks that it has. */
static void take_the_least_erased(void)
{
    static const uint32_t earlier[6] = {9, 70000, 3, 8, 0, 0};
    struct mintlintel_command command;
    open_core(4, 2, 3);
    for (uint32_t block = 0; block < 6; block++)
        CHECK(mintlintel_core_erased(&core, block, earlier[block]) == MINTLINTEL_DONE);
    CHECK(mintlintel_core_next(&core, 0, 1, &command) == MINTLINTEL_DONE && command.kind == 3 && command.block == 2);
    mintlintel_core_close(&core);
    CHECK(mintlintel_core_erased(&core, 0, 1) == MINTLINTEL_CLOSED);
}

/* A device that is opened again after each few writes wears its blocks as evenly as one that stays open. */
static void wear_evenly_over_opens(void)
{
    uint32_t least = UINT32_MAX, most = 0;
    begin_sound();
    sectors = 2 * CHIP_PAGES - 1;
    for (int round = 0; round < 400; round++) {
        CHECK(open_device());
        write_some(CHIP_PAGES);
        close_device();
    }
    for (int block = 0; block < CHIP_BLOCKS - 1; block++) {
        least = chip.erases[block] < least ? chip.erases[block] : least;
        most = chip.erases[block] > most ? chip.erases[block] : most;
    }
    CHECK(least > 0 && most - least <= 10);
}

/* A number of so many bytes in a stamp. */
static uint64_t number_in(const uint8_t *bytes, int count)
{
    uint64_t number = 0;
    while (count-- > 0)
        number = number << 8 | bytes[count];
    return number;
}

/* An open tells the erases that the newest version of a block has, and none of a block without one: after a cut between its erase and its first program
 * its count is lost. */
static void lose_counts(void)
{
    long lost = 0;
    begin_sound();
    chip.hides_torn = 0;
    for (int round = 0; round < 2000; round++) {
        struct mintlintel_block block;
        CHECK(open_device());
        for (uint32_t b = 0; b < CHIP_BLOCKS; b++) {
            uint64_t told = 0, newest = 0;
            for (const struct chip_page *page = chip.pages[b]; page < chip.pages[b + 1]; page++)
                if (page->contents == VERSION && number_in(page->stamp + 1, 7) >= newest) {
                    newest = number_in(page->stamp + 1, 7);
                    told = number_in(page->stamp + 15, 3);
                }
            CHECK(mintlintel_durable_block(&device, b, &block) == MINTLINTEL_DONE && block.erases == told);
            lost += told == 0 && chip.erases[b] > 0;
        }
        chip.one_cut_in = 6;
        while (!chip.is_off)
            write_one(drawn(&state) % sectors, 0);
        chip.one_cut_in = 0;
    }
    CHECK(lost > 100);
    close_device();
}

int main(int argc, char **argv)
{
    long rounds = argc > 1 && atol(argv[1]) > 0 ? atol(argv[1]) : 300, cuts = 0, fails;
    check_closed();
    fails = fail_each();
    fail_often();
    mark_at_once();
    add_reserve();
    lose_pages();
    tear_twins();
    trim_at_once();
    note_kinds();
    wear_evenly();
    wear_evenly_over_opens();
    lose_counts();
    take_the_least_erased();
    keep_trims();
    opens = reads = 0;
    while (calls < 1000 * rounds) {
        run(1000);
        cuts += chip.cuts;
        fails += chip.fails;
    }
    printf("durable: %ld calls with %ld power cuts and %ld failed commands agree with what was acknowledged", calls, cuts, fails);
    printf(", as do %ld reads, over %ld opens; %ld times bad blocks left no room\n", reads, opens, ends);
    return 0;
}
