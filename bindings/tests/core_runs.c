/* core_runs FILE: random calls on the core beside the plain layer, which has to allow each command and each mount, with power cuts, commands that fail,
 * blocks in reserve, trims of several sectors that a mount may drop, and pages that become unreadable. The runs of small devices are told in the file, one
 * step a line, so that bench/power_cuts compares them with the model's rule. */
#include "plain_layer.h"

struct device { uint32_t blocks, pages, sectors, reserve; };

/* Those of the model, and larger ones: nearly full; with a few sectors, for which hints are short; with a reserve. */
static const struct device small_ones[] = {
    {3, 2, 1, 0}, {3, 2, 3, 0}, {4, 2, 5, 0}, {3, 3, 5, 0}, {5, 2, 6, 0}, {4, 3, 6, 0},
    {4, 1, 1, 1}, {5, 1, 2, 1}, {5, 1, 1, 2}, {4, 2, 3, 1}, {5, 2, 5, 1}, {5, 3, 6, 1}, {5, 2, 3, 2}, {5, 3, 5, 2},
};
static const struct device large_ones[] = {
    {16, 8, 119, 0}, {40, 16, 500, 2}, {24, 24, 300, 3}, {128, 32, 600, 0}, {256, 32, 500, 1}, {96, 8, 700, 1},
};
enum { SMALL = sizeof small_ones / sizeof *small_ones, LARGE = sizeof large_ones / sizeof *large_ones };
enum { SMALL_RUNS = 60 * SMALL, SMALL_CALLS = 60, LARGE_RUNS = 20 * LARGE, LARGE_CALLS = 3000 };

enum outcome { DONE, CUT, FAILED };

static struct plain plain;
static struct mintlintel_core core;
static FILE *told; /* null: nothing is told */
static uint64_t draws = 88172645463325252u;
static uint32_t values[PLAIN_SECTORS], reserve, one_cut_in, one_fail_in, one_loss_in;
static int has_lost; /* a page of this device has become unreadable */
static long commands, cuts, failures, losses;

#define TELL(...) (void)(told && fprintf(told, __VA_ARGS__))

static uint32_t below(uint32_t bound)
{
    return bound > 0 ? drawn(&draws) % bound : 0;
}

/* A call's sectors hold what they held, or all of them its value. */
static void check_values(const struct plain_page *call)
{
    int is_before = 1, is_after = 1;
    for (uint32_t sector = 0; sector < plain.sectors; sector++) {
        uint32_t value = value_of(&plain, sector), after = has_sector(call, sector) ? call->value : values[sector];
        is_before &= value == values[sector];
        is_after &= value == after;
    }
    CHECK(is_before || is_after);
}

static void tell_mount(void)
{
    TELL("mount");
    for (uint32_t sector = 0; sector < plain.sectors; sector++) {
        const struct plain_page *page = plain.map[sector];
        if (page)
            TELL(" %u.%u=%u", block_of(&plain, page), (uint32_t)((page - plain.flash[0]) % PLAIN_PAGES), page->value);
        else
            TELL(" -");
    }
}

/* Mounts after a call that was stopped, or after a page was lost, when an older version may stand for it; 0 if no block can be freed then. */
static int mount(const struct plain_page *call)
{
    uint64_t found = 0;
    mintlintel_core_close(&core);
    CHECK(mintlintel_core_open_over(&core, plain.read_blocks, plain.blocks, plain.pages, plain.sectors) == MINTLINTEL_DONE);
    for (uint32_t block = 0; block < plain.read_blocks; block++)
        for (const struct plain_page *page = plain.flash[block]; page < plain.flash[block] + plain.pages; page++) {
            uint32_t kind = !page->has_version ? 0 : page->value == 0 && plain.drops_trims ? 2 : 1;
            CHECK(mintlintel_core_note(&core, kind, page->first, page->count, page->number) == MINTLINTEL_DONE);
        }
    uint32_t code = mintlintel_core_finish(&core);
    CHECK(code == MINTLINTEL_DONE || (has_lost && code == MINTLINTEL_NO_BLOCK));
    if (code == MINTLINTEL_NO_BLOCK)
        return 0;
    CHECK(!plain.keeps_apart || mintlintel_core_keep_apart(&core) == MINTLINTEL_DONE);
    plain_mount(&plain, &core);
    CHECK(mintlintel_core_losses(&core, &found) == MINTLINTEL_DONE && (has_lost || found == 0));
    tell_mount();
    TELL(" losses %llu\n", (unsigned long long)found);
    if (call)
        check_values(call);
    for (uint32_t sector = 0; sector < plain.sectors; sector++)
        values[sector] = value_of(&plain, sector);
    return 1;
}

/* What a command leaves that was cut or has failed, by digits to the base of 3: of each of its pages 0 what it was, 1 nothing that can be read, 2 all. */
static void leave_part(const struct mintlintel_command *command, struct plain_page call, uint32_t part)
{
    struct plain_page whole = command->kind == ERASE ? (struct plain_page){0} : put_by(&plain, command, call);
    uint32_t first = command->kind == ERASE ? 0 : command->page, end = command->kind == ERASE ? plain.pages : first + 1;
    for (uint32_t page = first; page < end; page++, part /= 3)
        if (part % 3 > 0)
            plain.flash[command->block][page] = part % 3 == 2 ? whole : (struct plain_page){0};
}

/* A block that has failed gets the last number, and the first one in reserve comes in use. */
static void give_up(uint32_t block)
{
    struct plain_page failed[PLAIN_PAGES];
    memcpy(failed, plain.flash[block], sizeof failed);
    memmove(plain.flash[block], plain.flash[block + 1], (plain.read_blocks - block - 1) * sizeof failed);
    memcpy(plain.flash[plain.read_blocks - 1], failed, sizeof failed);
    TELL("order");
    for (uint32_t number = 0; number < plain.read_blocks; number++)
        TELL(" %u", number + 1 == plain.read_blocks ? block : number + (number >= block));
    TELL("\n");
}

static void tell_command(const struct mintlintel_command *c)
{
    if (c->kind == PROGRAM)
        TELL("program %u %u %llu ", c->block, c->page, (unsigned long long)c->number);
    else if (c->kind == COPY)
        TELL("copy %u %u %u %u %u ", c->sector, c->from_block, c->from_page, c->block, c->page);
    else
        TELL("erase %u ", c->block);
}

/* Gives the command that comes next, and says what came of it. */
static enum outcome step(struct plain_page call, struct mintlintel_command *command)
{
    CHECK(mintlintel_core_next(&core, call.first, call.count, command) == MINTLINTEL_DONE);
    CHECK(plain_allows(&plain, command, call.first));
    tell_command(command);
    commands++;
    if (below(one_cut_in) == 1 || (reserve > 0 && below(one_fail_in) == 1)) {
        uint32_t part = below(729), has_failed = reserve > 0 && below(2);
        TELL("%s %u\n", has_failed ? "failed" : "cut", part);
        leave_part(command, call, part);
        if (has_failed) {
            give_up(command->block);
            reserve--;
        }
        failures += has_failed;
        cuts += !has_failed;
        return has_failed ? FAILED : CUT;
    }
    TELL("done\n");
    CHECK(mintlintel_core_done(&core, call.first, call.count, command) == MINTLINTEL_DONE);
    plain_done(&plain, command, call);
    return DONE;
}

/* Gives all commands of a call, at most one erase and as many copies as a block has pages but one, and says what came of it. */
static enum outcome make(struct plain_page call)
{
    struct mintlintel_command command = {0, 0, 0, 0, 0, 0, 0};
    for (uint32_t count = 0; command.kind != PROGRAM; count++) {
        CHECK(count <= plain.pages);
        enum outcome outcome = step(call, &command);
        if (outcome != DONE)
            return outcome;
    }
    for (uint32_t sector = call.first; sector < call.first + call.count; sector++)
        values[sector] = call.value;
    return DONE;
}

static struct plain_page any_call(uint32_t longest, uint32_t most_value)
{
    struct plain_page call = {.has_version = 1, .first = below(plain.sectors), .count = 1, .value = below(most_value + 1)};
    uint32_t left = plain.sectors - call.first;
    if (call.value == 0)
        call.count = 1 + below(left < longest ? left : longest);
    return call;
}

static int is_any_written(const struct plain_page *call)
{
    for (uint32_t sector = call->first; sector < call->first + call->count; sector++)
        if (value_of(&plain, sector))
            return 1;
    return 0;
}

/* A page becomes unreadable. */
static void lose_one(void)
{
    uint32_t block = below(plain.read_blocks), page = below(plain.pages);
    plain.flash[block][page] = (struct plain_page){0};
    TELL("lose %u %u\n", block, page);
    has_lost = 1;
    losses++;
}

static void check_totals(void)
{
    struct mintlintel_totals totals;
    CHECK(mintlintel_core_counts(&core, &totals) == MINTLINTEL_DONE && memcmp(&totals, &plain.totals, sizeof totals) == 0);
}

static void begin(const struct device *device, uint64_t run)
{
    memset(&plain, 0, sizeof plain);
    memset(values, 0, sizeof values);
    plain.blocks = device->blocks - device->reserve;
    plain.read_blocks = device->blocks;
    plain.pages = device->pages;
    plain.sectors = device->sectors;
    plain.drops_trims = (int)(run / 2 % 2);
    plain.keeps_apart = run / 4 % 2 && run % 4 != 3; /* where a page is lost the model may prefer another of two twins behind gaps */
    reserve = device->reserve;
    has_lost = 0;
    TELL("device %u %u %u %u %d\n", device->blocks, device->pages, device->sectors, device->reserve, plain.drops_trims);
    if (plain.keeps_apart)
        TELL("apart\n");
}

/* Calls on one device, until there were so many, or the loss of a page has left no block to free. */
static void play(const struct device *device, uint64_t run, uint32_t calls, uint32_t longest, uint32_t most_value)
{
    begin(device, run);
    for (struct plain_page call = {0}; mount(&call);) {
        enum outcome outcome = DONE;
        while (calls > 0 && outcome == DONE) {
            call = any_call(longest, most_value);
            calls--;
            TELL("call %u %u %u\n", call.first, call.count, call.value);
            if (call.value == 0 && !is_any_written(&call))
                TELL("nothing\n");
            else
                outcome = make(call);
        }
        check_totals();
        if (calls == 0)
            break;
        if (run % 4 == 3 && below(one_loss_in) == 1) {
            lose_one();
            if (!mount(NULL))
                break;
        }
    }
    mintlintel_core_close(&core);
}

int main(int argc, char **argv)
{
    CHECK(argc == 2);
    told = fopen(argv[1], "w");
    CHECK(told);
    one_cut_in = 12, one_fail_in = 20, one_loss_in = 4;
    for (uint64_t run = 0; run < SMALL_RUNS; run++)
        play(&small_ones[run % SMALL], run / SMALL, SMALL_CALLS, 3, 2);
    CHECK(fclose(told) == 0);
    told = NULL;
    one_cut_in = 300, one_fail_in = 2000;
    for (uint64_t run = 0; run < LARGE_RUNS; run++)
        play(&large_ones[run % LARGE], run / LARGE, LARGE_CALLS, PLAIN_SECTORS, 1000);
    CHECK(cuts > 1000 && failures > 100 && losses > 10);
    printf("core_runs: the plain layer agrees with %d devices, %ld commands, %ld power cuts, %ld failures and %ld lost pages\n", SMALL_RUNS + LARGE_RUNS,
           commands, cuts, failures, losses);
    return 0;
}
