/* A device with blocks in reserve: a call in which a block fails reads what the block holds and no more, allocates nothing, and leaves the block empty and
 * marked. Linked with --wrap=malloc and --wrap=calloc. */
#include "mintlintel_durable.h"
#include "testing.h"
#include <stdlib.h>

enum { BLOCKS = 200, PAGES = 8, BYTES = 64, SECTORS = 1200, FAILURES = 4, STAMP = MINTLINTEL_STAMP_BYTES };
enum contents { ERASED, TORN, WHOLE };

struct page { enum contents contents; uint8_t main[BYTES], stamp[STAMP]; };

static struct page pages[BLOCKS][PAGES];
static uint8_t failed[BLOCKS], bad[BLOCKS], values[SECTORS];
static long reads, commands, fail_at, failures, allocations;
static uint64_t state = 0x2545f4914f6cdd1du;

void *__real_malloc(size_t bytes);
void *__real_calloc(size_t count, size_t bytes);
void *__wrap_malloc(size_t bytes);
void *__wrap_calloc(size_t count, size_t bytes);
void *__wrap_malloc(size_t bytes) { return allocations++, __real_malloc(bytes); }
void *__wrap_calloc(size_t count, size_t bytes) { return allocations++, __real_calloc(count, bytes); }

static int flash_read(void *chip, uint32_t block, uint32_t page, void *main, void *stamp)
{
    const struct page *p = &pages[block][page];
    (void)chip;
    reads++;
    CHECK(!bad[block]);
    if (p->contents != WHOLE)
        return p->contents == ERASED ? 1 : 2;
    if (main)
        memcpy(main, p->main, BYTES);
    memcpy(stamp, p->stamp, STAMP);
    return 0;
}

/* Whether the command that was just begun on a block fails. */
static int fails(uint32_t block)
{
    CHECK(!failed[block]);
    failed[block] = ++commands == fail_at;
    failures += failed[block];
    return failed[block];
}

/* A program that fails leaves nothing, a torn page, or all of it. */
static int flash_program(void *chip, uint32_t block, uint32_t page, const void *main, const void *stamp)
{
    struct page *p = &pages[block][page];
    (void)chip;
    CHECK(p->contents == ERASED);
    int is_failing = fails(block);
    p->contents = is_failing ? (enum contents)(drawn(&state) % 3) : WHOLE;
    memcpy(p->main, main, BYTES);
    memcpy(p->stamp, stamp, STAMP);
    return is_failing;
}

static int flash_erase(void *chip, uint32_t block)
{
    (void)chip;
    int is_failing = fails(block);
    for (int page = 0; page < PAGES; page++)
        if (!is_failing || drawn(&state) % 2)
            pages[block][page].contents = is_failing ? TORN : ERASED;
    return is_failing;
}

static int flash_is_bad(void *chip, uint32_t block) { return (void)chip, bad[block]; }

/* The mark may stand where pages stood. */
static int flash_mark_bad(void *chip, uint32_t block)
{
    (void)chip;
    CHECK(failed[block] && !bad[block]);
    bad[block] = 1;
    for (int page = 0; page < PAGES; page++)
        pages[block][page].contents = TORN;
    return 0;
}

static const struct mintlintel_nand nand = {NULL, flash_read, flash_program, NULL, flash_erase, flash_is_bad, flash_mark_bad, NULL};

static void write_one(struct mintlintel_durable *device)
{
    uint32_t sector = (uint32_t)(drawn(&state) % SECTORS);
    uint8_t page[BYTES];
    memset(page, ++values[sector], BYTES);
    CHECK(mintlintel_durable_write(device, sector, page, BYTES) <= MINTLINTEL_WRITTEN);
}

static void check_sectors(struct mintlintel_durable *device)
{
    uint8_t page[BYTES], wanted[BYTES];
    for (uint32_t sector = 0; sector < SECTORS; sector++) {
        memset(wanted, values[sector], BYTES);
        uint32_t code = mintlintel_durable_read(device, sector, page, BYTES);
        CHECK(code == (values[sector] ? MINTLINTEL_WRITTEN : MINTLINTEL_EMPTY) && (code == MINTLINTEL_EMPTY || memcmp(page, wanted, BYTES) == 0));
    }
}

/* Writes until a command fails, and checks the call that it fails in. */
static void fail_once(struct mintlintel_durable *device)
{
    long before = failures;
    fail_at = commands + 1 + (long)(drawn(&state) % 40);
    while (failures == before) {
        reads = allocations = 0;
        write_one(device);
    }
    CHECK(reads <= 6 * PAGES && allocations == 0);
    for (int block = 0; block < BLOCKS; block++)
        CHECK(bad[block] == failed[block]);
}

int main(void)
{
    long most = 0;
    for (int round = 0; round < 50; round++) {
        struct mintlintel_durable device = {0};
        memset(pages, 0, sizeof pages);
        memset(failed, 0, sizeof failed);
        memset(bad, 0, sizeof bad);
        memset(values, 0, sizeof values);
        for (int failure = 0; failure < FAILURES; failure++) {
            if (failure % 2 == 0) {
                mintlintel_durable_close(&device);
                CHECK(mintlintel_durable_open(&device, &nand, 1, BLOCKS, PAGES, BYTES, SECTORS) == MINTLINTEL_DONE);
            }
            for (int i = 0; i < 2000; i++)
                write_one(&device);
            fail_once(&device);
            most = reads > most ? reads : most;
            check_sectors(&device);
        }
        mintlintel_durable_close(&device);
    }
    printf("retire: %ld blocks have failed, and no call in which one did read more than %ld of %d pages\n", failures, most, BLOCKS * PAGES);
    return 0;
}
