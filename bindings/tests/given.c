/* Devices in memory that the caller gives: of exactly as many bytes as are asked for, and of one less. No call of theirs may reach an allocator. Linked with
 * --wrap=malloc,--wrap=calloc,--wrap=realloc,--wrap=free. Built with ThreadSanitizer it has several threads, each with devices of its own. */
#include "mintlintel_durable.h"
#include "testing.h"
#include <pthread.h>

enum { DEVICES = 400, THREADS = 4, MOST_BLOCKS = 300, MANY_BLOCKS = 4000, MOST_PAGES = 40, MOST_BYTES = 64, STAMP = MINTLINTEL_STAMP_BYTES, UNTOUCHED = 0xa5 };

struct page { uint8_t has_version, main[MOST_BYTES], stamp[STAMP]; };
/* A flash, its device, and what each sector has. */
struct run {
    uint64_t state;
    struct mintlintel_durable_numbers numbers;
    struct mintlintel_durable device;
    struct page *pages;
    uint8_t *bad;
    uint32_t *values, fail_in, failures;
};

static __thread int is_forbidden;
static __thread long taken;
static long exact, retired, refused;

void *__real_malloc(size_t bytes);
void *__real_calloc(size_t count, size_t bytes);
void *__real_realloc(void *at, size_t bytes);
void __real_free(void *at);
void *__wrap_malloc(size_t bytes);
void *__wrap_calloc(size_t count, size_t bytes);
void *__wrap_realloc(void *at, size_t bytes);
void __wrap_free(void *at);
void *__wrap_malloc(size_t bytes) { CHECK(!is_forbidden); return taken++, __real_malloc(bytes); }
void *__wrap_calloc(size_t count, size_t bytes) { CHECK(!is_forbidden); return __real_calloc(count, bytes); }
void *__wrap_realloc(void *at, size_t bytes) { CHECK(!is_forbidden); return __real_realloc(at, bytes); }
void __wrap_free(void *at) { CHECK(!is_forbidden); __real_free(at); }

static int flash_read(void *chip, uint32_t block, uint32_t page, void *main, void *stamp)
{
    struct run *run = chip;
    struct page *p = &run->pages[block * run->numbers.pages + page];
    if (!p->has_version)
        return 1;
    if (main)
        memcpy(main, p->main, run->numbers.page_bytes);
    memcpy(stamp, p->stamp, STAMP);
    return 0;
}

static int fails(struct run *run)
{
    int is_failing = run->fail_in > 0 && --run->fail_in == 0;
    run->failures += (uint32_t)is_failing;
    return is_failing;
}

static int flash_program(void *chip, uint32_t block, uint32_t page, const void *main, const void *stamp)
{
    struct run *run = chip;
    struct page *p = &run->pages[block * run->numbers.pages + page];
    if (fails(run))
        return 1;
    p->has_version = 1;
    memcpy(p->main, main, run->numbers.page_bytes);
    memcpy(p->stamp, stamp, STAMP);
    return 0;
}

static int flash_erase(void *chip, uint32_t block)
{
    struct run *run = chip;
    if (fails(run))
        return 1;
    for (uint32_t page = 0; page < run->numbers.pages; page++)
        run->pages[block * run->numbers.pages + page].has_version = 0;
    return 0;
}

static int flash_is_bad(void *chip, uint32_t block) { return ((struct run *)chip)->bad[block]; }
static int flash_mark_bad(void *chip, uint32_t block) { ((struct run *)chip)->bad[block] = 1; return 0; }

/* Opens the device in these bytes. */
static uint32_t opened(struct run *run, uint32_t flags, void *memory, size_t bytes)
{
    struct mintlintel_nand nand = {run, flash_read, flash_program, NULL, flash_erase, flash_is_bad, flash_mark_bad, NULL};
    is_forbidden = 1;
    uint32_t code = mintlintel_durable_open_in(&run->device, &nand, &run->numbers, flags, memory, bytes);
    is_forbidden = 0;
    return code;
}

static void closed(struct run *run)
{
    is_forbidden = 1;
    mintlintel_durable_close(&run->device);
    is_forbidden = 0;
}

static void fill(const struct run *run, uint8_t *page, uint32_t value)
{
    memset(page, 0, run->numbers.page_bytes);
    memcpy(page, &value, run->numbers.page_bytes < 4 ? run->numbers.page_bytes : 4);
}

/* Some calls, at whose end the device may be worn out. */
static uint32_t call(struct run *run, uint32_t count)
{
    uint8_t page[MOST_BYTES], out[MOST_BYTES];
    uint32_t code = MINTLINTEL_DONE;
    is_forbidden = 1;
    for (uint32_t i = 0; i < count && code <= MINTLINTEL_WRITTEN; i++) {
        uint32_t sector = drawn(&run->state) % run->numbers.sectors, kind = drawn(&run->state) % 16, had = run->values[sector];
        if (kind < 13) {
            run->values[sector] = 1 + drawn(&run->state) % 255;
            fill(run, page, run->values[sector]);
            code = mintlintel_durable_write(&run->device, sector, page, run->numbers.page_bytes);
            CHECK(code == (had != 0) || code == MINTLINTEL_EXHAUSTED);
        } else if (kind < 14) {
            run->values[sector] = 0;
            code = mintlintel_durable_trim(&run->device, sector, 1);
            CHECK(code == (had != 0) || code == MINTLINTEL_EXHAUSTED);
        } else {
            fill(run, page, had);
            CHECK(mintlintel_durable_read(&run->device, sector, out, run->numbers.page_bytes) == (had != 0));
            CHECK(!had || memcmp(page, out, run->numbers.page_bytes) == 0);
        }
    }
    is_forbidden = 0;
    return code;
}

static void check_sectors(struct run *run)
{
    uint8_t page[MOST_BYTES], out[MOST_BYTES];
    for (uint32_t sector = 0; sector < run->numbers.sectors; sector++) {
        fill(run, page, run->values[sector]);
        CHECK(mintlintel_durable_read(&run->device, sector, out, run->numbers.page_bytes) == (run->values[sector] != 0));
        CHECK(!run->values[sector] || memcmp(page, out, run->numbers.page_bytes) == 0);
    }
}

/* One byte too few is refused, and no byte is touched. */
static void check_refusal(struct run *run, uint32_t flags, size_t bytes)
{
    uint8_t *memory = memset(malloc(bytes - 1), UNTOUCHED, bytes - 1);
    CHECK(opened(run, flags, memory, bytes - 1) == MINTLINTEL_NO_MEMORY);
    CHECK(opened(run, flags, NULL, bytes) == MINTLINTEL_NO_MEMORY && opened(run, flags, memory, 0) == MINTLINTEL_NO_MEMORY);
    CHECK(opened(run, 4 | flags, memory, bytes - 1) == MINTLINTEL_BAD_MODE && mintlintel_durable_bytes(&run->numbers, 4) == 0);
    for (size_t at = 0; at < bytes - 1; at++)
        CHECK(memory[at] == UNTOUCHED);
    free(memory);
}

/* Opens the device in exactly as many bytes as it asks for, of which the last ones are in use too, plays, and lets blocks fail. */
static void play(struct run *run, uint32_t flags)
{
    const struct mintlintel_durable_numbers *n = &run->numbers;
    size_t bytes = (size_t)mintlintel_durable_bytes(n, flags), end = bytes;
    uint8_t *memory = memset(malloc(bytes), UNTOUCHED, bytes);
    CHECK(opened(run, flags, memory, bytes) == MINTLINTEL_DONE);
    CHECK(opened(run, flags, memory, bytes) == MINTLINTEL_ALREADY_OPEN);
    while (memory[end - 1] == UNTOUCHED)
        end--;
    /* What is last is a table of zeros, or else what the core keeps of its handle, not all of which is set. Where sectors are few for the blocks more may be
     * asked for than is needed. */
    if (n->sectors >= n->blocks) {
        CHECK(bytes - end < (flags & MINTLINTEL_TELLS_TORN ? 700 : 16));
        __atomic_fetch_add(&exact, 1, __ATOMIC_RELAXED);
    }
    check_sectors(run);
    uint32_t code = call(run, 200);
    for (int i = 0; i < 6 && code <= MINTLINTEL_WRITTEN; i++) {
        run->fail_in = 1 + drawn(&run->state) % 20;
        code = call(run, 50);
    }
    CHECK(code <= MINTLINTEL_WRITTEN || code == MINTLINTEL_EXHAUSTED);
    closed(run);
    free(memory);
}

static uint32_t below(struct run *run, uint32_t most)
{
    return 1 + drawn(&run->state) % most;
}

static void one_device(struct run *run)
{
    struct mintlintel_durable_numbers *n = &run->numbers;
    uint32_t flags = drawn(&run->state) % 4;
    *n = (struct mintlintel_durable_numbers){1, 3 + drawn(&run->state) % MOST_BLOCKS, 1 + below(run, MOST_PAGES), below(run, MOST_BYTES), 0};
    n->sectors = below(run, (n->blocks - 1) * n->pages - 1);
    if (drawn(&run->state) % 8 == 0)
        n->sectors = 1 + n->sectors % 20;
    if (drawn(&run->state) % 16 == 0)
        *n = (struct mintlintel_durable_numbers){1, MANY_BLOCKS, 2, n->page_bytes, 1 + n->sectors % 20};
    uint64_t bytes = mintlintel_durable_bytes(n, flags);
    CHECK(bytes > 0 && bytes <= mintlintel_durable_bytes(n, flags & MINTLINTEL_DESPITE_LOSSES));
    run->pages = calloc((size_t)n->blocks * n->pages, sizeof *run->pages);
    run->bad = calloc(n->blocks, 1);
    run->values = calloc(n->sectors, sizeof *run->values);
    run->fail_in = run->failures = 0;
    for (uint32_t block = 0; n->sectors < (n->blocks - 2) * n->pages && block < n->blocks; block += n->blocks - 1)
        run->bad[block] = block == 0 && drawn(&run->state) % 4 == 0;
    check_refusal(run, flags, (size_t)bytes);
    play(run, flags);
    __atomic_fetch_add(&retired, run->failures, __ATOMIC_RELAXED);
    __atomic_fetch_add(&refused, 1, __ATOMIC_RELAXED);
    free(run->pages);
    free(run->bad);
    free(run->values);
}

/* A device in memory that isn't aligned, and beside it others of the allocator's. */
static void beside(struct run *run)
{
    struct mintlintel_nand nand = {run, flash_read, flash_program, NULL, flash_erase, NULL, NULL, NULL};
    struct mintlintel_durable other = {{0, 0}, NULL};
    struct mintlintel_one one = {0};
    uint8_t page[MOST_BYTES] = {0};
    run->numbers = (struct mintlintel_durable_numbers){1, 8, 4, 8, 20};
    run->pages = calloc(32, sizeof *run->pages);
    run->bad = calloc(8, 1);
    size_t bytes = (size_t)mintlintel_durable_bytes(&run->numbers, 0);
    uint8_t *memory = malloc(bytes + 16);
    for (size_t skipped = 0; skipped < 16; skipped++) {
        size_t more = (16 - skipped) % 16;
        CHECK(!more || opened(run, 0, memory + skipped, bytes + more - 1) == MINTLINTEL_NO_MEMORY);
        CHECK(opened(run, 0, memory + skipped, bytes + more) == MINTLINTEL_DONE);
        CHECK(mintlintel_durable_open(&other, &nand, 1, 8, 4, 8, 20) == MINTLINTEL_DONE);
        CHECK(mintlintel_durable_write(&run->device, 3, page, 8) <= MINTLINTEL_WRITTEN);
        closed(run);
        long before = taken;
        CHECK(mintlintel_one_open(&one, 1, 4, 4, 1, 8, 10) == MINTLINTEL_DONE);
        CHECK(taken > before);
        mintlintel_one_close(&one);
        CHECK(mintlintel_durable_read(&other, 3, page, 8) <= MINTLINTEL_WRITTEN);
        mintlintel_durable_close(&other);
    }
    free(memory);
    free(run->pages);
    free(run->bad);
}

static void *thread(void *seed)
{
    struct run run = {.state = 88172645463325252u + (uint64_t)(uintptr_t)seed};
    beside(&run);
    for (int device = 0; device < DEVICES / THREADS; device++)
        one_device(&run);
    return NULL;
}

int main(void)
{
    pthread_t threads[THREADS];
    for (uintptr_t i = 0; i < THREADS; i++)
        CHECK(pthread_create(&threads[i], NULL, thread, (void *)(i * 977)) == 0);
    for (int i = 0; i < THREADS; i++)
        CHECK(pthread_join(threads[i], NULL) == 0);
    CHECK(exact > refused / 2 && retired > refused);
    printf("given: %ld devices in memory of the caller's, %ld of them exact, and %ld blocks that failed, without an allocator\n", refused, exact, retired);
    return 0;
}
