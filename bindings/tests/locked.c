/* Devices for one thread behind locks: by one thread against an array of sectors; then four threads at once, which never meet in a part, and each
 * read returns the last write that was done before it, or one that was under way. The linker puts a check in front of each call of a part. */
#include "counted.h"
#include "mintlintel_locked.h"
#include "testing.h"
#include <pthread.h>
#include <sched.h>

#ifdef __SANITIZE_THREAD__
void __tsan_write_range(void *start, unsigned long size);
#define ANNOUNCE(handle) __tsan_write_range((handle), sizeof *(handle))
#else
#define ANNOUNCE(handle) ((void)(handle))
#endif

enum { THREADS = 4, PARTS = 3, BLOCKS = 8, PAGES = 4, WORDS = 2, PAGE = 8 * WORDS, EACH = 20, SECTORS = PARTS * EACH, ENDURANCE = 1000000, FLAGS = 4096 };

static struct mintlintel_locked device;

/* Whether somebody is in the part with this handle. The flags order nothing, so ThreadSanitizer sees what the locks order. */
static int is_taken[FLAGS];

static int *flag_of(const struct mintlintel_one *handle)
{
    return &is_taken[(uintptr_t)handle / 8 % FLAGS];
}

static void enter(struct mintlintel_one *handle)
{
    CHECK(__atomic_exchange_n(flag_of(handle), 1, __ATOMIC_RELAXED) == 0);
    ANNOUNCE(handle);
    sched_yield();
}

static uint32_t leave(struct mintlintel_one *handle, uint32_t code)
{
    __atomic_store_n(flag_of(handle), 0, __ATOMIC_RELAXED);
    return code;
}

/* Puts the check in front of a call of a part. */
#define CHECKED(name, parameters, ...)                                               \
    uint32_t __real_mintlintel_one_##name parameters;                                \
    uint32_t __wrap_mintlintel_one_##name parameters;                                \
    uint32_t __wrap_mintlintel_one_##name parameters                                 \
    {                                                                                \
        enter(handle);                                                               \
        return leave(handle, __real_mintlintel_one_##name(handle, __VA_ARGS__));     \
    }
CHECKED(read, (struct mintlintel_one *handle, uint32_t sector, uint8_t *out, size_t bytes), sector, out, bytes)
CHECKED(write, (struct mintlintel_one *handle, uint32_t sector, const uint8_t *bytes, size_t count), sector, bytes, count)
CHECKED(write_new, (struct mintlintel_one *handle, uint32_t sector, const uint8_t *bytes, size_t count), sector, bytes, count)
CHECKED(trim, (struct mintlintel_one *handle, uint32_t sector), sector)
CHECKED(counts, (struct mintlintel_one *handle, struct mintlintel_totals *totals), totals)
CHECKED(block, (struct mintlintel_one *handle, uint32_t block, struct mintlintel_block *report), block, report)

static uint32_t opened(uint32_t parts, uint32_t endurance)
{
    return mintlintel_locked_open(&device, parts, 1, BLOCKS, PAGES, WORDS, EACH, endurance);
}

static uint32_t write_value(uint32_t sector, uint32_t value)
{
    uint8_t page[PAGE];
    for (size_t i = 0; i < PAGE; i += sizeof value)
        memcpy(page + i, &value, sizeof value);
    return mintlintel_locked_write(&device, sector, page, PAGE);
}

/* the value of a sector, the same in its whole page; 0 of an empty one */
static uint32_t read_value(uint32_t sector)
{
    uint8_t page[PAGE];
    uint32_t value = 0, other, code = mintlintel_locked_read(&device, sector, page, PAGE);
    CHECK(code <= MINTLINTEL_WRITTEN);
    for (size_t i = 0; code == MINTLINTEL_WRITTEN && i < PAGE; i += sizeof other) {
        memcpy(&other, page + i, sizeof other);
        value = i == 0 ? other : value;
        CHECK(other == value && value != 0);
    }
    return value;
}

/* The totals and the blocks are those of so many writes, with as many sectors written. */
static void check_counts(uint64_t writes, uint32_t written)
{
    struct mintlintel_totals totals = {7, 7, 7};
    struct mintlintel_block block;
    uint64_t erases = 0, live = 0;
    CHECK(mintlintel_locked_counts(&device, &totals) == MINTLINTEL_DONE && totals.programs == writes);
    for (uint32_t number = 0; number < PARTS * BLOCKS; number++) {
        CHECK(mintlintel_locked_block(&device, number, &block) == MINTLINTEL_DONE);
        erases += block.erases;
        live += block.live;
    }
    CHECK(erases == totals.erases && live == written);
    CHECK(mintlintel_locked_block(&device, PARTS * BLOCKS, &block) == MINTLINTEL_NO_SUCH_BLOCK);
}

static void test_is_an_array(void)
{
    uint32_t values[SECTORS] = {0}, written = 0;
    uint64_t state = 88172645463325252u, writes = 0;
    uint8_t page[PAGE];
    CHECK(opened(PARTS, ENDURANCE) == MINTLINTEL_DONE);
    for (uint32_t i = 1; i < 200000; i++) {
        uint32_t sector = drawn(&state) % SECTORS, kind = drawn(&state) % 8, was = values[sector] != 0;
        if (kind < 3) {
            CHECK(write_value(sector, i) == was);
        } else if (kind == 3) {
            for (size_t at = 0; at < PAGE; at += sizeof i)
                memcpy(page + at, &i, sizeof i);
            CHECK(mintlintel_locked_write_new(&device, sector, page, PAGE) == was);
        } else if (kind == 4) {
            CHECK(mintlintel_locked_trim(&device, sector) == was);
        }
        writes += kind < 3 || (kind == 3 && !was);
        values[sector] = kind < 3 || (kind == 3 && !was) ? i : kind == 4 ? 0 : values[sector];
        written += (values[sector] != 0) - was;
        CHECK(read_value(sector) == values[sector]);
        if (i % 1000 == 0)
            check_counts(writes, written);
    }
    mintlintel_locked_close(&device);
}

/* A part is worn out by its own writes; the others go on, and all can be read. */
static void test_parts_wear_out_apart(void)
{
    uint32_t code = MINTLINTEL_DONE, i = 1;
    CHECK(opened(PARTS, 2) == MINTLINTEL_DONE);
    for (; code <= MINTLINTEL_WRITTEN; i++)
        code = write_value(i % 2 * PARTS, i);
    CHECK(code == MINTLINTEL_WORN_OUT && i > BLOCKS * PAGES && write_value(PARTS, 1) == MINTLINTEL_WORN_OUT);
    CHECK(write_value(1, 7) == MINTLINTEL_EMPTY && write_value(2, 8) == MINTLINTEL_EMPTY);
    CHECK(read_value(0) > 0 && read_value(1) == 7 && read_value(2) == 8 && mintlintel_locked_trim(&device, 0) == MINTLINTEL_WRITTEN);
    mintlintel_locked_close(&device);
}

static void test_refusals(void)
{
    struct mintlintel_totals totals = {7, 7, 7};
    struct mintlintel_block block = {7, 7, 7};
    uint8_t page[PAGE + 1] = {0};
    CHECK(mintlintel_locked_read(&device, 0, page, PAGE) == MINTLINTEL_CLOSED && mintlintel_locked_write(&device, 0, page, PAGE) == MINTLINTEL_CLOSED);
    CHECK(mintlintel_locked_write_new(&device, 0, page, PAGE) == MINTLINTEL_CLOSED && mintlintel_locked_trim(&device, 0) == MINTLINTEL_CLOSED);
    CHECK(mintlintel_locked_counts(&device, &totals) == MINTLINTEL_CLOSED && mintlintel_locked_block(&device, 0, &block) == MINTLINTEL_CLOSED);
    CHECK(totals.programs == 7 && block.erases == 7);
    mintlintel_locked_close(&device);
    CHECK(mintlintel_locked_open(&device, PARTS, 1, 2, PAGES, WORDS, EACH, 1) == MINTLINTEL_BAD_BLOCKS && device.at == NULL);
    CHECK(opened(0, 1) == MINTLINTEL_DONE && opened(PARTS, 1) == MINTLINTEL_ALREADY_OPEN);
    CHECK(mintlintel_locked_write(&device, EACH - 1, page, PAGE) == MINTLINTEL_EMPTY);
    CHECK(mintlintel_locked_write(&device, EACH, page, PAGE) == MINTLINTEL_NO_SECTOR);
    CHECK(mintlintel_locked_write(&device, 0, page, PAGE + 1) == MINTLINTEL_NOT_A_PAGE);
    CHECK(mintlintel_locked_read(&device, 0, page, 0) == MINTLINTEL_NOT_A_PAGE);
    mintlintel_locked_close(&device);
}

/* Each allocation of an open is refused in turn: nothing stays open, and no memory taken. */
static void test_refused_allocations(void)
{
    long before = live, grants = 0;
    uint32_t code;
    do {
        granted = grants++;
        code = opened(PARTS, 1);
        granted = -1;
        CHECK(code == MINTLINTEL_DONE || (code == MINTLINTEL_NO_MEMORY && device.at == NULL && live == before));
    } while (code != MINTLINTEL_DONE && grants < 1000);
    CHECK(code == MINTLINTEL_DONE && grants > 2 * PARTS);
    mintlintel_locked_close(&device);
    CHECK(live == before);
}

/* Of each sector the count of the last write that was begun and of the last one that was done, by its only writer. */
static uint32_t begun[SECTORS], done[SECTORS];
static uint32_t rounds = 20000;

static void *run(void *argument)
{
    uint32_t me = (uint32_t)(uintptr_t)argument;
    uint64_t state = 88172645463325252u + me;
    for (uint32_t i = 1; i <= rounds; i++) {
        uint32_t sector = drawn(&state) % SECTORS;
        if (sector % THREADS == me && drawn(&state) % 2 == 0) {
            __atomic_store_n(&begun[sector], i, __ATOMIC_SEQ_CST);
            CHECK(write_value(sector, i) == (done[sector] > 0));
            __atomic_store_n(&done[sector], i, __ATOMIC_SEQ_CST);
        }
        if (i % 4 == 0) {
            struct mintlintel_totals totals;
            struct mintlintel_block block;
            CHECK(mintlintel_locked_counts(&device, &totals) == MINTLINTEL_DONE);
            CHECK(mintlintel_locked_block(&device, drawn(&state) % (PARTS * BLOCKS), &block) == MINTLINTEL_DONE && block.live <= PAGES);
        }
        uint32_t least = __atomic_load_n(&done[sector], __ATOMIC_SEQ_CST), value = read_value(sector);
        CHECK(value >= least && value <= __atomic_load_n(&begun[sector], __ATOMIC_SEQ_CST));
    }
    return NULL;
}

static void test_threads(void)
{
    pthread_t threads[THREADS];
    CHECK(opened(PARTS, ENDURANCE) == MINTLINTEL_DONE);
    for (uintptr_t i = 0; i < THREADS; i++)
        CHECK(pthread_create(&threads[i], NULL, run, (void *)i) == 0);
    for (int i = 0; i < THREADS; i++)
        CHECK(pthread_join(threads[i], NULL) == 0);
    for (uint32_t sector = 0; sector < SECTORS; sector++)
        CHECK(read_value(sector) == done[sector]);
    mintlintel_locked_close(&device);
}

int main(void)
{
    test_is_an_array();
    test_parts_wear_out_apart();
    test_refusals();
    test_refused_allocations();
    test_threads();
    printf("locked: %d parts are one array, for one thread and for %d\n", PARTS, THREADS);
}
