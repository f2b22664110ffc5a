/* Memory of a device for one thread: each allocation of an open refused in turn, a thousand opens and closes without growing, and large pages
 * asked for in what an open takes and nowhere else. */
#include "counted.h"
#include "testing.h"
#include <sys/mman.h>

enum { PAGE = 64 };

static uint32_t open_device(struct mintlintel_one *device)
{
    return mintlintel_one_open(device, 1, 64, 16, 8, 900, 10);
}

static long test_refused_allocations(void)
{
    struct mintlintel_one device = {0}, zero = {0};
    long before = live;
    for (long grants = 0; grants < 1000; grants++) {
        granted = grants;
        uint32_t code = open_device(&device);
        granted = -1;
        if (code == MINTLINTEL_DONE) {
            mintlintel_one_close(&device);
            CHECK(live == before);
            return grants;
        }
        CHECK(code == MINTLINTEL_NO_MEMORY && live == before);
        CHECK(memcmp(&device, &zero, sizeof device) == 0);
    }
    CHECK(!"an open ends");
    return 0;
}

/* An open handle takes no memory, so a second open of it returns the same code if no memory is left. */
static void test_open_handle_without_memory(void)
{
    struct mintlintel_one device = {0};
    uint8_t page[PAGE] = {1}, out[PAGE];
    CHECK(open_device(&device) == MINTLINTEL_DONE);
    granted = 0;
    CHECK(open_device(&device) == MINTLINTEL_ALREADY_OPEN);
    for (uint32_t i = 0; i < 5000; i++)
        CHECK(mintlintel_one_write(&device, i % 900, page, PAGE) == (i >= 900));
    CHECK(mintlintel_one_read(&device, 7, out, PAGE) == MINTLINTEL_WRITTEN && memcmp(out, page, PAGE) == 0);
    granted = -1;
    mintlintel_one_close(&device);
}

static void test_reopening(int times)
{
    struct mintlintel_one device = {0};
    uint8_t page[PAGE] = {1};
    long before = live;
    for (int i = 0; i < times; i++) {
        CHECK(open_device(&device) == MINTLINTEL_DONE && live > before);
        CHECK(mintlintel_one_write(&device, 7, page, PAGE) == MINTLINTEL_EMPTY);
        mintlintel_one_close(&device);
        CHECK(live == before);
    }
}

/* What the system was asked for, at the end of an open: the linker puts this in front of madvise. */
static uint8_t *advised;
static size_t advised_bytes;
int __wrap_madvise(void *begin, size_t bytes, int advice);

int __wrap_madvise(void *begin, size_t bytes, int advice)
{
    CHECK(advice == MADV_HUGEPAGE && (uintptr_t)begin % (2 << 20) == 0 && bytes % (2 << 20) == 0 && bytes > 0);
    CHECK(last_bytes >= bytes && (uint8_t *)begin >= last && (uint8_t *)begin + bytes <= last + last_bytes);
    advised = begin;
    advised_bytes += bytes;
    return -1;
}

static void test_large_pages(void)
{
    enum { WORDS = 512, BLOCKS = 500, PAGES = 32 };
    size_t pages = (size_t)BLOCKS * PAGES * WORDS * 8;
    struct mintlintel_one device = {0};
    CHECK(advised == NULL && mintlintel_one_open(&device, 1, BLOCKS, PAGES, WORDS, 9000, 10) == MINTLINTEL_DONE);
    CHECK(advised != NULL && advised_bytes > pages - 2 * (2 << 20));
    mintlintel_one_close(&device);
}

int main(void)
{
    long allocations = test_refused_allocations();
    CHECK(allocations > 0);
    test_open_handle_without_memory();
    test_reopening(1000);
    test_large_pages();
    printf("memory_one: each of %ld allocations refused in turn, and 1000 opens left no block\n", allocations);
    return 0;
}
