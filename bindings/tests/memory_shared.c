/* Memory of a shared device: each allocation of an open refused in turn, and a thousand opens and closes, in changing order, without growing. */
#include "counted.h"
#include "testing.h"

enum { HOSTS = 3, BROOMS = 2, PAGE = 64 };

static struct mintlintel_seat hosts[HOSTS], brooms[BROOMS], zeros[HOSTS];

static uint32_t open_device(void)
{
    return mintlintel_shared_open(hosts, HOSTS, brooms, BROOMS, 1, 64, 16, 8, 800, 1000);
}

static void check_all_closed(void)
{
    CHECK(memcmp(hosts, zeros, sizeof hosts) == 0 && memcmp(brooms, zeros, sizeof brooms) == 0);
}

/* Closes the seats, beginning with another one each time. */
static void close_all(uint32_t first)
{
    for (uint32_t i = 0; i < HOSTS + BROOMS; i++) {
        uint32_t at = (first + i) % (HOSTS + BROOMS);
        mintlintel_seat_close(at < HOSTS ? &hosts[at] : &brooms[at - HOSTS]);
    }
    check_all_closed();
}

static long test_refused_allocations(void)
{
    long before = live;
    for (long grants = 0; grants < 1000; grants++) {
        granted = grants;
        uint32_t code = open_device();
        granted = -1;
        if (code == MINTLINTEL_DONE) {
            close_all(0);
            CHECK(live == before);
            return grants;
        }
        CHECK(code == MINTLINTEL_NO_MEMORY && live == before);
        check_all_closed();
    }
    CHECK(!"an open ends");
    return 0;
}

/* One handle is open: the others stay closed, and the open one can still be used. */
static void test_open_with_one_open_handle(void)
{
    struct mintlintel_seat other_broom[1] = {{0}};
    uint8_t page[PAGE] = {1};
    CHECK(open_device() == MINTLINTEL_DONE);
    long before = live;
    CHECK(mintlintel_shared_open(hosts, 1, other_broom, 1, 1, 64, 16, 8, 800, 1000) == MINTLINTEL_ALREADY_OPEN);
    CHECK(other_broom[0].is_open == 0 && live == before);
    struct mintlintel_seat two[2] = {{0}, {0}};
    CHECK(mintlintel_shared_open(two, 2, &brooms[1], 1, 1, 64, 16, 8, 800, 1000) == MINTLINTEL_ALREADY_OPEN);
    CHECK(two[0].is_open == 0 && two[1].is_open == 0 && live == before);
    CHECK(mintlintel_host_write(&hosts[0], 7, page, PAGE) == MINTLINTEL_EMPTY);
    close_all(1);
}

/* Seats are given up while another one holds a page: what is left works on, and nothing is left in the end. */
static void test_reopening(uint32_t times)
{
    uint8_t page[PAGE] = {1}, out[PAGE];
    long before = live;
    for (uint32_t i = 0; i < times; i++) {
        CHECK(open_device() == MINTLINTEL_DONE && live > before);
        CHECK(mintlintel_host_write(&hosts[0], 7, page, PAGE) == MINTLINTEL_EMPTY);
        CHECK(mintlintel_host_hold(&hosts[1], 7) == MINTLINTEL_WRITTEN);
        mintlintel_seat_close(&hosts[0]);
        CHECK(mintlintel_host_copy(&hosts[1], out, PAGE) == MINTLINTEL_WRITTEN && memcmp(out, page, PAGE) == 0);
        CHECK(mintlintel_host_read(&hosts[2], 7, out, PAGE) == MINTLINTEL_WRITTEN && memcmp(out, page, PAGE) == 0);
        close_all(i);
        CHECK(live == before);
    }
}

int main(void)
{
    long allocations = test_refused_allocations();
    CHECK(allocations > 0);
    test_open_with_one_open_handle();
    test_reopening(1000);
    printf("memory_shared: each of %ld allocations refused in turn, and 1000 opens left no block\n", allocations);
    return 0;
}
