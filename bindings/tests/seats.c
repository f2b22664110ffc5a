/* What remains of a seat after its close, and each code of a broom's calls: exact sequences of calls by one thread. */
#include "testing.h"

enum { WORDS = 2, PAGE = 8 * WORDS, BLOCKS = 8, PAGES = 2, SECTORS = 4, ENDURANCE = 2 };

static struct mintlintel_seat hosts[2], brooms[1];
static struct mintlintel_seat *const first = &hosts[0], *const second = &hosts[1], *const broom = &brooms[0];

static void open_device(void)
{
    CHECK(mintlintel_shared_open(hosts, 2, brooms, 1, 1, BLOCKS, PAGES, WORDS, SECTORS, ENDURANCE) == MINTLINTEL_DONE);
}

static void close_device(void)
{
    mintlintel_seat_close(first);
    mintlintel_seat_close(second);
    mintlintel_seat_close(broom);
}

static uint32_t write_byte(struct mintlintel_seat *host, uint32_t sector, int byte)
{
    uint8_t page[PAGE];
    memset(page, byte, PAGE);
    return mintlintel_host_write(host, sector, page, PAGE);
}

static void check_read(struct mintlintel_seat *host, uint32_t sector, int byte)
{
    uint8_t page[PAGE], wanted[PAGE];
    memset(wanted, byte, PAGE);
    CHECK(mintlintel_host_read(host, sector, page, PAGE) == MINTLINTEL_WRITTEN && memcmp(page, wanted, PAGE) == 0);
}

/* the block of a sector's page */
static uint32_t block_of(struct mintlintel_seat *host, uint32_t sector)
{
    struct mintlintel_page page;
    CHECK(mintlintel_host_hold(host, sector) == MINTLINTEL_WRITTEN);
    CHECK(mintlintel_host_held(host, &page) == MINTLINTEL_DONE && mintlintel_host_release(host) == MINTLINTEL_DONE);
    return page.block;
}

/* A drain returns this and, if it is done, this block and this many pages. Otherwise both numbers are unchanged. */
static void check_drain(uint32_t code, uint32_t block, uint32_t moved)
{
    uint32_t number = 77, count = 78;
    CHECK(mintlintel_broom_drain(broom, &number, &count) == code);
    CHECK(number == (code == MINTLINTEL_DONE ? block : 77) && count == (code == MINTLINTEL_DONE ? moved : 78));
}

/* No broom can drain the block that a host has open. Once the host is closed, the block counts as full, with one page programmed. */
static void test_close_of_host_leaves_its_block_full(void)
{
    open_device();
    CHECK(write_byte(first, 0, 1) == MINTLINTEL_EMPTY);
    uint32_t block = block_of(second, 0);
    CHECK(write_byte(second, 0, 2) == MINTLINTEL_WRITTEN && block_of(second, 0) != block);
    check_drain(MINTLINTEL_NOTHING_TO_GAIN, 0, 0);
    mintlintel_seat_close(first);
    check_drain(MINTLINTEL_DONE, block, 0);
    CHECK(mintlintel_broom_erase(broom, block) == MINTLINTEL_DONE);
    check_read(second, 0, 2);
    close_device();
}

/* The close of a host that holds a page removes its pin. */
static void test_close_of_holder_removes_its_pin(void)
{
    open_device();
    CHECK(write_byte(first, 0, 1) == MINTLINTEL_EMPTY && write_byte(first, 0, 2) == MINTLINTEL_WRITTEN);
    uint32_t block = block_of(first, 0);
    CHECK(mintlintel_host_hold(second, 0) == MINTLINTEL_WRITTEN);
    check_drain(MINTLINTEL_DONE, block, 1);
    CHECK(mintlintel_broom_erase(broom, block) == MINTLINTEL_PINNED);
    CHECK(mintlintel_broom_erase(broom, block) == MINTLINTEL_PINNED);
    mintlintel_seat_close(second);
    CHECK(mintlintel_broom_erase(broom, block) == MINTLINTEL_KEPT);
    CHECK(mintlintel_broom_erase(broom, block) == MINTLINTEL_STALE);
    check_read(first, 0, 2);
    close_device();
}

/* A held page of a drained block doesn't change until the release; an erase after that is not refused. */
static void test_release_removes_the_pin(void)
{
    uint8_t page[PAGE], wanted[PAGE];
    memset(wanted, 2, PAGE);
    open_device();
    CHECK(write_byte(first, 0, 1) == MINTLINTEL_EMPTY && write_byte(first, 0, 2) == MINTLINTEL_WRITTEN);
    uint32_t block = block_of(first, 0);
    CHECK(mintlintel_host_hold(second, 0) == MINTLINTEL_WRITTEN);
    CHECK(write_byte(first, 0, 3) == MINTLINTEL_WRITTEN);
    check_drain(MINTLINTEL_DONE, block, 0);
    CHECK(mintlintel_broom_erase(broom, block) == MINTLINTEL_PINNED);
    CHECK(mintlintel_host_copy(second, page, PAGE) == MINTLINTEL_WRITTEN && memcmp(page, wanted, PAGE) == 0);
    CHECK(mintlintel_host_release(second) == MINTLINTEL_DONE);
    CHECK(mintlintel_broom_erase(broom, block) == MINTLINTEL_DONE);
    check_read(second, 0, 3);
    close_device();
}

/* One host programs every page of every block except the broom's spare: then each write returns 7, and so does each write_new, also of a
 * written sector. A sector can still be trimmed and read. */
static void test_full_device(void)
{
    uint8_t page[PAGE] = {0};
    open_device();
    for (int i = 0; i < (BLOCKS - 1) * PAGES; i++)
        CHECK(write_byte(first, 0, i) == (i > 0));
    for (int i = 0; i < 2; i++) {
        CHECK(write_byte(first, 0, 99) == MINTLINTEL_NO_BLOCK && write_byte(second, 1, 99) == MINTLINTEL_NO_BLOCK);
        CHECK(mintlintel_host_write_new(first, 0, page, PAGE) == MINTLINTEL_NO_BLOCK);
        CHECK(mintlintel_host_write_new(second, 1, page, PAGE) == MINTLINTEL_NO_BLOCK);
    }
    check_read(second, 0, (BLOCKS - 1) * PAGES - 1);
    CHECK(mintlintel_host_read(second, 1, page, PAGE) == MINTLINTEL_EMPTY);
    CHECK(mintlintel_host_trim(first, 0) == MINTLINTEL_WRITTEN);
    for (uint32_t block = 0; block < BLOCKS - 1; block++) {
        check_drain(MINTLINTEL_DONE, block, 0);
        CHECK(mintlintel_broom_erase(broom, block) == MINTLINTEL_DONE);
    }
    check_drain(MINTLINTEL_NOTHING_TO_GAIN, 0, 0);
    CHECK(write_byte(second, 1, 5) == MINTLINTEL_EMPTY);
    close_device();
}

/* A block's second erase of two is its last: it is retired, and never written again. */
static void test_last_erase(void)
{
    open_device();
    for (uint32_t round = 1; round <= ENDURANCE; round++) {
        CHECK(write_byte(first, 0, 1) == (round > 1) && write_byte(first, 0, 2) == MINTLINTEL_WRITTEN);
        uint32_t block = block_of(first, 0);
        CHECK(block == 0 && mintlintel_host_trim(first, 0) == MINTLINTEL_WRITTEN && write_byte(second, 0, 3) == MINTLINTEL_EMPTY);
        check_drain(MINTLINTEL_DONE, block, 0);
        CHECK(mintlintel_broom_erase(broom, block) == (round == ENDURANCE ? MINTLINTEL_RETIRED : MINTLINTEL_DONE));
        CHECK(mintlintel_broom_erase(broom, block) == MINTLINTEL_STALE);
    }
    CHECK(write_byte(first, 1, 1) == MINTLINTEL_EMPTY && block_of(first, 1) != 0);
    close_device();
}

/* A broom whose spare became the destination has none, until an erase or a restock gives it one. */
static void test_spare(void)
{
    uint32_t block;
    open_device();
    CHECK(mintlintel_broom_restock(broom) == MINTLINTEL_DONE);
    CHECK(write_byte(first, 0, 1) == MINTLINTEL_EMPTY && write_byte(first, 1, 1) == MINTLINTEL_EMPTY && write_byte(second, 1, 2) == MINTLINTEL_WRITTEN);
    block = block_of(first, 0);
    check_drain(MINTLINTEL_DONE, block, 1);
    check_drain(MINTLINTEL_NO_SPARE, 0, 0);
    CHECK(mintlintel_broom_restock(broom) == MINTLINTEL_DONE);
    check_drain(MINTLINTEL_NOTHING_TO_GAIN, 0, 0);
    CHECK(mintlintel_broom_erase(broom, block) == MINTLINTEL_DONE);
    close_device();
    open_device();
    CHECK(write_byte(first, 0, 1) == MINTLINTEL_EMPTY && write_byte(first, 1, 1) == MINTLINTEL_EMPTY && write_byte(second, 1, 2) == MINTLINTEL_WRITTEN);
    check_drain(MINTLINTEL_DONE, block, 1);
    while (write_byte(second, 2, 3) <= MINTLINTEL_WRITTEN)
        ;
    CHECK(mintlintel_broom_restock(broom) == MINTLINTEL_NO_SPARE);
    CHECK(mintlintel_broom_erase(broom, block) == MINTLINTEL_KEPT);
    CHECK(mintlintel_broom_restock(broom) == MINTLINTEL_DONE);
    close_device();
}

/* A drain by the last survey takes the next best block of it, returns 22 if a block has changed its state since, and never names one twice. */
static void test_drain_next(void)
{
    uint32_t block = 77, moved = 78;
    open_device();
    CHECK(mintlintel_broom_drain_next(broom, &block, &moved) == MINTLINTEL_NOTHING_TO_GAIN && block == 77 && moved == 78);
    for (int i = 0; i < 6; i++)
        CHECK(write_byte(first, 0, i) == (i > 0));
    check_drain(MINTLINTEL_DONE, 0, 0);
    CHECK(mintlintel_broom_drain_next(broom, &block, &moved) == MINTLINTEL_DONE && block == 1 && moved == 0);
    CHECK(mintlintel_host_hold(second, 0) == MINTLINTEL_WRITTEN);
    block = 77, moved = 78;
    CHECK(mintlintel_broom_drain_next(broom, &block, &moved) == MINTLINTEL_LOST && block == 77 && moved == 78);
    CHECK(mintlintel_broom_drain_next(broom, &block, &moved) == MINTLINTEL_NOTHING_TO_GAIN && block == 77 && moved == 78);
    CHECK(mintlintel_host_release(second) == MINTLINTEL_DONE);
    check_drain(MINTLINTEL_DONE, 2, 1);
    check_read(first, 0, 5);
    close_device();
}

/* A broom without a spare drains a block as soon as it has no live page, and after its erase it has a spare again. */
static void test_drain_of_a_dead_block(void)
{
    uint32_t block = 77, moved = 78, lost;
    open_device();
    CHECK(mintlintel_broom_drain_dead(broom, &block, &moved) == MINTLINTEL_NOTHING_TO_GAIN && block == 77 && moved == 78);
    CHECK(write_byte(first, 0, 1) == MINTLINTEL_EMPTY && write_byte(first, 1, 1) == MINTLINTEL_EMPTY && write_byte(second, 1, 2) == MINTLINTEL_WRITTEN);
    lost = block_of(first, 0);
    CHECK(mintlintel_broom_drain_dead(broom, &block, &moved) == MINTLINTEL_NO_SPARE && block == 77 && moved == 78);
    check_drain(MINTLINTEL_DONE, lost, 1);
    while (write_byte(second, 2, 3) <= MINTLINTEL_WRITTEN)
        ;
    CHECK(mintlintel_broom_restock(broom) == MINTLINTEL_NO_SPARE);
    check_drain(MINTLINTEL_NO_SPARE, 0, 0);
    for (uint32_t sector = 0; sector < SECTORS; sector++)
        mintlintel_host_trim(first, sector);
    check_drain(MINTLINTEL_NO_SPARE, 0, 0);
    CHECK(mintlintel_broom_drain_dead(broom, &block, &moved) == MINTLINTEL_DONE && block == 1 && moved == 0);
    CHECK(mintlintel_broom_erase(broom, block) == MINTLINTEL_KEPT);
    CHECK(mintlintel_broom_drain_next(broom, &block, &moved) == MINTLINTEL_DONE && block == 2 && moved == 0);
    CHECK(mintlintel_broom_erase(broom, block) == MINTLINTEL_DONE && write_byte(second, 2, 4) == MINTLINTEL_EMPTY);
    check_read(first, 2, 4);
    close_device();
}

/* One look says whether a sector is written. */
static void test_look(void)
{
    open_device();
    for (uint32_t sector = 0; sector < SECTORS; sector++)
        CHECK(mintlintel_host_look(first, sector) == MINTLINTEL_EMPTY);
    CHECK(write_byte(first, 2, 1) == MINTLINTEL_EMPTY);
    for (uint32_t sector = 0; sector < SECTORS; sector++)
        CHECK(mintlintel_host_look(second, sector) == (sector == 2));
    CHECK(mintlintel_host_trim(second, 2) == MINTLINTEL_WRITTEN && mintlintel_host_look(first, 2) == MINTLINTEL_EMPTY);
    CHECK(mintlintel_host_look(first, SECTORS) == MINTLINTEL_NO_SECTOR && mintlintel_host_look(broom, 0) == MINTLINTEL_WRONG_KIND);
    close_device();
    CHECK(mintlintel_host_look(first, 0) == MINTLINTEL_CLOSED);
}

/* The two structs of a handle have the same two words. A call through a pointer of the other type finds a handle of another kind: it returns 9,
 * or 8 for an open, and changes nothing. */
static void test_handle_of_the_other_type(void)
{
    struct mintlintel_one device = {0}, *seat = (struct mintlintel_one *)first;
    struct mintlintel_seat *one = (struct mintlintel_seat *)&device, none[1] = {{0}};
    uint8_t page[PAGE] = {5}, kept[PAGE] = {5};
    struct mintlintel_totals totals = {1, 2, 3}, totals_kept = totals;
    struct mintlintel_block report = {1, 2, 3}, report_kept = report;
    struct mintlintel_numbers numbers = {1, 2, 3, 4, 5, 6, 7, 8}, numbers_kept = numbers;
    struct mintlintel_page place = {1, 2}, place_kept = place;
    uint32_t block = 77, moved = 78;
    uint64_t word = 79;
    open_device();
    CHECK(mintlintel_one_open(&device, 1, BLOCKS, PAGES, WORDS, SECTORS, ENDURANCE) == MINTLINTEL_DONE);
    CHECK(write_byte(first, 0, 1) == MINTLINTEL_EMPTY && mintlintel_one_write(&device, 1, page, PAGE) == MINTLINTEL_EMPTY);
    CHECK(mintlintel_one_open(seat, 1, BLOCKS, PAGES, WORDS, SECTORS, ENDURANCE) == MINTLINTEL_ALREADY_OPEN);
    CHECK(mintlintel_one_read(seat, 0, page, PAGE) == MINTLINTEL_WRONG_KIND && mintlintel_one_write(seat, 0, page, PAGE) == MINTLINTEL_WRONG_KIND);
    CHECK(mintlintel_one_write_new(seat, 1, page, PAGE) == MINTLINTEL_WRONG_KIND && mintlintel_one_trim(seat, 0) == MINTLINTEL_WRONG_KIND);
    CHECK(mintlintel_one_counts(seat, &totals) == MINTLINTEL_WRONG_KIND && mintlintel_one_block(seat, 0, &report) == MINTLINTEL_WRONG_KIND);
    CHECK(mintlintel_one_numbers(seat, &numbers) == MINTLINTEL_WRONG_KIND && mintlintel_seat_numbers(one, &numbers) == MINTLINTEL_WRONG_KIND);
    CHECK(mintlintel_shared_open(one, 1, none, 1, 1, BLOCKS, PAGES, WORDS, SECTORS, ENDURANCE) == MINTLINTEL_ALREADY_OPEN);
    CHECK(mintlintel_host_read(one, 1, page, PAGE) == MINTLINTEL_WRONG_KIND && mintlintel_host_write(one, 1, page, PAGE) == MINTLINTEL_WRONG_KIND);
    CHECK(mintlintel_host_write_new(one, 0, page, PAGE) == MINTLINTEL_WRONG_KIND && mintlintel_host_trim(one, 1) == MINTLINTEL_WRONG_KIND);
    CHECK(mintlintel_host_look(one, 1) == MINTLINTEL_WRONG_KIND && mintlintel_host_hold(one, 1) == MINTLINTEL_WRONG_KIND);
    CHECK(mintlintel_host_copy(one, page, PAGE) == MINTLINTEL_WRONG_KIND && mintlintel_host_word(one, 0, &word) == MINTLINTEL_WRONG_KIND);
    CHECK(mintlintel_host_held(one, &place) == MINTLINTEL_WRONG_KIND && mintlintel_host_release(one) == MINTLINTEL_WRONG_KIND);
    CHECK(mintlintel_broom_drain(one, &block, &moved) == MINTLINTEL_WRONG_KIND);
    CHECK(mintlintel_broom_drain_next(one, &block, &moved) == MINTLINTEL_WRONG_KIND);
    CHECK(mintlintel_broom_drain_dead(one, &block, &moved) == MINTLINTEL_WRONG_KIND);
    CHECK(mintlintel_broom_erase(one, 0) == MINTLINTEL_WRONG_KIND && mintlintel_broom_restock(one) == MINTLINTEL_WRONG_KIND);
    CHECK(memcmp(page, kept, PAGE) == 0 && memcmp(&totals, &totals_kept, sizeof totals) == 0 && memcmp(&report, &report_kept, sizeof report) == 0);
    CHECK(memcmp(&numbers, &numbers_kept, sizeof numbers) == 0 && memcmp(&place, &place_kept, sizeof place) == 0);
    CHECK(block == 77 && moved == 78 && word == 79 && none[0].is_open == 0);
    check_read(first, 0, 1);
    CHECK(mintlintel_one_counts(&device, &totals) == MINTLINTEL_DONE && totals.programs == 1);
    mintlintel_one_close(&device);
    close_device();
}

/* A drain marks the other closed blocks; an erase of one of them is stale, and takes its mark away: no drain by this survey finds it. */
static void test_stale_erase_takes_the_mark_away(void)
{
    uint32_t number, count;
    for (int erases = 0; erases < 2; erases++) {
        open_device();
        for (int i = 0; i < 6; i++)
            write_byte(first, 0, i);
        check_drain(MINTLINTEL_DONE, 0, 0);
        if (erases)
            CHECK(mintlintel_broom_erase(broom, 1) == MINTLINTEL_STALE);
        CHECK(mintlintel_broom_drain_next(broom, &number, &count) == MINTLINTEL_DONE && number == (erases ? 2u : 1u));
        close_device();
    }
}

int main(void)
{
    test_stale_erase_takes_the_mark_away();
    test_close_of_host_leaves_its_block_full();
    test_close_of_holder_removes_its_pin();
    test_release_removes_the_pin();
    test_full_device();
    test_last_erase();
    test_spare();
    test_drain_next();
    test_drain_of_a_dead_block();
    test_look();
    test_handle_of_the_other_type();
    puts("seats: what remains of a closed seat, and each code of a broom's calls");
    return 0;
}
