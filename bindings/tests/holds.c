/* A held page doesn't change while its sector is overwritten and its block is drained: the block is not erased before the release. */
#include "testing.h"

enum { HOSTS = 2, BROOMS = 1, SECTORS = 24, WORDS = 4, PAGE = 8 * WORDS, BLOCKS = 16, PAGES = 4 };

static struct mintlintel_seat hosts[HOSTS], brooms[BROOMS];
static uint64_t state = 88172645463325252u;

static void fill(uint8_t *page, uint32_t sector, uint32_t number)
{
    for (int i = 0; i < PAGE; i += 8) {
        memcpy(page + i, &sector, 4);
        memcpy(page + i + 4, &number, 4);
    }
    page[3] = (uint8_t)number;
}

/* Overwrites a sector, and collects until there is room or the broom has no spare left. An erase of the held block, once it is drained,
 * returns that a host reads it. */
static void overwrite(uint32_t number, const struct mintlintel_page *held, long *pinned, uint32_t *waiting)
{
    uint8_t page[PAGE];
    uint32_t sector = drawn(&state) % SECTORS, block, moved;
    fill(page, sector, number);
    while (mintlintel_host_write(&hosts[1], sector, page, PAGE) == MINTLINTEL_NO_BLOCK) {
        uint32_t code = mintlintel_broom_drain(&brooms[0], &block, &moved);
        if (code == MINTLINTEL_NO_SPARE)
            return;
        CHECK(code == MINTLINTEL_DONE);
        code = mintlintel_broom_erase(&brooms[0], block);
        CHECK((code == MINTLINTEL_PINNED) == (block == held->block));
        CHECK(code == MINTLINTEL_PINNED || code == MINTLINTEL_DONE || code == MINTLINTEL_KEPT);
        if (code == MINTLINTEL_PINNED) {
            (*pinned)++;
            *waiting = block;
        }
    }
}

/* The held page by its bytes, by each word as a little-endian number, and by its place. */
static void check_held_page(const uint8_t *page, const struct mintlintel_page *place)
{
    uint8_t out[PAGE];
    struct mintlintel_page now;
    uint64_t word, wanted;
    CHECK(mintlintel_host_copy(&hosts[0], out, PAGE) == MINTLINTEL_WRITTEN && memcmp(out, page, PAGE) == 0);
    for (uint32_t i = 0; i < WORDS; i++) {
        wanted = 0;
        for (int k = 7; k >= 0; k--)
            wanted = wanted << 8 | page[8 * i + k];
        CHECK(mintlintel_host_word(&hosts[0], i, &word) == MINTLINTEL_DONE && word == wanted);
    }
    CHECK(mintlintel_host_held(&hosts[0], &now) == MINTLINTEL_DONE && memcmp(&now, place, sizeof now) == 0);
}

/* A host that holds a page returns 9 for the calls of one that holds none, and the other way round; neither changes anything. */
static void test_wrong_kind(void)
{
    uint8_t page[PAGE] = {7}, kept[PAGE] = {7};
    uint64_t word = 5;
    struct mintlintel_page place = {5, 6};
    CHECK(mintlintel_host_read(&hosts[0], 0, page, PAGE) == MINTLINTEL_WRONG_KIND);
    CHECK(mintlintel_host_write(&hosts[0], 0, page, PAGE) == MINTLINTEL_WRONG_KIND);
    CHECK(mintlintel_host_write_new(&hosts[0], 0, page, PAGE) == MINTLINTEL_WRONG_KIND);
    CHECK(mintlintel_host_trim(&hosts[0], 0) == MINTLINTEL_WRONG_KIND);
    CHECK(mintlintel_host_hold(&hosts[0], 0) == MINTLINTEL_WRONG_KIND);
    CHECK(mintlintel_host_copy(&hosts[0], page, PAGE - 1) == MINTLINTEL_NOT_A_PAGE);
    CHECK(mintlintel_host_word(&hosts[0], WORDS, &word) == MINTLINTEL_NO_SUCH_WORD);
    CHECK(mintlintel_host_copy(&hosts[1], page, PAGE) == MINTLINTEL_WRONG_KIND);
    CHECK(mintlintel_host_word(&hosts[1], 0, &word) == MINTLINTEL_WRONG_KIND);
    CHECK(mintlintel_host_held(&hosts[1], &place) == MINTLINTEL_WRONG_KIND);
    CHECK(mintlintel_host_release(&hosts[1]) == MINTLINTEL_WRONG_KIND);
    CHECK(mintlintel_host_hold(&hosts[1], SECTORS) == MINTLINTEL_NO_SECTOR);
    CHECK(memcmp(page, kept, PAGE) == 0 && word == 5 && place.block == 5 && place.generation == 6);
}

int main(void)
{
    uint8_t page[PAGE];
    long pinned = 0;
    CHECK(mintlintel_shared_open(hosts, HOSTS, brooms, BROOMS, 1, BLOCKS, PAGES, WORDS, SECTORS, 1000000) == MINTLINTEL_DONE);
    for (uint32_t sector = 0; sector < SECTORS; sector++)
        CHECK(mintlintel_host_hold(&hosts[0], sector) == MINTLINTEL_EMPTY);
    for (uint32_t round = 1; round <= 200; round++) {
        uint32_t sector = drawn(&state) % SECTORS, waiting = BLOCKS;
        struct mintlintel_page place = {BLOCKS, 0}, nowhere = place;
        overwrite(1000 * round, &nowhere, &pinned, &waiting);
        fill(page, sector, round);
        while (mintlintel_host_write(&hosts[1], sector, page, PAGE) == MINTLINTEL_NO_BLOCK)
            overwrite(1000 * round, &nowhere, &pinned, &waiting);
        CHECK(mintlintel_host_hold(&hosts[0], sector) == MINTLINTEL_WRITTEN);
        CHECK(mintlintel_host_held(&hosts[0], &place) == MINTLINTEL_DONE && place.block < BLOCKS);
        test_wrong_kind();
        for (uint32_t i = 0; i < 60; i++) {
            overwrite(1000 * round + i, &place, &pinned, &waiting);
            check_held_page(page, &place);
        }
        CHECK(mintlintel_host_release(&hosts[0]) == MINTLINTEL_DONE);
        if (waiting < BLOCKS) {
            uint32_t code = mintlintel_broom_erase(&brooms[0], waiting);
            CHECK(code == MINTLINTEL_DONE || code == MINTLINTEL_KEPT);
        }
    }
    CHECK(pinned > 0);
    for (int i = 0; i < HOSTS; i++)
        mintlintel_seat_close(&hosts[i]);
    mintlintel_seat_close(&brooms[0]);
    printf("holds: %ld erases were refused because of a held page, which did not change\n", pinned);
    return 0;
}
