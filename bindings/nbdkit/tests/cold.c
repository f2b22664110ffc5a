// Cold data by itself: which block is loosened, and that nothing else changes. The device is made by hand: its brooms don't run.
#include "../cold.h"

#include "over_device.h"

enum { PAGE = 8, BLOCKS = 8, PAGES = 4, SECTORS = 12, MANY = 5, FEW = 1, COLD = 6 };

static void want(int is_so, const char *text) {
    if (!is_so)
        fail("%s", text);
}

static uint32_t place(uint32_t sector) {
    return block_of(&device.host_seats[0], sector, NULL, 0);
}

// Each sector has its own value, and the block of one has few erases.
static void begin(void) {
    device.options = (struct options){.page = PAGE, .luns = 1, .hosts = 2, .brooms = 1, .blocks = BLOCKS, .pages = PAGES, .sectors = SECTORS,
                                      .endurance = 10, .spare_blocks = 1, .low = 1, .high = 1, .wait = 1000};
    if (device_open(&device) == -1)
        abort();
    for (uint64_t sector = 0; sector < SECTORS; sector++)
        device_write(&device, 0, (const uint8_t *) &sector, PAGE, sector * PAGE);
    for (uint32_t block = 0; block < BLOCKS; block++)
        device.brooms.erases[block] = block == place(COLD) ? FEW : MANY;
    device.brooms.all_erases = BLOCKS * MANY;
}

static void look_at_all(const uint32_t *before, uint32_t moved) {
    uint32_t others = 0;
    for (uint64_t sector = 0; sector < SECTORS; sector++) {
        uint64_t value = 0;
        device_read(&device, (uint8_t *) &value, PAGE, sector * PAGE);
        want(value == sector, "a sector has changed");
        others += place((uint32_t) sector) != before[sector];
        want(place((uint32_t) sector) == before[sector] || before[sector] == before[COLD], "a page of another block was written anew");
    }
    want(others == moved, "not so many pages were written anew as are wanted");
    want(brooms_copies(&device.brooms) == moved && device.brooms.loose_count == moved, "not so many pages are counted");
    want(tally_of(&device.brooms.brooms[0].copies) == 0, "a page written anew is counted as a program of the broom's own");
    want(device.brooms.is_loose[before[COLD]] == moved, "the block isn't loose, or is without a dead page");
}

static int loosen(void) {
    uint64_t until = 0;
    return cold_loosen(&device.brooms.brooms[0], &until);
}

int main(void) {
    uint32_t before[SECTORS];
    struct host *hosts[2];
    begin();
    for (uint32_t sector = 0; sector < SECTORS; sector++)
        before[sector] = place(sector);
    for (uint32_t lock = 0; lock < SECTORS; lock++)
        lock_sector(&device.locks, lock);
    want(!loosen(), "a page was written anew without its sector's lock");
    for (uint32_t lock = 0; lock < SECTORS; lock++)
        unlock_sector(&device.locks, lock);
    look_at_all(before, 0);
    for (int i = 0; i < 2; i++)
        hosts[i] = stock_take(&device.stock);
    want(!loosen(), "a page was written anew without a handle");
    for (int i = 0; i < 2; i++)
        stock_give(&device.stock, hosts[i]);
    device.brooms.all_erases = BLOCKS * (FEW + 1) - 1;
    want(!loosen(), "a block was loosened that has nearly as many erases as the others");
    device.brooms.all_erases = BLOCKS * MANY;
    look_at_all(before, 0);
    want(loosen(), "no block was loosened");
    look_at_all(before, 1);
    want(!loosen(), "a block was loosened twice, or one with many erases");
    look_at_all(before, 1);
    device_stop(&device);
    device_close(&device);
    return failures > 0;
}
