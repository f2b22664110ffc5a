// trims [DEVICES [SEED]]: worn devices of some brooms and handles, in one thread: the test deals out the rounds at random. A write is refused only if the
// pages that can still be programmed are as many as two blocks have, or if no block can be erased any more and none is free. From then on each page that is
// trimmed in a block that can be erased gives a write, again and again. A trim in another block changes nothing. On every second device no write waits, so
// that all brooms but one may leave before. Nothing depends on time or chance.
#include <brooms.c>
#define fail fail_test
#include <stock.c>

#include "over_worn_device.h"

enum { PAGE = 8, MOST_BROOMS = 3, MOST_HOSTS = 3, MOST_PAGES = 8, DEVICES = 400 };

static unsigned tried, taken_again, writes_again, tried_in_vain, with_one_that_left;
static int waits_for_blocks;

static void choose_device(uint32_t *random) {
    struct options *o = &device.options;
    *o = (struct options){.page = PAGE, .luns = 1, .wait = 1000000};
    o->hosts = 1 + draw(random, MOST_HOSTS);
    o->brooms = 1 + draw(random, MOST_BROOMS);
    o->pages = 2 + draw(random, MOST_PAGES - 1);
    uint32_t kept = o->hosts + 2 * o->brooms;
    o->blocks = kept + 8 + draw(random, MOST_BLOCKS - kept - 7);
    o->spare_blocks = 1 + draw(random, 4);
    o->sectors = (o->blocks - kept - o->spare_blocks) * o->pages + 1;
    o->endurance = 2 + draw(random, 19);
    o->low = o->high = 1 + draw(random, 2);
    snprintf(device_name, sizeof device_name, "device %u (%u sectors, %u blocks of %u pages, endurance %u, %u handles, %u brooms): ", tried, o->sectors,
             o->blocks, o->pages, o->endurance, o->hosts, o->brooms);
}

static void go_round_of(uint32_t broom) {
    uint64_t known;
    stock_begin_round(&device.stock, broom, &known);
    go_round(&device.brooms.brooms[broom], known);
}

static int is_in_vain(struct stock *stock) {
    return is_hopeless(stock) || (is_used_up(stock) && stock->counted_at == atomic_load(&stock->changes));
}

// Rounds until a write has room, or is refused, as if it waited. Of the brooms that have work it is one at random. Each client may open a block of its own.
static void deal_rounds(uint32_t *random) {
    struct stock *stock = &device.stock;
    atomic_store(&stock->own_most, MOST_HOSTS);
    stock->waiting_to_write = stock->starving = 1;
    stock->is_gathering = 0;
    while (!has_room_for_write(stock) && !is_in_vain(stock) && failures == 0) {
        uint32_t next = NO_BLOCK, first = draw(random, stock->broom_count);
        for (uint32_t i = 0; i < stock->broom_count && next == NO_BLOCK; i++)
            if (is_wanted(stock, (first + i) % stock->broom_count))
                next = (first + i) % stock->broom_count;
        if (next != NO_BLOCK)
            go_round_of(next);
        else
            fail("a write waits, and no broom has work");
    }
    stock->waiting_to_write = stock->starving = 0;
}

static int is_written(uint32_t sector, uint32_t *random) {
    static const uint8_t page[PAGE];
    deal_rounds(random);
    device.stock.waits += (uint64_t) waits_for_blocks;
    return failures == 0 && device_write(&device, draw(random, MOST_HOSTS), page, PAGE, sector * (uint64_t) PAGE) == 0;
}

// A skewed draw, so that some blocks stay live and others die. At first each sector is written.
static void write_until_refused(uint32_t *random, uint32_t most) {
    uint32_t skew = draw(random, 3), sector;
    do {
        sector = most < device.options.sectors ? most++ : draw(random, device.options.sectors);
        for (uint32_t i = 0; i < skew && most == device.options.sectors; i++)
            sector = draw(random, sector + 1);
    } while (is_written(sector, random));
    look_for_more();
}

// What can still be programmed are the erased pages, and those of blocks that can be erased again but for the live ones. A trim in another block adds to
// neither.
static void trim_in_vain(uint32_t *random) {
    uint32_t sector = find_in_block(0, 0), block;
    struct host *host = stock_take(&device.stock);
    block = sector < device.options.sectors ? block_of(host->seat, sector, NULL, 0) : NO_BLOCK;
    stock_give(&device.stock, host);
    if (block == NO_BLOCK || !brooms_retire(&device.brooms, atomic_load(&device.brooms.erases[block])))
        return;
    device_trim(&device, PAGE, sector * (uint64_t) PAGE);
    tried_in_vain++;
    if (is_written(sector, random))
        fail("a write is done again after a trim in block %u, which can't be erased", block);
}

// After each trim a write has to be done, to the same sector or to another one.
static void trim_one_by_one(uint32_t *random) {
    uint32_t sectors = device.options.sectors, is_same = draw(random, 2), trimmed = 0, sector;
    while (trimmed < device.options.pages && failures == 0 && (sector = find_in_block(1, draw(random, sectors))) < sectors) {
        device_trim(&device, PAGE, sector * (uint64_t) PAGE);
        trimmed++;
        if (!is_written(is_same ? sector : draw(random, sectors), random))
            fail("a page was trimmed in a block that can be erased, and a write is refused (after %u trims)", trimmed);
        write_until_refused(random, sectors);
    }
    taken_again += trimmed > 0;
    writes_again += trimmed;
}

int main(int count, char **words) {
    unsigned devices = count > 1 ? (unsigned) atoi(words[1]) : DEVICES;
    uint32_t random = count > 2 ? (uint32_t) atoi(words[2]) : 1;
    for (tried = 0; tried < devices && failures == 0; tried++) {
        choose_device(&random);
        if (device_open(&device) == -1)
            abort();
        waits_for_blocks = tried % 2 == 0;
        write_until_refused(&random, 0);
        trim_in_vain(&random);
        trim_one_by_one(&random);
        with_one_that_left += device.options.brooms > 1 && device.stock.has_left[1];
        device_close(&device);
    }
    if (failures == 0 && (taken_again == 0 || tried_in_vain == 0 || with_one_that_left == 0))
        fail("no device was left with a block that can be erased or with one that can't, or no broom has left");
    printf("%u devices, %u took %u writes again, each after one trim, %u were trimmed in a block that can't be erased, and of %u a broom has left\n", tried,
           taken_again, writes_again, tried_in_vain, with_one_that_left);
    return failures > 0;
}
