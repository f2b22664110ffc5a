// What the tests of worn devices share: draws, which sectors are trimmed, and whether a write was refused early or late.
#ifndef TESTS_OVER_WORN_DEVICE_H
#define TESTS_OVER_WORN_DEVICE_H

#include "over_device.h"

enum { MOST_BLOCKS = 30 };

static uint32_t draw(uint32_t *random, uint32_t count) {
    *random = *random * 1664525 + 1013904223;
    return (uint32_t) ((*random >> 8) * (uint64_t) count >> 24);
}

static int can_be_erased(uint32_t block) {
    struct mintlintel_state state;
    mintlintel_broom_block(&device.broom_seats[0], block, &state);
    return state.erases + 1 < device.options.endurance;
}

// A sector in a block that can be erased, or in one that can't, from this one on; or as many as there are if none is.
static uint32_t find_in_block(int is_erasable, uint32_t from) {
    struct host *host = stock_take(&device.stock);
    uint32_t count = device.options.sectors, found = count, block;
    for (uint32_t i = 0; i < count && found == count; i++) {
        uint32_t sector = (from + i) % count;
        if ((block = block_of(host->seat, sector, NULL, 0)) != NO_BLOCK && can_be_erased(block) == is_erasable)
            found = sector;
    }
    stock_give(&device.stock, host);
    return found;
}

static void count_live(uint32_t *live) {
    struct mintlintel_seat *host = &device.host_seats[0];
    memset(live, 0, MOST_BLOCKS * sizeof *live);
    for (uint32_t sector = 0; sector < device.options.sectors; sector++) {
        struct mintlintel_page page;
        if (mintlintel_host_hold(host, sector) != MINTLINTEL_WRITTEN)
            continue;
        mintlintel_host_held(host, &page);
        mintlintel_host_release(host);
        live[page.block]++;
    }
}

// What can still be programmed without a trim: the erased pages, and the dead ones of blocks that can be erased again. `is_any` says whether any can be.
static uint32_t count_pages(int *is_any) {
    uint32_t live[MOST_BLOCKS], pages = 0;
    count_live(live);
    *is_any = 0;
    for (uint32_t block = 0; block < device.options.blocks; block++) {
        struct mintlintel_state state;
        mintlintel_broom_block(&device.broom_seats[0], block, &state);
        *is_any |= can_be_erased(block);
        if (can_be_erased(block))
            pages += device.options.pages - live[block];
        else if (state.phase == MINTLINTEL_PHASE_FREE || state.phase == MINTLINTEL_PHASE_OPEN)
            pages += device.options.pages - state.written;
        if (device.brooms.erases[block] != state.erases && state.phase != MINTLINTEL_PHASE_RETIRED)
            fail("block %u was erased %u times, and %u are counted", block, state.erases, device.brooms.erases[block]);
    }
    return pages;
}

// At a refusal these pages are as many as two blocks have, so that one trimmed page is enough for a write. If no block can be erased any more, clients
// have had all that was free.
static void look_for_more(void) {
    int is_any;
    uint32_t pages = device.options.brooms > 0 ? count_pages(&is_any) : 0, wanted = 2 * device.options.pages;
    if (device.options.brooms == 0)
        return;
    if (is_any && pages != wanted)
        fail("a write was refused, and %u pages can be programmed, and not %u", pages, wanted);
    if (!is_any && device.stock.open_count > 0)
        fail("a write was refused, and %u handles have room", device.stock.open_count);
    for (uint32_t block = 0; block < device.options.blocks; block++) {
        struct mintlintel_state state;
        mintlintel_broom_block(&device.broom_seats[0], block, &state);
        if (!is_any && state.phase == MINTLINTEL_PHASE_FREE)
            fail("a write was refused, and block %u is free", block);
    }
}

#endif
