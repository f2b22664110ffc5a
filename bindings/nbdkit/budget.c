#include "budget.h"

// The erased pages of blocks that can't be erased again, and all pages of the others, as if none was live. Notes these, and whether there are any.
static uint64_t count_blocks(struct broom *broom, int *is_any) {
    struct brooms *all = broom->all;
    uint64_t pages = 0;
    *is_any = 0;
    for (uint32_t block = 0; block < all->blocks; block++) {
        struct mintlintel_state state = {0};
        mintlintel_broom_block(announced(broom->seat), block, &state);
        int can_be_erased = !brooms_retire(all, atomic_load(&all->erases[block])), is_open = state.phase <= MINTLINTEL_PHASE_OPEN;
        all->can_be_erased[block] = (uint8_t) can_be_erased;
        *is_any |= can_be_erased;
        pages += can_be_erased ? all->pages : is_open ? all->pages - state.written : 0;
    }
    return pages;
}

static uint64_t count_live(struct brooms *all, struct host *host) {
    uint64_t live = 0;
    for (uint32_t sector = 0; sector < all->sectors; sector++) {
        uint32_t block = block_of(host->seat, sector, NULL, 0);
        live += block != NO_BLOCK && all->can_be_erased[block];
    }
    return live;
}

// A write that goes on meanwhile takes at most the page that is kept for it.
int budget_count(struct broom *broom) {
    struct brooms *all = broom->all;
    struct count count;
    int is_any;
    pthread_rwlock_wrlock(&all->choosing);
    stock_begin_count(all->stock, &count);
    uint64_t pages = count_blocks(broom, &is_any);
    struct host *host = stock_take(all->stock);
    pages -= count_live(all, host);
    stock_give(all->stock, host);
    pthread_rwlock_unlock(&all->choosing);
    return stock_end_count(all->stock, &count, is_any ? pages : UINT64_MAX);
}
