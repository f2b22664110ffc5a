#include "cold.h"

#include "random.h"

enum { LOOKS = 64 }; // sectors whose blocks are compared

struct found {
    uint32_t sector, block, erases;
};

// Of the blocks that have the pages of some sectors, which are drawn at random, the one with the fewest erases.
static struct found look(struct broom *broom, struct host *host) {
    struct brooms *all = broom->all;
    struct found least = {.block = NO_BLOCK, .erases = UINT32_MAX};
    for (int i = 0; i < LOOKS; i++) {
        uint32_t sector = (uint32_t) (next_number(&broom->random) % all->sectors), block = block_of(host->seat, sector, NULL, 0);
        uint32_t erases = block == NO_BLOCK || atomic_load(&all->is_loose[block]) ? UINT32_MAX : atomic_load(&all->erases[block]);
        if (erases < least.erases)
            least = (struct found){.sector = sector, .block = block, .erases = erases};
    }
    return least;
}

// Whether a block is closed, and has at least one erase less than the blocks have on average.
static int is_cold(struct broom *broom, const struct found *found) {
    struct brooms *all = broom->all;
    struct mintlintel_state state;
    return found->block != NO_BLOCK && (found->erases + (uint64_t) 1) * all->blocks <= atomic_load(&all->all_erases)
           && mintlintel_broom_block(announced(broom->seat), found->block, &state) == MINTLINTEL_DONE && state.phase == MINTLINTEL_PHASE_CLOSED;
}

// Writes a sector's page anew if it is still in its block, under the sector's lock: 1 if it did.
static int renew(struct broom *broom, struct host *host, const struct found *found, uint64_t *until) {
    struct brooms *all = broom->all;
    uint8_t page[MAX_PAGE_BYTES];
    if (block_of(host->seat, found->sector, page, all->page) != found->block
        || mintlintel_host_write(announced(host->seat), found->sector, page, all->page) != MINTLINTEL_WRITTEN)
        return 0;
    tally_add(&broom->renewed, 1);
    *until = luns_copy(all->luns, found->block, block_of(host->seat, found->sector, NULL, 0), 0);
    return 1;
}

int cold_loosen(struct broom *broom, uint64_t *until) {
    struct brooms *all = broom->all;
    struct host *host = stock_try_to_write(all->stock);
    int is_renewed = 0;
    if (!host)
        return 0;
    struct found found = look(broom, host);
    if (is_cold(broom, &found) && try_lock_sector(all->locks, found.sector)) {
        is_renewed = renew(broom, host, &found, until);
        unlock_sector(all->locks, found.sector);
    }
    if (is_renewed)
        stock_give_written(all->stock, host, &(struct attempt){0});
    else
        stock_give(all->stock, host);
    if (is_renewed && !atomic_exchange(&all->is_loose[found.block], 1))
        atomic_fetch_add(&all->loose_count, 1);
    return is_renewed;
}
