// lives: devices that four clients of different rates write until the first refusal, in order, by zipf or evenly at random: how much of all possible
// programs were the clients', and not copies. In order that is most of them, since each client fills blocks of its own, whose pages die together, and
// the blocks wear evenly. By zipf they don't wear evenly, as that would cost many copies. With few spare blocks a broom that isn't needed gives its own
// back: otherwise two have a twentieth more copies. Brooms and writes take turns, so it is nearly the same each time.
#include <math.h>
#include <unistd.h>

#include "../random.h"
#include "over_device.h"

enum { CLIENTS = 4, PAGE = 8, PAGES = 64, WRITES_OF_A_TURN = 16, WRITES_OF_A_LOOK = 4096, PATIENCE_S = 60, FEW_SPARE = 20 };
#define SKEW 1.2

enum pattern { IN_ORDER, BY_ZIPF, AT_RANDOM };
static const char *const pattern_names[] = {"in order", "by zipf", "at random"};

static const struct life {
    uint32_t blocks, endurance, sectors, spare, brooms;
    enum pattern pattern;
    uint32_t rates[CLIENTS]; // so many of each hundred writes
    double least;            // percent
} lives[] = {
    {288, 10, 16404, 23, 1, IN_ORDER, {25, 25, 25, 25}, 90},  {288, 10, 16404, 23, 1, IN_ORDER, {30, 25, 24, 21}, 90},
    {288, 10, 16404, 21, 2, IN_ORDER, {30, 25, 24, 21}, 90},  {288, 10, 11428, 101, 1, IN_ORDER, {30, 25, 24, 21}, 93},
    {288, 10, 11428, 99, 2, IN_ORDER, {30, 25, 24, 21}, 93},  {288, 10, 11428, 101, 1, BY_ZIPF, {30, 25, 24, 21}, 63},
    {288, 10, 11428, 99, 2, BY_ZIPF, {30, 25, 24, 21}, 63},   {60, 20, 2400, 16, 1, AT_RANDOM, {25, 25, 25, 25}, 59},
    {60, 20, 2400, 14, 2, AT_RANDOM, {25, 25, 25, 25}, 59},
};

// The marks are those that the plugin chooses.
static void open_device(const struct life *life) {
    uint32_t ahead = life->spare < FEW_SPARE ? 0 : life->spare / 4, most = 8 + 2 * life->brooms, more = ahead < 8 ? ahead : 8;
    uint32_t low = ahead < 1 ? 1 : ahead < most ? ahead : most;
    device.options = (struct options){.page = PAGE, .luns = 1, .hosts = CLIENTS, .brooms = life->brooms, .blocks = life->blocks, .pages = PAGES,
                                      .sectors = life->sectors, .endurance = life->endurance, .spare_blocks = life->spare, .low = low, .high = low + more,
                                      .wait = 1000 * PATIENCE_S};
    if (device_open(&device) == -1 || device_start(&device) == -1)
        abort();
    stock_hold_brooms(&device.stock, 1);
}

// A number below 1.
static double draw(uint64_t *random) {
    return (double) (next_number(random) >> 11) / (double) ((uint64_t) 1 << 53);
}

static uint32_t draw_client(uint64_t *random, const uint32_t *rates) {
    uint32_t at = (uint32_t) (100 * draw(random)), client = 0;
    while (client < CLIENTS - 1 && at >= rates[client])
        at -= rates[client++];
    return client;
}

// How likely the first of a client's sectors are drawn: each by a power of its place, or all alike.
static double *shares(uint32_t sectors, enum pattern pattern) {
    double *share = calloc(sectors, sizeof *share), sum = 0;
    for (uint32_t i = 0; i < sectors; i++)
        share[i] = sum += pattern == BY_ZIPF ? pow(i + 1, -SKEW) : 1;
    for (uint32_t i = 0; i < sectors; i++)
        share[i] /= sum;
    return share;
}

static uint32_t draw_by(uint64_t *random, const double *share, uint32_t sectors) {
    double wanted = draw(random);
    uint32_t low = 0, high = sectors - 1;
    while (low < high) {
        uint32_t middle = (low + high) / 2;
        if (share[middle] < wanted)
            low = middle + 1;
        else
            high = middle;
    }
    return low;
}

// At rest no more blocks are counted as free than the library has: none that a broom keeps. A handle may be about to take one.
static void look_at_free_blocks(uint32_t blocks) {
    uint32_t free = 0;
    for (uint32_t block = 0; block < blocks; block++) {
        struct mintlintel_state state;
        mintlintel_broom_block(&device.broom_seats[0], block, &state);
        free += state.phase == MINTLINTEL_PHASE_FREE;
    }
    if (device.stock.free_count > (int32_t) free)
        fail("%d blocks are counted as free, and %u are", device.stock.free_count, free);
}

// The erased blocks that brooms have kept.
static uint64_t all_kept(void) {
    uint64_t kept = 0;
    for (uint32_t i = 0; i < device.options.brooms; i++)
        kept += tally_of(&device.brooms.brooms[i].kept);
    return kept;
}

// The clients' percent of all programs, up to the first refusal. Each client writes all its sectors first.
static double live(const struct life *life) {
    static const uint8_t page[PAGE];
    uint32_t own = life->sectors / CLIENTS, written[CLIENTS] = {0}, writes = 0;
    double *share = shares(own, life->pattern);
    uint64_t random = 1, kept = 0;
    open_device(life);
    for (int is_refused = 0; !is_refused && failures == 0; writes += (uint32_t) !is_refused) {
        uint32_t client = draw_client(&random, life->rates), number = written[client]++;
        uint32_t at = life->pattern != IN_ORDER && number >= own ? draw_by(&random, share, own) : number % own;
        is_refused = device_write(&device, client, page, PAGE, (at * CLIENTS + client) * (uint64_t) PAGE) == -1;
        if (writes % WRITES_OF_A_TURN == 0 && !is_refused)
            stock_turn_of_brooms(&device.stock);
        if (writes % WRITES_OF_A_TURN == 0 && !is_refused && (kept != all_kept() || writes % WRITES_OF_A_LOOK == 0)) {
            look_at_free_blocks(life->blocks);
            kept = all_kept();
        }
    }
    stock_hold_brooms(&device.stock, 0);
    device_stop(&device);
    device_close(&device);
    free(share);
    return 100.0 * writes / (life->blocks * PAGES * life->endurance);
}

int main(void) {
    enum { COUNT = sizeof lives / sizeof *lives };
    double percents[COUNT];
    alarm(5 * PATIENCE_S);
    for (int at = 0; at < COUNT && failures == 0; at++) {
        const struct life *life = &lives[at];
        percents[at] = live(life);
        if (failures == 0 && percents[at] < life->least)
            fail("%s with %.0f %% in use: clients had %.1f %% of all programs (%u brooms)", pattern_names[life->pattern],
                 100.0 * life->sectors / (life->blocks * PAGES), percents[at], life->brooms);
    }
    for (int at = 0; at < COUNT; at++)
        printf("%s%.1f", at ? ", " : "clients had ", percents[at]);
    printf(" %% of all programs\n");
    return failures > 0;
}
