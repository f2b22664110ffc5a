// to_the_end [DEVICES [SEED]]: small devices of random numbers, whose clients write and trim at random until each was refused some times. The last
// refusal may not be early or late: who reads the blocks and the map afterwards finds as many pages as two blocks have that can be programmed, or no block
// that can be erased, and none that is free. And the programs and erases that are counted are those of the blocks; with long pages, some copies are of
// sectors that are written meanwhile. Then each sector that is trimmed in a block that can be erased gives a write. No time decides: a write that waits
// for what can't come ends the test.
#include <unistd.h>

#include "over_worn_device.h"

enum { LONG_PAGE = 4096, MOST_PAGES = 8, MOST_CLIENTS = 4, MOST_OF_A_REQUEST = 4, MOST_REFUSALS = 12, PATIENCE_S = 240, DEVICES = 200 };

static unsigned tried, taken_again, with_one_that_left;
static _Atomic int has_ended;

static void choose(uint32_t *random) {
    struct options *o = &device.options;
    *o = (struct options){.page = draw(random, 2) ? 8 : LONG_PAGE, .luns = 1, .wait = 10000 * PATIENCE_S};
    o->hosts = 1 + draw(random, MOST_CLIENTS);
    o->brooms = draw(random, 8) ? 1 + draw(random, 3) : 0;
    o->pages = 1 + draw(random, MOST_PAGES);
    uint32_t kept = o->hosts + 2 * o->brooms;
    o->blocks = kept + 2 + draw(random, MOST_BLOCKS - kept - 1);
    o->spare_blocks = 1 + draw(random, o->blocks - kept - 1);
    o->sectors = (o->blocks - kept - o->spare_blocks) * o->pages + 1;
    o->endurance = 1 + draw(random, draw(random, 2) ? 4 : 20);
    o->low = 1 + draw(random, 3);
    o->high = o->low + draw(random, 3);
    snprintf(device_name, sizeof device_name, "device %u (%u sectors, %u blocks of %u pages, endurance %u, %u handles, %u brooms): ", tried, o->sectors,
             o->blocks, o->pages, o->endurance, o->hosts, o->brooms);
}

// ---- Clients.

static void *read_at_random(void *unused) {
    uint8_t page[LONG_PAGE];
    uint32_t random = tried, bytes = device.options.page;
    (void) unused;
    while (!atomic_load(&has_ended))
        device_read(&device, page, bytes, draw(&random, device.options.sectors) * (uint64_t) bytes);
    return NULL;
}

// A skewed draw, so that some blocks stay live and others die.
static void *write_until_refused(void *number) {
    static const uint8_t zeros[MOST_OF_A_REQUEST * LONG_PAGE];
    uint32_t bytes = device.options.page, random = tried * 31 + *(uint32_t *) number, refusals = 1 + draw(&random, MOST_REFUSALS), skew = draw(&random, 3);
    while (refusals > 0) {
        uint32_t sector = draw(&random, device.options.sectors), left;
        for (uint32_t i = 0; i < skew; i++)
            sector = draw(&random, sector + 1);
        left = device.options.sectors - sector;
        uint32_t count = (1 + draw(&random, left < MOST_OF_A_REQUEST ? left : MOST_OF_A_REQUEST)) * bytes;
        if (draw(&random, 8) == 0)
            device_trim(&device, count, sector * (uint64_t) bytes);
        else
            refusals -= device_write(&device, *(uint32_t *) number, zeros, count, sector * (uint64_t) bytes) == -1;
    }
    return NULL;
}

static void start(pthread_t *thread, void *(*run)(void *), uint32_t *number) {
    if (pthread_create(thread, NULL, run, number))
        abort();
}

static void run_clients(uint32_t count) {
    pthread_t reader, clients[MOST_CLIENTS];
    uint32_t numbers[MOST_CLIENTS];
    atomic_store(&has_ended, 0);
    start(&reader, read_at_random, NULL);
    for (uint32_t i = 0; i < count; i++) {
        numbers[i] = i;
        start(&clients[i], write_until_refused, &numbers[i]);
    }
    for (uint32_t i = 0; i < count; i++)
        pthread_join(clients[i], NULL);
    atomic_store(&has_ended, 1);
    pthread_join(reader, NULL);
}

// ---- Writes after trims.

// The first broom's seat is used to look at blocks, so the brooms have to rest then.
static uint32_t find_to_trim(uint32_t from) {
    stock_turn_of_brooms(&device.stock);
    return find_in_block(1, from);
}

static void look_for_writes_after_trims(void) {
    const struct options *o = &device.options;
    static const uint8_t zeros[LONG_PAGE];
    uint32_t sector, trimmed = 0;
    while (o->brooms > 0 && trimmed < o->pages && (sector = find_to_trim(trimmed)) < o->sectors) {
        device_trim(&device, o->page, sector * (uint64_t) o->page);
        trimmed++;
        if (device_write(&device, 0, zeros, o->page, sector * (uint64_t) o->page) == -1) {
            fail("a page was trimmed in a block that can be erased, and a write is refused (after %u trims)", trimmed);
            return;
        }
    }
    taken_again += trimmed > 0;
}

// ---- What is left.

// What is counted is what the blocks have: each programmed page is a client's or a copy, also one whose sector was written meanwhile, and each erase
// is one that the library has counted. The pages of a retired block were written before its last erase. A broom that has left gave two blocks back,
// which need not be full, and its seat doesn't tell its erases.
static void look_at_counts(void) {
    const struct options *o = &device.options;
    uint64_t programmed = 0, counted = brooms_copies(&device.brooms), erases = 0, told = 0, left = 0;
    for (uint32_t i = 0; i < o->hosts; i++)
        counted += tally_of(&device.stock.hosts[i].writes);
    for (uint32_t i = 0; i < o->brooms; i++) {
        struct mintlintel_tally tally = {0, 0, 0};
        left += mintlintel_broom_tally(&device.broom_seats[i], &tally) != MINTLINTEL_DONE;
        told += tally.erases;
    }
    for (uint32_t block = 0; block < o->blocks && o->brooms > 0; block++) {
        struct mintlintel_state state;
        mintlintel_broom_block(&device.broom_seats[0], block, &state);
        programmed += state.erases * (uint64_t) o->pages + (state.phase == MINTLINTEL_PHASE_RETIRED ? 0 : state.written);
        erases += state.erases - (state.phase == MINTLINTEL_PHASE_RETIRED);
        told -= state.phase == MINTLINTEL_PHASE_RETIRED && left == 0;
    }
    if (o->brooms > 0 && (programmed < counted || programmed > counted + 2 * left * o->pages))
        fail("%llu pages were programmed, and %llu are counted", (unsigned long long) programmed, (unsigned long long) counted);
    if (erases != device.brooms.all_erases || (told != erases && left == 0))
        fail("%llu erases were done, by the brooms %llu, and %llu are counted", (unsigned long long) erases, (unsigned long long) told,
             (unsigned long long) device.brooms.all_erases);
    with_one_that_left += left > 0;
}

static void try_one(uint32_t *random) {
    choose(random);
    if (device_open(&device) == -1 || device_start(&device) == -1)
        abort();
    run_clients(1 + draw(random, MOST_CLIENTS));
    look_for_more(); // brooms that found nothing rest
    if (failures == 0)
        look_for_writes_after_trims();
    device_stop(&device);
    look_at_counts();
    device_close(&device);
}

int main(int count, char **words) {
    unsigned devices = count > 1 ? (unsigned) atoi(words[1]) : DEVICES;
    uint32_t random = count > 2 ? (uint32_t) atoi(words[2]) : 1;
    alarm(PATIENCE_S);
    for (tried = 0; tried < devices && failures == 0; tried++)
        try_one(&random);
    if (failures == 0 && devices >= DEVICES && taken_again == 0)
        fail("no device was left with a block that can be erased");
    if (failures == 0 && devices >= DEVICES && with_one_that_left == 0)
        fail("no broom has left");
    printf("%u devices, %u took writes again after trims, and of %u a broom has left\n", tried, taken_again, with_one_that_left);
    return failures > 0;
}
