/* Five hosts write, trim, read and hold pages, and two brooms drain, erase and count, each in a thread of its own, up to the end of a device's
 * life; then one broom, up to the code that says that no block can become free. Lives are lived until each call of a shared device has returned
 * each of its codes, and no other one. Each sector reads as its host left it. */
#include "testing.h"
#include <pthread.h>
#include <sched.h>
#include <stdatomic.h>
#include <time.h>

#ifdef __SANITIZE_THREAD__
void __tsan_write_range(void *start, unsigned long size);
#define AT(handle) (__tsan_write_range((handle), sizeof *(handle)), (handle))
#else
#define AT(handle) (handle)
#endif

/* The calls, and the codes that each returns here: all but 6, of an open without memory. */
#define CALLS(X)                                                                                                                     \
    X(shared_open, "0 8 101 102 103 104 105 106 107 108 109") X(seat_numbers, "0 2") X(host_read, "0 1 2 3 4 9")                     \
    X(host_write, "0 1 2 3 4 7 9") X(host_write_new, "0 1 2 3 4 7 9") X(host_trim, "0 1 2 3 9") X(host_look, "0 1 2 3 9")            \
    X(host_hold, "0 1 2 3 9") X(host_copy, "1 2 4 9") X(host_word, "0 2 9 10") X(host_held, "0 2 9") X(host_release, "0 2 9")        \
    X(broom_drain, "0 2 9 20 21 22") X(broom_drain_next, "0 2 9 20 21 22") X(broom_drain_dead, "0 2 9 20 21 22")                     \
    X(broom_erase, "0 2 9 10 23 24 25 26") X(broom_restock, "0 2 9 21") X(broom_block, "0 2 9 10") X(broom_counts, "0 2 9 27")       \
    X(broom_tally, "0 2 9") X(collect, "0 2 9 20 21 24 27") X(write_within, "0 1 2 3 4 7 9")
#define NAMED(name, codes) CALL_##name,
#define CODES_OF(name, codes) codes,
#define NAME_OF(name, codes) #name,
enum call { CALLS(NAMED) COUNT_OF_CALLS };
static const char *const codes_of[] = {CALLS(CODES_OF)};
static const char *const name_of[] = {CALLS(NAME_OF)};
#define CALL(name, ...) counted(CALL_##name, mintlintel_##name(__VA_ARGS__))

enum { HOSTS = 5, BROOMS = 2, BLOCKS = 40, PAGES = 8, WORDS = 2, PAGE = 8 * WORDS, SECTORS = 120, ENDURANCE = 12 };
enum { WITHIN = 60, FEW = 6, LIVES = 1000, CODES = 128 };

static struct mintlintel_seat hosts[HOSTS], brooms[BROOMS];
static atomic_ulong returned[COUNT_OF_CALLS][CODES];
static atomic_int hosts_left, arrivals;
static uint32_t open_brooms;
/* of each sector the count of its last write, 0 for none; each host has sectors of its own */
static uint32_t last[SECTORS];

static uint32_t counted(enum call call, uint32_t code)
{
    CHECK(code < CODES);
    atomic_fetch_add(&returned[call][code], 1);
    return code;
}

static int is_named(const char *codes, uint32_t code)
{
    char *end;
    for (const char *at = codes; *at; at = end)
        if (strtoul(at, &end, 10) == code)
            return 1;
    return 0;
}

/* The call and the code that no call has returned yet, or NULL; a code that none may return ends the test. */
static const char *lacking(uint32_t *lacked)
{
    const char *name = NULL;
    for (int call = 0; call < COUNT_OF_CALLS; call++)
        for (uint32_t code = 0; code < CODES; code++) {
            int is_met = atomic_load(&returned[call][code]) > 0;
            if (is_met && !is_named(codes_of[call], code)) {
                fprintf(stderr, "%s returned %u\n", name_of[call], code);
                exit(1);
            }
            if (!is_met && is_named(codes_of[call], code)) {
                name = name_of[call];
                *lacked = code;
            }
        }
    return name;
}

static void fill(uint8_t *page, uint32_t sector, uint32_t count)
{
    for (int i = 0; i < PAGE; i += 8) {
        memcpy(page + i, &sector, 4);
        memcpy(page + i + 4, &count, 4);
    }
}

static void check_sector(struct mintlintel_seat *host, uint32_t sector)
{
    uint8_t page[PAGE], wanted[PAGE];
    fill(wanted, sector, last[sector]);
    uint32_t code = CALL(host_read, AT(host), sector, page, PAGE);
    CHECK(code == (last[sector] > 0) && (code == MINTLINTEL_EMPTY || memcmp(page, wanted, PAGE) == 0));
}

/* Holds a page while the brooms go on, and looks at it again and again. Some holds pause, so that the brooms also go on where other work has most
 * of the processors. */
static void hold(struct mintlintel_seat *host, uint32_t sector)
{
    uint8_t page[PAGE], wanted[PAGE];
    uint64_t word, first;
    struct timespec pause = {0, 100000};
    struct mintlintel_page place, later;
    uint32_t code = CALL(host_hold, AT(host), sector);
    CHECK(code == (last[sector] > 0));
    if (code == MINTLINTEL_EMPTY)
        return;
    fill(wanted, sector, last[sector]);
    memcpy(&first, wanted, sizeof first);
    CHECK(CALL(host_held, AT(host), &place) == MINTLINTEL_DONE);
    for (int i = 0; i < 20; i++) {
        CHECK(CALL(host_copy, AT(host), page, PAGE) == MINTLINTEL_WRITTEN && memcmp(page, wanted, PAGE) == 0);
        CHECK(CALL(host_word, AT(host), 0, &word) == MINTLINTEL_DONE && word == first);
    }
    if (last[sector] % 8 == 0)
        nanosleep(&pause, NULL);
    CHECK(CALL(host_copy, AT(host), page, PAGE + 1) == MINTLINTEL_NOT_A_PAGE);
    CHECK(CALL(host_word, AT(host), WORDS, &word) == MINTLINTEL_NO_SUCH_WORD);
    CHECK(CALL(host_write, AT(host), sector, page, PAGE) == MINTLINTEL_WRONG_KIND);
    CHECK(CALL(host_held, AT(host), &later) == MINTLINTEL_DONE && memcmp(&later, &place, sizeof place) == 0);
    CHECK(CALL(host_release, AT(host)) == MINTLINTEL_DONE);
}

/* Calls that name no sector, or a length that is no page's. */
static void call_wrongly(struct mintlintel_seat *host)
{
    uint8_t page[PAGE + 1] = {0};
    CHECK(CALL(host_read, AT(host), SECTORS, page, PAGE) == MINTLINTEL_NO_SECTOR && CALL(host_read, AT(host), 0, page, 0) == MINTLINTEL_NOT_A_PAGE);
    CHECK(CALL(host_write, AT(host), SECTORS, page, PAGE) == MINTLINTEL_NO_SECTOR && CALL(host_write, AT(host), 0, page, 1) == MINTLINTEL_NOT_A_PAGE);
    CHECK(CALL(host_write_new, AT(host), SECTORS, page, PAGE) == MINTLINTEL_NO_SECTOR);
    CHECK(CALL(host_write_new, AT(host), 0, page, PAGE + 1) == MINTLINTEL_NOT_A_PAGE);
    CHECK(CALL(write_within, AT(host), SECTORS, page, PAGE, 1) == MINTLINTEL_NO_SECTOR && CALL(write_within, AT(host), 0, page, 1, 1) == MINTLINTEL_NOT_A_PAGE);
    CHECK(CALL(host_trim, AT(host), SECTORS) == MINTLINTEL_NO_SECTOR && CALL(host_look, AT(host), SECTORS) == MINTLINTEL_NO_SECTOR);
    CHECK(CALL(host_hold, AT(host), SECTORS) == MINTLINTEL_NO_SECTOR);
}

/* Writes a page in one of three ways: the code is 7, or what the sector was. */
static uint32_t write_somehow(struct mintlintel_seat *host, uint32_t sector, uint32_t count, uint32_t way)
{
    uint8_t page[PAGE];
    fill(page, sector, count);
    uint32_t code = way == 0   ? CALL(host_write_new, AT(host), sector, page, PAGE)
                    : way == 1 ? CALL(host_write, AT(host), sector, page, PAGE)
                               : CALL(write_within, AT(host), sector, page, PAGE, WITHIN);
    CHECK(code == MINTLINTEL_NO_BLOCK || code == (last[sector] > 0));
    if (code != MINTLINTEL_NO_BLOCK && (way > 0 || last[sector] == 0))
        last[sector] = count;
    return code;
}

/* Goes on until a write that waits has found no block in time. */
static void *live(void *argument)
{
    uint32_t me = (uint32_t)(uintptr_t)argument, way = 0, code = MINTLINTEL_DONE;
    struct mintlintel_seat *host = &hosts[me];
    uint64_t state = 88172645463325252u + me;
    call_wrongly(host);
    for (uint32_t count = 1; way < 2 || code != MINTLINTEL_NO_BLOCK; count++) {
        uint32_t sector = drawn(&state) % (SECTORS / HOSTS) * HOSTS + me, choice = drawn(&state) % 16;
        way = drawn(&state) % 8;
        code = write_somehow(host, sector, count, way);
        if (choice == 0) {
            CHECK(CALL(host_trim, AT(host), sector) == (last[sector] > 0));
            last[sector] = 0;
        } else if (choice < 4)
            hold(host, sector);
        else if (choice == 4)
            CHECK(CALL(host_look, AT(host), sector) == (last[sector] > 0));
        check_sector(host, sector);
    }
    atomic_fetch_sub(&hosts_left, 1);
    return NULL;
}

/* The counts are those of all blocks, and so are the states of the blocks one by one; this broom has made some of the erases. The code is 0, or 27. */
static uint32_t check_counts(struct mintlintel_seat *broom, struct mintlintel_counts *counts)
{
    struct mintlintel_state block;
    struct mintlintel_tally tally;
    CHECK(CALL(broom_tally, AT(broom), &tally) == MINTLINTEL_DONE && tally.moved <= tally.programs);
    uint32_t code = CALL(broom_counts, AT(broom), counts);
    CHECK(code == MINTLINTEL_DONE || open_brooms == 1);
    CHECK(counts->free + counts->open + counts->closed + counts->victims + counts->drained + counts->erasing + counts->retired == BLOCKS);
    CHECK(counts->erases >= (uint64_t)counts->retired * ENDURANCE && counts->erases <= BLOCKS * ENDURANCE && counts->spares <= 1);
    CHECK(tally.erases <= counts->erases);
    for (uint32_t i = 0; i < BLOCKS; i++) {
        CHECK(CALL(broom_block, AT(broom), i, &block) == MINTLINTEL_DONE);
        CHECK(block.phase <= MINTLINTEL_PHASE_RETIRED && block.readers <= HOSTS && block.written <= PAGES && block.erases <= ENDURANCE);
        CHECK((block.phase == MINTLINTEL_PHASE_RETIRED) == (block.erases == ENDURANCE));
    }
    CHECK(CALL(broom_block, AT(broom), BLOCKS, &block) == MINTLINTEL_NO_SUCH_BLOCK);
    return code;
}

/* Drains by hand, by one survey, then a block without live pages, and erases what it can; the rest is left to the next collection. */
static void drain_by_hand(struct mintlintel_seat *broom)
{
    uint32_t block = 0, moved = 0, code = CALL(broom_drain, AT(broom), &block, &moved);
    for (int i = 0; i < FEW && (code == MINTLINTEL_DONE || code == MINTLINTEL_LOST); i++) {
        if (code == MINTLINTEL_DONE)
            CALL(broom_erase, AT(broom), block);
        code = CALL(broom_drain_next, AT(broom), &block, &moved);
    }
    if (code == MINTLINTEL_NO_SPARE)
        CALL(broom_restock, AT(broom));
    CALL(broom_erase, AT(broom), moved % BLOCKS);
    if (CALL(broom_drain_dead, AT(broom), &block, &moved) == MINTLINTEL_DONE) {
        CHECK(moved == 0);
        CALL(broom_erase, AT(broom), block);
    }
    CHECK(CALL(broom_erase, AT(broom), BLOCKS) == MINTLINTEL_NO_SUCH_BLOCK);
}

static void *sweep(void *argument)
{
    struct mintlintel_seat *broom = argument;
    struct timespec pause = {0, 100000};
    struct mintlintel_collected did;
    struct mintlintel_counts counts;
    for (int round = 0; atomic_load(&hosts_left) > 0; round++) {
        uint32_t code = check_counts(broom, &counts);
        if (code == MINTLINTEL_DONE && counts.free < FEW && round % 2 == 0)
            drain_by_hand(broom);
        else if (code == MINTLINTEL_DONE && counts.free < FEW)
            code = CALL(collect, AT(broom), FEW, &did);
        else
            nanosleep(&pause, NULL);
        if (code != MINTLINTEL_DONE)
            nanosleep(&pause, NULL);
    }
    return NULL;
}

/* Calls of the other kind, and then of closed handles. */
static void call_others(struct mintlintel_seat *host, struct mintlintel_seat *broom, uint32_t wanted)
{
    uint8_t page[PAGE] = {0};
    uint32_t block, moved;
    uint64_t word;
    struct mintlintel_page place;
    struct mintlintel_state state;
    struct mintlintel_counts counts;
    struct mintlintel_collected did;
    struct mintlintel_tally tally;
    CHECK(CALL(host_read, broom, 0, page, PAGE) == wanted && CALL(host_write, broom, 0, page, PAGE) == wanted);
    CHECK(CALL(host_write_new, broom, 0, page, PAGE) == wanted && CALL(write_within, broom, 0, page, PAGE, 1) == wanted);
    CHECK(CALL(host_trim, broom, 0) == wanted && CALL(host_look, broom, 0) == wanted && CALL(host_hold, broom, 0) == wanted);
    CHECK(CALL(host_copy, host, page, PAGE) == wanted && CALL(host_word, host, 0, &word) == wanted);
    CHECK(CALL(host_held, host, &place) == wanted && CALL(host_release, host) == wanted);
    CHECK(CALL(broom_drain, host, &block, &moved) == wanted && CALL(broom_drain_next, host, &block, &moved) == wanted);
    CHECK(CALL(broom_drain_dead, host, &block, &moved) == wanted);
    CHECK(CALL(broom_erase, host, 0) == wanted && CALL(broom_restock, host) == wanted && CALL(broom_block, host, 0, &state) == wanted);
    CHECK(CALL(broom_counts, host, &counts) == wanted && CALL(broom_tally, host, &tally) == wanted && CALL(collect, host, 1, &did) == wanted);
}

static uint32_t open_with(uint32_t broom_count, struct mintlintel_numbers n)
{
    return CALL(shared_open, hosts, n.hosts, brooms, broom_count, n.luns, n.blocks, n.pages, n.words, n.sectors, n.endurance);
}

static void open_wrongly(void)
{
    const struct mintlintel_numbers n = {1, BLOCKS, PAGES, WORDS, SECTORS, ENDURANCE, HOSTS, BROOMS};
    struct mintlintel_numbers wrong[] = {n, n, n, n, n, n, n, n, n};
    wrong[0].luns = wrong[1].blocks = wrong[2].pages = wrong[3].words = wrong[4].sectors = wrong[5].endurance = wrong[6].hosts = 0;
    wrong[7].pages = MINTLINTEL_MAX_PAGES, wrong[7].words = MINTLINTEL_MAX_WORDS;
    wrong[8].sectors = BLOCKS * PAGES;
    for (uint32_t i = 0; i < sizeof wrong / sizeof *wrong; i++)
        CHECK(open_with(BROOMS, wrong[i]) == MINTLINTEL_BAD_LUNS + i);
}

/* One life, with so many brooms. */
static void live_once(uint32_t broom_count)
{
    pthread_t threads[HOSTS + BROOMS];
    struct mintlintel_numbers n = {1, BLOCKS, PAGES, WORDS, SECTORS, ENDURANCE, HOSTS, broom_count}, told;
    CHECK(open_with(broom_count, n) == MINTLINTEL_DONE && open_with(broom_count, n) == MINTLINTEL_ALREADY_OPEN);
    CHECK(CALL(seat_numbers, &hosts[0], &told) == MINTLINTEL_DONE && memcmp(&told, &n, sizeof n) == 0);
    memset(last, 0, sizeof last);
    open_brooms = broom_count;
    atomic_store(&hosts_left, HOSTS);
    for (uintptr_t i = 0; i < HOSTS; i++)
        CHECK(pthread_create(&threads[i], NULL, live, (void *)i) == 0);
    for (uint32_t i = 0; i < broom_count; i++)
        CHECK(pthread_create(&threads[HOSTS + i], NULL, sweep, &brooms[i]) == 0);
    for (uint32_t i = 0; i < HOSTS + broom_count; i++)
        CHECK(pthread_join(threads[i], NULL) == 0);
    for (uint32_t sector = 0; sector < SECTORS; sector++)
        check_sector(&hosts[0], sector);
    call_others(&hosts[0], &brooms[0], MINTLINTEL_WRONG_KIND);
    for (int i = 0; i < HOSTS; i++)
        mintlintel_seat_close(&hosts[i]);
    for (uint32_t i = 0; i < broom_count; i++)
        mintlintel_seat_close(&brooms[i]);
    call_others(&hosts[0], &brooms[0], MINTLINTEL_CLOSED);
    CHECK(CALL(seat_numbers, &hosts[0], &told) == MINTLINTEL_CLOSED);
}

/* Waits until both brooms have come here as often. They spin, so that they go on in the same moment. */
static void come_together(int times)
{
    atomic_fetch_add(&arrivals, 1);
    for (int tries = 0; atomic_load(&arrivals) < BROOMS * times; tries++)
        if (tries % 1000 == 999)
            sched_yield();
}

/* Looks for a block without live pages when the other broom does, so that one of them may claim the block that both have found. */
static void *race(void *broom)
{
    uint32_t block = 0, moved = 0;
    for (int times = 1; times <= BLOCKS; times++) {
        come_together(times);
        if (CALL(broom_drain_dead, AT(broom), &block, &moved) == MINTLINTEL_DONE)
            CALL(broom_erase, AT(broom), block);
    }
    return NULL;
}

/* Two brooms for many blocks that were filled and trimmed. */
static void race_once(void)
{
    const struct mintlintel_numbers n = {1, BLOCKS, PAGES, WORDS, SECTORS, ENDURANCE, HOSTS, BROOMS};
    uint8_t page[PAGE] = {0};
    pthread_t threads[BROOMS];
    CHECK(open_with(BROOMS, n) == MINTLINTEL_DONE);
    for (uint32_t i = 0; CALL(host_write, AT(&hosts[0]), i % SECTORS, page, PAGE) != MINTLINTEL_NO_BLOCK; i++)
        ;
    for (uint32_t sector = 0; sector < SECTORS; sector++)
        CHECK(CALL(host_trim, AT(&hosts[0]), sector) == MINTLINTEL_WRITTEN);
    atomic_store(&arrivals, 0);
    for (int i = 0; i < BROOMS; i++)
        CHECK(pthread_create(&threads[i], NULL, race, &brooms[i]) == 0);
    for (int i = 0; i < BROOMS; i++)
        CHECK(pthread_join(threads[i], NULL) == 0);
    for (int i = 0; i < HOSTS; i++)
        mintlintel_seat_close(&hosts[i]);
    for (int i = 0; i < BROOMS; i++)
        mintlintel_seat_close(&brooms[i]);
}

int main(void)
{
    uint32_t code = 0;
    int lives = 0;
    open_wrongly();
    for (; (lives < 2 || lacking(&code)) && lives < LIVES; lives++) {
        live_once(lives % 2 == 0 ? BROOMS : 1);
        race_once();
    }
    const char *name = lacking(&code);
    if (name) {
        fprintf(stderr, "in %d lives %s has not returned %u\n", lives, name, code);
        return 1;
    }
    printf("lifetime: in %d lives of a device each call has returned each of its codes\n", lives);
    return 0;
}
