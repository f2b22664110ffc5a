/* The calls in plain C: a collection, a write that waits, the version, and why numbers are refused. Exact sequences by one thread; then five hosts and
 * two brooms, each in its own thread, up to the end of a device's life: each host is refused in the end, no thread loops for ever, and every
 * sector reads as its last write left it. */
#include "testing.h"
#include <pthread.h>
#include <stdatomic.h>
#include <time.h>

#ifdef __SANITIZE_THREAD__
void __tsan_write_range(void *start, unsigned long size);
#define AT(handle) (__tsan_write_range((handle), sizeof *(handle)), (handle))
#else
#define AT(handle) (handle)
#endif

enum { HOSTS = 5, BROOMS = 2, WORDS = 2, PAGE = 8 * WORDS };

static struct mintlintel_seat hosts[HOSTS], brooms[BROOMS];

/* How often a broom has surveyed the device: the linker puts this in front of the call. */
static long surveys;
uint32_t __real_mintlintel_broom_drain(struct mintlintel_seat *handle, uint32_t *block, uint32_t *moved);
uint32_t __wrap_mintlintel_broom_drain(struct mintlintel_seat *handle, uint32_t *block, uint32_t *moved);

uint32_t __wrap_mintlintel_broom_drain(struct mintlintel_seat *handle, uint32_t *block, uint32_t *moved)
{
    uint32_t code = __real_mintlintel_broom_drain(handle, block, moved);
    __atomic_fetch_add(&surveys, code != MINTLINTEL_NO_SPARE, __ATOMIC_SEQ_CST);
    return code;
}

/* How often a host has tried to write. */
static long tries;
uint32_t __real_mintlintel_host_write(struct mintlintel_seat *handle, uint32_t sector, const uint8_t *bytes, size_t count);
uint32_t __wrap_mintlintel_host_write(struct mintlintel_seat *handle, uint32_t sector, const uint8_t *bytes, size_t count);

uint32_t __wrap_mintlintel_host_write(struct mintlintel_seat *handle, uint32_t sector, const uint8_t *bytes, size_t count)
{
    __atomic_fetch_add(&tries, 1, __ATOMIC_SEQ_CST);
    return __real_mintlintel_host_write(handle, sector, bytes, count);
}

static uint32_t write_byte(struct mintlintel_seat *host, uint32_t sector, int byte)
{
    uint8_t page[PAGE];
    memset(page, byte, PAGE);
    return mintlintel_host_write(host, sector, page, PAGE);
}

static void close_all(void)
{
    for (int i = 0; i < HOSTS; i++)
        mintlintel_seat_close(&hosts[i]);
    for (int i = 0; i < BROOMS; i++)
        mintlintel_seat_close(&brooms[i]);
}

/* A collection returns this code, and reports these counts. It surveys the device once at most. */
static void check_collect(uint32_t goal, uint32_t code, struct mintlintel_collected wanted)
{
    struct mintlintel_collected did = {9, 9, 9, 9, 9, 9};
    long before = surveys;
    CHECK(mintlintel_collect(&brooms[0], goal, &did) == code && surveys - before <= 1);
    CHECK(memcmp(&did, &wanted, sizeof did) == 0);
}

/* The header's version is the library's, with what is said behind it of one without proof. */
static void test_version(void)
{
    char number[32];
    snprintf(number, sizeof number, "%d.%d.%d", MINTLINTEL_VERSION_MAJOR, MINTLINTEL_VERSION_MINOR, MINTLINTEL_VERSION_PATCH);
    CHECK(strcmp(number, MINTLINTEL_VERSION) == 0);
    CHECK(MINTLINTEL_VERSION_NUMBER == 1000000 * MINTLINTEL_VERSION_MAJOR + 1000 * MINTLINTEL_VERSION_MINOR + MINTLINTEL_VERSION_PATCH);
    const char *version = mintlintel_version();
    size_t length = strlen(number);
    CHECK(strncmp(version, number, length) == 0 && (version[length] == 0 || strcmp(version + length, ", not proved") == 0));
}

static uint32_t open_one(uint32_t blocks, uint32_t pages, uint32_t sectors)
{
    struct mintlintel_one device = {0};
    uint32_t code = mintlintel_one_open(&device, 1, blocks, pages, 1, sectors, 1);
    mintlintel_one_close(&device);
    return code;
}

static uint32_t open_shared(uint32_t host_count, uint32_t broom_count, uint32_t blocks, uint32_t pages, uint32_t sectors)
{
    uint32_t code = mintlintel_shared_open(hosts, host_count, brooms, broom_count, 1, blocks, pages, 1, sectors, 1);
    close_all();
    return code;
}

/* A device opens with the most sectors that the formula allows, and with one more it doesn't. */
static void test_formula_of_space(void)
{
    for (uint32_t blocks = 3; blocks < 14; blocks++)
        for (uint32_t pages = 1; pages < 4; pages++) {
            uint32_t most = (uint32_t)mintlintel_most_sectors(blocks, pages, 0, 0);
            CHECK(most > 0 && open_one(blocks, pages, most) == MINTLINTEL_DONE && open_one(blocks, pages, most + 1) == MINTLINTEL_TOO_FEW_BLOCKS);
            for (uint32_t host_count = 1; host_count <= HOSTS; host_count++)
                for (uint32_t broom_count = 0; broom_count <= BROOMS; broom_count++) {
                    most = (uint32_t)mintlintel_most_sectors(blocks, pages, host_count, broom_count);
                    CHECK(open_shared(host_count, broom_count, blocks, pages, most + 1) == MINTLINTEL_TOO_FEW_BLOCKS);
                    CHECK(most == 0 || open_shared(host_count, broom_count, blocks, pages, most) == MINTLINTEL_DONE);
                }
        }
}

/* A number near one of its limits, or any. */
static uint32_t drawn_near(uint64_t *state, uint32_t least, uint32_t most)
{
    switch (drawn(state) % 8) {
    case 0: return least - drawn(state) % 2;
    case 1: return most + drawn(state) % 3;
    case 2: return drawn(state);
    case 3: return 0;
    default: return least + drawn(state) % ((most - least) / (1 + drawn(state) % 64) + 1);
    }
}

static uint32_t opened(const struct mintlintel_numbers *n)
{
    static struct mintlintel_seat many_hosts[502], many_brooms[34];
    struct mintlintel_one device = {0};
    uint32_t host_count = n->hosts > 501 ? 501 : n->hosts, broom_count = n->brooms > 33 ? 33 : n->brooms, code;
    if (n->hosts == 0 && n->brooms == 0) {
        code = mintlintel_one_open(&device, n->luns, n->blocks, n->pages, n->words, n->sectors, n->endurance);
        mintlintel_one_close(&device);
        return code;
    }
    code = mintlintel_shared_open(many_hosts, host_count, many_brooms, broom_count, n->luns, n->blocks, n->pages, n->words, n->sectors, n->endurance);
    for (int i = 0; i < 502; i++)
        mintlintel_seat_close(&many_hosts[i]);
    for (int i = 0; i < 34; i++)
        mintlintel_seat_close(&many_brooms[i]);
    return code;
}

static int is_small(const struct mintlintel_numbers *n)
{
    return n->sectors + n->blocks + (uint64_t)n->blocks * n->pages * (n->words + 1) < 20000;
}

/* The text of each refusal fits, and the nearest numbers open: the same ones, if they weren't refused. */
static void test_explains_refusals(void)
{
    uint64_t state = 88172645463325252u;
    char text[512], shorter[40];
    int codes[10] = {0};
    for (int i = 0; i < 20000; i++) {
        struct mintlintel_numbers n = {drawn_near(&state, 1, 8), drawn_near(&state, 3, 4096), drawn_near(&state, 1, 300), drawn_near(&state, 1, 512),
                                       drawn_near(&state, 1, 1048576), drawn_near(&state, 1, 1000000), 0, 0};
        if (drawn(&state) % 2) {
            n.luns = n.pages = 1;
            n.words = 1 + drawn(&state) % 4;
            n.endurance = 1;
        }
        if (drawn(&state) % 2) {
            n.hosts = drawn_near(&state, 1, 500);
            n.brooms = drawn_near(&state, 0, 32);
        }
        struct mintlintel_numbers nearest = n;
        mintlintel_nearest(&nearest);
        int is_near = memcmp(&n, &nearest, sizeof n) == 0;
        if (is_near && !is_small(&n) && i % 256)
            continue;
        uint32_t code = opened(&n);
        CHECK(code == 0 || (code > 100 && code < 110));
        codes[code == 0 ? 0 : code - 100]++;
        CHECK((code == 0) == is_near);
        mintlintel_explain(code, &n, text, sizeof text);
        mintlintel_explain(code, &n, shorter, sizeof shorter);
        mintlintel_explain(code, &n, shorter, 0);
        CHECK(strlen(text) < sizeof text - 1 && strncmp(text, shorter, strlen(shorter)) == 0);
        if (is_small(&nearest) || i % 256 == 0)
            CHECK(opened(&nearest) == MINTLINTEL_DONE);
    }
    for (int code = 0; code < 10; code++)
        CHECK(codes[code] > 0);
}

static void check_text(struct mintlintel_numbers n, const char *wanted)
{
    char text[512];
    mintlintel_explain(opened(&n), &n, text, sizeof text);
    if (strcmp(text, wanted) != 0)
        fprintf(stderr, "%s\n", text);
    CHECK(strcmp(text, wanted) == 0);
}

static void test_texts_of_refusals(void)
{
    check_text((struct mintlintel_numbers){9, 24, 64, 64, 1000, 1000, 0, 0}, "luns out of range: 9 given, and it is 1 to 8; it would do with luns=8");
    check_text((struct mintlintel_numbers){5, 24, 64, 64, 1000, 1000, 0, 0},
               "blocks out of range: 24 given, and it is 3 to 4096, a multiple of luns, which is 5; it would do with blocks=25");
    check_text((struct mintlintel_numbers){1, 24, 64, 64, 1472, 1000, 0, 0},
               "too few blocks: 24 blocks of 64 pages have room for (blocks - 1) * pages - 1 = 1471 sectors, and 1472 were given; it would do with blocks=25");
    check_text((struct mintlintel_numbers){1, 24, 64, 64, 1472, 1000, 4, 1},
               "too few blocks: 24 blocks of 64 pages, 4 hosts and 1 brooms have room for (blocks - hosts - 2 * brooms) * pages = 1152 sectors, "
               "and 1472 were given; it would do with blocks=29");
    check_text((struct mintlintel_numbers){1, 4096, 64, 512, 1000, 1000, 0, 0},
               "too many words: sectors + blocks + blocks * pages * (words + 1) is 134484968, and at most 16777216; it would do with blocks=510");
    check_text((struct mintlintel_numbers){1, 24, 64, 64, 100, 1000, 501, 1},
               "hosts or brooms out of range: 501 hosts and 1 brooms were given, and a shared device has 1 to 500 hosts and up to 32 brooms; "
               "it would do with blocks=504 hosts=500");
}

/* One host fills blocks with writes of one sector, so that each closed block is dead; the broom's collections free as many as they are asked for. */
static void test_collects_up_to_its_goal(void)
{
    CHECK(mintlintel_shared_open(hosts, 1, brooms, 1, 1, 8, 2, WORDS, 4, 100) == MINTLINTEL_DONE);
    check_collect(1, MINTLINTEL_NOTHING_TO_GAIN, (struct mintlintel_collected){0, 0, 0, 0, 0, 0});
    for (int i = 0; i < 14; i++)
        CHECK(write_byte(&hosts[0], 0, i) <= MINTLINTEL_WRITTEN);
    CHECK(write_byte(&hosts[0], 0, 14) == MINTLINTEL_NO_BLOCK);
    check_collect(0, MINTLINTEL_DONE, (struct mintlintel_collected){0, 0, 0, 0, 0, 0});
    check_collect(2, MINTLINTEL_DONE, (struct mintlintel_collected){2, 0, 0, 0, 0, 0});
    check_collect(9, MINTLINTEL_NOTHING_TO_GAIN, (struct mintlintel_collected){4, 1, 0, 0, 1, 0});
    CHECK(write_byte(&hosts[0], 0, 14) == MINTLINTEL_WRITTEN);
    close_all();
}

/* A block that a host reads is drained and not erased. A later collection erases it, also one of another broom. */
static void test_erases_later_what_is_being_read(void)
{
    struct mintlintel_collected did;
    CHECK(mintlintel_shared_open(hosts, 2, brooms, 2, 1, 10, 2, WORDS, 4, 100) == MINTLINTEL_DONE);
    CHECK(write_byte(&hosts[0], 0, 1) == MINTLINTEL_EMPTY && mintlintel_host_hold(&hosts[1], 0) == MINTLINTEL_WRITTEN);
    CHECK(write_byte(&hosts[0], 0, 2) == MINTLINTEL_WRITTEN);
    check_collect(1, MINTLINTEL_PINNED, (struct mintlintel_collected){0, 0, 1, 0, 1, 1});
    check_collect(1, MINTLINTEL_PINNED, (struct mintlintel_collected){0, 0, 0, 0, 0, 1});
    CHECK(mintlintel_host_release(&hosts[1]) == MINTLINTEL_DONE);
    CHECK(mintlintel_collect(&brooms[1], 1, &did) == MINTLINTEL_DONE && did.freed == 1 && did.moved == 0);
    close_all();
}

/* The last block of the device, the broom's spare at first, is found too: pages are moved to it, and one of them is held. */
static void test_erases_the_last_block(void)
{
    CHECK(mintlintel_shared_open(hosts, 2, brooms, 1, 1, 8, 2, WORDS, 4, 100) == MINTLINTEL_DONE);
    const uint32_t first[] = {0, 1, 0}, second[] = {2, 0};
    struct mintlintel_page place;
    for (int i = 0; i < 3; i++)
        write_byte(&hosts[0], first[i], i);
    check_collect(1, MINTLINTEL_NOTHING_TO_GAIN, (struct mintlintel_collected){0, 1, 0, 0, 1, 0});
    for (int i = 0; i < 2; i++)
        write_byte(&hosts[0], second[i], i);
    check_collect(1, MINTLINTEL_DONE, (struct mintlintel_collected){1, 0, 0, 0, 1, 0});
    CHECK(mintlintel_host_hold(&hosts[1], 1) == MINTLINTEL_WRITTEN && mintlintel_host_held(&hosts[1], &place) == MINTLINTEL_DONE && place.block == 7);
    write_byte(&hosts[0], 1, 3);
    check_collect(1, MINTLINTEL_PINNED, (struct mintlintel_collected){0, 0, 1, 0, 1, 1});
    CHECK(mintlintel_host_release(&hosts[1]) == MINTLINTEL_DONE);
    check_collect(1, MINTLINTEL_DONE, (struct mintlintel_collected){1, 0, 0, 0, 0, 0});
    close_all();
}

/* A broom that has lost its spare takes a free block, if there is one; the last erase of a block is told. */
static void test_restocks_and_tells_retired_blocks(void)
{
    CHECK(mintlintel_shared_open(hosts, 1, brooms, 1, 1, 6, 2, WORDS, 4, 1) == MINTLINTEL_DONE);
    CHECK(write_byte(&hosts[0], 1, 1) == MINTLINTEL_EMPTY && write_byte(&hosts[0], 0, 2) == MINTLINTEL_EMPTY);
    CHECK(write_byte(&hosts[0], 0, 3) == MINTLINTEL_WRITTEN && write_byte(&hosts[0], 0, 4) == MINTLINTEL_WRITTEN);
    check_collect(1, MINTLINTEL_NOTHING_TO_GAIN, (struct mintlintel_collected){0, 0, 1, 2, 2, 0});
    close_all();
}

/* At the end of its life a device with one broom says that no block can become free, and what was written can be read. */
static void test_tells_that_no_block_can_become_free(void)
{
    struct mintlintel_collected did;
    struct mintlintel_counts counts;
    uint8_t page[PAGE];
    uint32_t code = MINTLINTEL_DONE;
    CHECK(mintlintel_shared_open(hosts, 1, brooms, 1, 1, 6, 2, WORDS, 4, 2) == MINTLINTEL_DONE);
    CHECK(write_byte(&hosts[0], 3, 7) == MINTLINTEL_EMPTY);
    CHECK(mintlintel_broom_counts(&brooms[0], &counts) == MINTLINTEL_DONE && counts.free == 4 && counts.open == 2 && counts.spares == 1);
    for (int round = 0; round < 100 && code != MINTLINTEL_EXHAUSTED; round++) {
        while (write_byte(&hosts[0], (uint32_t)round % 3, round) != MINTLINTEL_NO_BLOCK)
            ;
        code = mintlintel_collect(&brooms[0], 1, &did);
    }
    CHECK(code == MINTLINTEL_EXHAUSTED && mintlintel_broom_counts(&brooms[0], &counts) == MINTLINTEL_EXHAUSTED);
    CHECK(counts.free + counts.victims + counts.drained + counts.erasing + counts.spares == 0 && counts.open + counts.closed + counts.retired == 6);
    CHECK(mintlintel_collect(&brooms[0], 1, &did) == MINTLINTEL_EXHAUSTED && write_byte(&hosts[0], 0, 1) == MINTLINTEL_NO_BLOCK);
    CHECK(mintlintel_host_read(&hosts[0], 3, page, PAGE) == MINTLINTEL_WRITTEN && page[0] == 7);
    close_all();
}

/* A worn device refuses writes, and its broom is done, though blocks have erases left. Once every sector is trimmed, collections free all that can
 * be erased, and it goes on: up to a device on which each closed block was erased for the last time. */
static void test_trims_bring_a_worn_device_back(void)
{
    enum { BLOCKS = 12, PAGES = 4, SECTORS = 30, ENDURANCE = 6 };
    struct mintlintel_collected did;
    struct mintlintel_counts counts;
    uint64_t state = 88172645463325252u;
    uint32_t code, revived = 0;
    CHECK(mintlintel_shared_open(hosts, 1, brooms, 1, 1, BLOCKS, PAGES, WORDS, SECTORS, ENDURANCE) == MINTLINTEL_DONE);
    do {
        do {
            while (write_byte(&hosts[0], drawn(&state) % SECTORS, 1) != MINTLINTEL_NO_BLOCK)
                ;
            code = mintlintel_collect(&brooms[0], 1, &did);
        } while (code == MINTLINTEL_DONE || did.kept > 0 || did.restocked > 0);
        CHECK(code == MINTLINTEL_EXHAUSTED || code == MINTLINTEL_NOTHING_TO_GAIN);
        for (uint32_t sector = 0; sector < SECTORS; sector++)
            mintlintel_host_trim(&hosts[0], sector);
        revived += code == MINTLINTEL_EXHAUSTED;
        code = mintlintel_collect(&brooms[0], BLOCKS, &did);
        CHECK(mintlintel_broom_counts(&brooms[0], &counts) == (code == MINTLINTEL_EXHAUSTED ? MINTLINTEL_EXHAUSTED : MINTLINTEL_DONE));
        CHECK(counts.closed == 0 && did.moved == 0 && did.freed + did.kept + did.retired > 0);
    } while (did.freed > 0);
    CHECK(revived > 0 && counts.open + counts.retired == BLOCKS && counts.erases >= (uint64_t)counts.retired * ENDURANCE);
    close_all();
}

static void test_refusals(void)
{
    struct mintlintel_collected did = {9, 9, 9, 9, 9, 9}, none = {0, 0, 0, 0, 0, 0};
    uint8_t page[PAGE] = {0};
    CHECK(mintlintel_collect(&brooms[0], 1, &did) == MINTLINTEL_CLOSED && memcmp(&did, &none, sizeof did) == 0);
    CHECK(mintlintel_write_within(&hosts[0], 0, page, PAGE, 1000) == MINTLINTEL_CLOSED);
    CHECK(mintlintel_shared_open(hosts, 1, brooms, 1, 1, 6, 2, WORDS, 4, 1) == MINTLINTEL_DONE);
    CHECK(mintlintel_collect(&hosts[0], 1, &did) == MINTLINTEL_WRONG_KIND);
    CHECK(mintlintel_write_within(&brooms[0], 0, page, PAGE, 1000) == MINTLINTEL_WRONG_KIND);
    CHECK(mintlintel_write_within(&hosts[0], 4, page, PAGE, 1000) == MINTLINTEL_NO_SECTOR);
    CHECK(mintlintel_write_within(&hosts[0], 0, page, PAGE - 1, 1000) == MINTLINTEL_NOT_A_PAGE);
    CHECK(mintlintel_write_within(&hosts[0], 0, page, PAGE, 0) == MINTLINTEL_EMPTY);
    close_all();
}

static double seconds(void)
{
    struct timespec time;
    clock_gettime(CLOCK_MONOTONIC, &time);
    return (double)time.tv_sec + (double)time.tv_nsec / 1e9;
}

/* Without a broom no block comes free: the write waits as long as it was told to; it pauses, so its tries are few. It waits not much longer, but on
 * a busy machine that may take some runs. */
static void test_write_waits_as_long_as_told(void)
{
    uint8_t page[PAGE] = {0};
    CHECK(mintlintel_shared_open(hosts, 1, brooms, 0, 1, 4, 2, WORDS, 4, 1) == MINTLINTEL_DONE);
    while (write_byte(&hosts[0], 0, 1) != MINTLINTEL_NO_BLOCK)
        ;
    long before = tries;
    CHECK(mintlintel_write_within(&hosts[0], 0, page, PAGE, 0) == MINTLINTEL_NO_BLOCK && tries == before + 1);
    int runs = 0, is_soon = 0;
    for (; runs < 100 && !is_soon; runs++) {
        double began = seconds();
        before = tries;
        CHECK(mintlintel_write_within(&hosts[0], 0, page, PAGE, 50) == MINTLINTEL_NO_BLOCK && tries - before < 80 && seconds() - began >= 0.05);
        is_soon = tries - before > 1 && seconds() - began < 0.5;
    }
    CHECK(is_soon);
    close_all();
}

/* ---- A device's whole life. */

enum { BLOCKS = 60, PAGES = 16, SECTORS = 500, ENDURANCE = 12, WITHIN = 200 };

static pthread_barrier_t all_there;
static atomic_int hosts_left;
static atomic_uint retired;
/* of each sector the count of its last write, 0 for none; each host writes sectors of its own */
static uint32_t last[SECTORS];
static unsigned long written[HOSTS];

static void fill(uint8_t *page, uint32_t sector, uint32_t count)
{
    for (int i = 0; i < PAGE; i += 8) {
        memcpy(page + i, &sector, 4);
        memcpy(page + i + 4, &count, 4);
    }
}

static void check_sector(struct mintlintel_seat *host, uint32_t sector)
{
    uint8_t page[PAGE], wanted[PAGE];
    fill(wanted, sector, last[sector]);
    uint32_t code = mintlintel_host_read(AT(host), sector, page, PAGE);
    CHECK(code == (last[sector] > 0) && (code == MINTLINTEL_EMPTY || memcmp(page, wanted, PAGE) == 0));
}

/* Writes, reads and holds until a write finds no block in time. */
static void *live(void *argument)
{
    uint32_t me = (uint32_t)(uintptr_t)argument, code = MINTLINTEL_DONE;
    uint64_t state = 88172645463325252u + me;
    pthread_barrier_wait(&all_there);
    for (uint32_t count = 1; code != MINTLINTEL_NO_BLOCK; count++) {
        uint32_t sector = drawn(&state) % (SECTORS / HOSTS) * HOSTS + me;
        uint8_t page[PAGE];
        fill(page, sector, count);
        if (drawn(&state) % 16 == 0 && mintlintel_host_hold(AT(&hosts[me]), sector) == MINTLINTEL_WRITTEN) {
            CHECK(mintlintel_host_write(AT(&hosts[me]), sector, page, PAGE) == MINTLINTEL_WRONG_KIND);
            CHECK(mintlintel_host_release(AT(&hosts[me])) == MINTLINTEL_DONE);
        }
        code = mintlintel_write_within(AT(&hosts[me]), sector, page, PAGE, WITHIN);
        if (code == MINTLINTEL_NO_BLOCK)
            break;
        CHECK(code == (last[sector] > 0));
        last[sector] = count;
        written[me]++;
        check_sector(&hosts[me], sector);
    }
    atomic_fetch_sub(&hosts_left, 1);
    return NULL;
}

/* Collects, and pauses where there is nothing to gain. */
static void *sweep(void *argument)
{
    struct mintlintel_seat *broom = argument;
    pthread_barrier_wait(&all_there);
    while (atomic_load(&hosts_left) > 0) {
        struct mintlintel_collected did;
        uint32_t code = mintlintel_collect(AT(broom), 4, &did);
        atomic_fetch_add(&retired, did.retired);
        if (code != MINTLINTEL_DONE) {
            struct timespec pause = {0, 100000};
            CHECK(code == MINTLINTEL_NOTHING_TO_GAIN || code == MINTLINTEL_NO_SPARE || code == MINTLINTEL_PINNED);
            nanosleep(&pause, NULL);
        }
    }
    return NULL;
}

static void test_whole_life(void)
{
    pthread_t threads[HOSTS + BROOMS];
    CHECK(mintlintel_shared_open(hosts, HOSTS, brooms, BROOMS, 1, BLOCKS, PAGES, WORDS, SECTORS, ENDURANCE) == MINTLINTEL_DONE);
    atomic_store(&hosts_left, HOSTS);
    CHECK(pthread_barrier_init(&all_there, NULL, HOSTS + BROOMS) == 0);
    for (uintptr_t i = 0; i < HOSTS; i++)
        CHECK(pthread_create(&threads[i], NULL, live, (void *)i) == 0);
    for (int i = 0; i < BROOMS; i++)
        CHECK(pthread_create(&threads[HOSTS + i], NULL, sweep, &brooms[i]) == 0);
    for (int i = 0; i < HOSTS + BROOMS; i++)
        CHECK(pthread_join(threads[i], NULL) == 0);
    unsigned long all = 0;
    for (uint32_t sector = 0; sector < SECTORS; sector++)
        check_sector(&hosts[0], sector);
    for (int i = 0; i < HOSTS; i++)
        all += written[i];
    CHECK(atomic_load(&retired) <= BLOCKS && all > BLOCKS * PAGES);
    close_all();
    printf("collect: %lu writes up to the end of the device's life, %u of %d blocks retired\n", all, atomic_load(&retired), BLOCKS);
}

int main(void)
{
    test_version();
    test_formula_of_space();
    test_explains_refusals();
    test_texts_of_refusals();
    test_collects_up_to_its_goal();
    test_erases_later_what_is_being_read();
    test_erases_the_last_block();
    test_restocks_and_tells_retired_blocks();
    test_tells_that_no_block_can_become_free();
    test_trims_bring_a_worn_device_back();
    test_refusals();
    test_write_waits_as_long_as_told();
    test_whole_life();
}
