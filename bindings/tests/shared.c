/* Four hosts and two brooms on one device, each in its own thread, and again on one that wears out. A page names its writer, its sector
 * and the writer's count. Every page that is read is whole, a held page doesn't change, and no thread reads a value again that it has seen
 * replaced. Under ThreadSanitizer each handle is announced as written before a call, so that two threads in one handle are reported. */
#include "testing.h"
#include <pthread.h>
#include <sched.h>
#include <stdatomic.h>

#ifdef __SANITIZE_THREAD__
void __tsan_write_range(void *start, unsigned long size);
#define AT(handle) (__tsan_write_range((handle), sizeof *(handle)), (handle))
#else
#define AT(handle) (handle)
#endif

enum { HOSTS = 4, BROOMS = 2, SECTORS = 600, WORDS = 8, PAGE = 8 * WORDS, BLOCKS = 60, PAGES = 16 };

static struct mintlintel_seat hosts[HOSTS], brooms[BROOMS];
static atomic_int hosts_left;
static long rounds = 20000;

/* what a thread has seen of a sector: the value that it saw last, and each writer's highest count */
struct sight { uint32_t writer, count, highest[HOSTS]; };
struct thread { uint32_t number; long writes, reads, holds, no_block, given_up; struct sight sights[SECTORS]; };
/* what a broom's calls returned, by code */
struct sweep { uint32_t number; long moved, drains[32], erases[32]; struct mintlintel_tally tally; };

/* how often a write that finds no block is tried again; if blocks don't wear out, each write succeeds in the end */
static long most_tries;
/* the pages that the last run has programmed */
static long programs;

static void fill(uint8_t *page, uint32_t writer, uint32_t sector, uint32_t count)
{
    for (int i = 0; i < PAGE; i += 8) {
        uint32_t words[2] = {writer << 24 | sector, count};
        memcpy(page + i, words, 8);
    }
}

/* A value that a thread reads is whole, of this sector, and the last one that it saw or a newer one of its writer. An empty sector has writer HOSTS. */
static void check_value(struct thread *t, uint32_t sector, uint32_t code, const uint8_t *page)
{
    struct sight *sight = &t->sights[sector];
    uint32_t words[2] = {HOSTS << 24 | sector, 0};
    if (code == MINTLINTEL_WRITTEN)
        memcpy(words, page, 8);
    uint32_t writer = words[0] >> 24, count = words[1];
    CHECK((words[0] & 0xffffff) == sector && writer <= HOSTS);
    for (int i = 8; code == MINTLINTEL_WRITTEN && i < PAGE; i += 8)
        CHECK(memcmp(page, page + i, 8) == 0);
    if (writer == sight->writer && count == sight->count)
        return;
    if (writer < HOSTS) {
        CHECK(count > sight->highest[writer]);
        sight->highest[writer] = count;
    }
    sight->writer = writer;
    sight->count = count;
}

static void write_once(struct thread *t, uint32_t sector, uint32_t count, int only_new)
{
    uint8_t page[PAGE];
    struct mintlintel_seat *host = &hosts[t->number];
    uint32_t code;
    fill(page, t->number, sector, count);
    for (long tries = 0;; tries++) {
        code = only_new ? mintlintel_host_write_new(AT(host), sector, page, PAGE) : mintlintel_host_write(AT(host), sector, page, PAGE);
        if (code != MINTLINTEL_NO_BLOCK)
            break;
        t->no_block++;
        if (most_tries > 0 && tries == most_tries) {
            t->given_up++;
            return;
        }
        sched_yield();
    }
    CHECK(code <= MINTLINTEL_WRITTEN);
    t->writes++;
    if (!only_new || code == MINTLINTEL_EMPTY)
        check_value(t, sector, MINTLINTEL_WRITTEN, page);
}

static void read_once(struct thread *t, uint32_t sector)
{
    uint8_t page[PAGE];
    uint32_t code = mintlintel_host_read(AT(&hosts[t->number]), sector, page, PAGE);
    CHECK(code <= MINTLINTEL_WRITTEN);
    t->reads++;
    check_value(t, sector, code, page);
}

/* A sector's page is held while others overwrite it: each copy and each word of it is the same, and it stays in its place. */
static void hold_once(struct thread *t, uint32_t sector)
{
    struct mintlintel_seat *host = &hosts[t->number];
    struct mintlintel_page place, now;
    uint8_t page[PAGE], again[PAGE];
    uint64_t word;
    uint32_t code = mintlintel_host_hold(AT(host), sector);
    CHECK(code <= MINTLINTEL_WRITTEN);
    if (code == MINTLINTEL_EMPTY) {
        check_value(t, sector, code, NULL);
        return;
    }
    CHECK(mintlintel_host_copy(AT(host), page, PAGE) == MINTLINTEL_WRITTEN);
    CHECK(mintlintel_host_held(AT(host), &place) == MINTLINTEL_DONE && place.block < BLOCKS);
    check_value(t, sector, MINTLINTEL_WRITTEN, page);
    sched_yield();
    for (int i = 0; i < 4; i++) {
        CHECK(mintlintel_host_copy(AT(host), again, PAGE) == MINTLINTEL_WRITTEN && memcmp(page, again, PAGE) == 0);
        CHECK(mintlintel_host_word(AT(host), WORDS - 1, &word) == MINTLINTEL_DONE && memcmp(&word, page + PAGE - 8, 8) == 0);
        CHECK(mintlintel_host_held(AT(host), &now) == MINTLINTEL_DONE && memcmp(&place, &now, sizeof now) == 0);
    }
    CHECK(mintlintel_host_release(AT(host)) == MINTLINTEL_DONE);
    t->holds++;
}

static void *run_host(void *argument)
{
    struct thread *t = argument;
    uint64_t state = 88172645463325252u + t->number;
    for (long i = 1; i <= rounds; i++) {
        uint32_t sector = drawn(&state) % SECTORS, kind = drawn(&state) % 16;
        if (kind < 7) {
            write_once(t, sector, (uint32_t)i, 0);
        } else if (kind == 7) {
            write_once(t, sector, (uint32_t)i, 1);
        } else if (kind == 8) {
            CHECK(mintlintel_host_trim(AT(&hosts[t->number]), sector) <= MINTLINTEL_WRITTEN);
            check_value(t, sector, MINTLINTEL_EMPTY, NULL);
        } else if (kind == 9) {
            hold_once(t, sector);
        } else if (kind == 10) {
            CHECK(mintlintel_host_look(AT(&hosts[t->number]), sector) <= MINTLINTEL_WRITTEN);
        } else {
            read_once(t, sector);
        }
    }
    atomic_fetch_sub(&hosts_left, 1);
    return NULL;
}

/* Drains by a survey, and then twice by the same one; each block that is drained is erased, or put off while it is read. */
static void *run_broom(void *argument)
{
    struct sweep *s = argument;
    struct mintlintel_seat *broom = &brooms[s->number];
    for (long turn = 0; atomic_load(&hosts_left) > 0; turn++) {
        uint32_t block = BLOCKS, moved = PAGES, code;
        code = turn % 3 == 0 ? mintlintel_broom_drain(AT(broom), &block, &moved) : mintlintel_broom_drain_next(AT(broom), &block, &moved);
        CHECK(code == MINTLINTEL_DONE || code == MINTLINTEL_NOTHING_TO_GAIN || code == MINTLINTEL_NO_SPARE || code == MINTLINTEL_LOST);
        s->drains[code]++;
        if (code != MINTLINTEL_DONE) {
            CHECK(block == BLOCKS && moved == PAGES);
            code = mintlintel_broom_restock(AT(broom));
            CHECK(code == MINTLINTEL_DONE || code == MINTLINTEL_NO_SPARE);
            sched_yield();
            continue;
        }
        CHECK(block < BLOCKS && moved <= PAGES);
        s->moved += moved;
        while ((code = mintlintel_broom_erase(AT(broom), block)) == MINTLINTEL_PINNED) {
            s->erases[code]++;
            sched_yield();
        }
        CHECK(code == MINTLINTEL_DONE || code == MINTLINTEL_KEPT || code == MINTLINTEL_RETIRED);
        s->erases[code]++;
    }
    return NULL;
}

/* each sector's page, and its place */
struct contents { uint32_t code; uint8_t page[PAGE]; struct mintlintel_page place; };

static void read_all(struct contents *sectors)
{
    memset(sectors, 0, SECTORS * sizeof *sectors);
    for (uint32_t sector = 0; sector < SECTORS; sector++) {
        struct contents *at = &sectors[sector];
        at->code = mintlintel_host_hold(&hosts[0], sector);
        if (at->code == MINTLINTEL_WRITTEN) {
            CHECK(mintlintel_host_copy(&hosts[0], at->page, PAGE) == MINTLINTEL_WRITTEN);
            CHECK(mintlintel_host_held(&hosts[0], &at->place) == MINTLINTEL_DONE && mintlintel_host_release(&hosts[0]) == MINTLINTEL_DONE);
        }
    }
}

/* A call for another kind of seat returns 9 and changes nothing; wrong sectors, lengths and blocks have their codes. */
static void test_refused_calls(void)
{
    static struct contents before[SECTORS], after[SECTORS];
    uint8_t page[PAGE] = {5}, kept[PAGE] = {5};
    uint32_t block = 77, moved = 78;
    for (uint32_t sector = 0; sector < PAGES / 2; sector++)
        CHECK(mintlintel_host_write(&hosts[sector % HOSTS], sector, page, PAGE) == MINTLINTEL_EMPTY);
    read_all(before);
    CHECK(mintlintel_host_read(&brooms[0], SECTORS, page, 1) == MINTLINTEL_WRONG_KIND);
    CHECK(mintlintel_host_write(&brooms[0], 0, page, PAGE) == MINTLINTEL_WRONG_KIND);
    CHECK(mintlintel_host_write_new(&brooms[0], 0, page, PAGE) == MINTLINTEL_WRONG_KIND);
    CHECK(mintlintel_host_trim(&brooms[0], 0) == MINTLINTEL_WRONG_KIND);
    CHECK(mintlintel_broom_drain(&hosts[0], &block, &moved) == MINTLINTEL_WRONG_KIND);
    CHECK(mintlintel_broom_drain_next(&hosts[0], &block, &moved) == MINTLINTEL_WRONG_KIND);
    CHECK(mintlintel_broom_drain_dead(&hosts[0], &block, &moved) == MINTLINTEL_WRONG_KIND);
    CHECK(mintlintel_broom_erase(&hosts[0], 0) == MINTLINTEL_WRONG_KIND);
    CHECK(mintlintel_broom_restock(&hosts[0]) == MINTLINTEL_WRONG_KIND);
    CHECK(mintlintel_host_look(&brooms[0], 0) == MINTLINTEL_WRONG_KIND && mintlintel_host_hold(&brooms[0], 0) == MINTLINTEL_WRONG_KIND);
    CHECK(mintlintel_host_release(&brooms[0]) == MINTLINTEL_WRONG_KIND && mintlintel_host_release(&hosts[0]) == MINTLINTEL_WRONG_KIND);
    CHECK(mintlintel_host_read(&hosts[0], SECTORS, page, 1) == MINTLINTEL_NO_SECTOR);
    CHECK(mintlintel_host_read(&hosts[0], 0, page, 1) == MINTLINTEL_NOT_A_PAGE);
    CHECK(mintlintel_host_write(&hosts[0], SECTORS, page, PAGE) == MINTLINTEL_NO_SECTOR);
    CHECK(mintlintel_host_write(&hosts[0], 0, page, PAGE - 1) == MINTLINTEL_NOT_A_PAGE);
    CHECK(mintlintel_host_write_new(&hosts[0], SECTORS, page, PAGE) == MINTLINTEL_NO_SECTOR);
    CHECK(mintlintel_host_write_new(&hosts[0], 0, page, PAGE - 1) == MINTLINTEL_NOT_A_PAGE);
    CHECK(mintlintel_host_trim(&hosts[0], SECTORS) == MINTLINTEL_NO_SECTOR && mintlintel_host_look(&hosts[0], SECTORS) == MINTLINTEL_NO_SECTOR);
    CHECK(mintlintel_host_hold(&hosts[0], SECTORS) == MINTLINTEL_NO_SECTOR);
    CHECK(mintlintel_broom_erase(&brooms[0], BLOCKS) == MINTLINTEL_NO_SUCH_BLOCK);
    CHECK(mintlintel_broom_erase(&brooms[0], 0) == MINTLINTEL_STALE);
    CHECK(mintlintel_broom_drain(&brooms[0], &block, &moved) == MINTLINTEL_NOTHING_TO_GAIN);
    CHECK(mintlintel_broom_drain_next(&brooms[0], &block, &moved) == MINTLINTEL_NOTHING_TO_GAIN);
    CHECK(block == 77 && moved == 78 && memcmp(page, kept, PAGE) == 0);
    read_all(after);
    CHECK(memcmp(before, after, sizeof before) == 0);
    for (uint32_t sector = 0; sector < PAGES / 2; sector++)
        CHECK(mintlintel_host_trim(&hosts[0], sector) == MINTLINTEL_WRITTEN);
    CHECK(mintlintel_shared_open(hosts, HOSTS, brooms, BROOMS, 0, 0, 0, 0, 0, 0) == MINTLINTEL_ALREADY_OPEN);
    struct mintlintel_numbers n, wanted = {1, BLOCKS, PAGES, WORDS, SECTORS, 1000000, HOSTS, BROOMS};
    CHECK(mintlintel_seat_numbers(&hosts[1], &n) == MINTLINTEL_DONE && memcmp(&n, &wanted, sizeof n) == 0);
    CHECK(mintlintel_seat_numbers(&brooms[1], &n) == MINTLINTEL_DONE && memcmp(&n, &wanted, sizeof n) == 0);
}

/* Once all threads have ended, each host reads the same of every sector. */
static void check_threads_agree(struct thread *threads)
{
    for (uint32_t sector = 0; sector < SECTORS; sector++) {
        uint8_t first[PAGE] = {0}, other[PAGE] = {0};
        uint32_t code = mintlintel_host_read(AT(&hosts[0]), sector, first, PAGE);
        check_value(&threads[0], sector, code, first);
        for (uint32_t t = 1; t < HOSTS; t++) {
            CHECK(mintlintel_host_read(AT(&hosts[t]), sector, other, PAGE) == code);
            check_value(&threads[t], sector, code, other);
            CHECK(memcmp(first, other, PAGE) == 0);
        }
    }
}

/* Each call on a closed handle returns that code, and changes nothing that it was passed. */
static void test_closed_seat(void)
{
    struct mintlintel_seat closed = {0}, zero = {0};
    uint8_t page[PAGE] = {5}, kept[PAGE] = {5};
    uint32_t block = 77, moved = 78;
    uint64_t word = 79;
    struct mintlintel_page place = {80, 81};
    struct mintlintel_numbers n = {82, 0, 0, 0, 0, 0, 0, 0};
    CHECK(mintlintel_host_read(&closed, 0, page, PAGE) == MINTLINTEL_CLOSED);
    CHECK(mintlintel_host_write(&closed, 0, page, PAGE) == MINTLINTEL_CLOSED);
    CHECK(mintlintel_host_write_new(&closed, 0, page, PAGE) == MINTLINTEL_CLOSED);
    CHECK(mintlintel_host_trim(&closed, 0) == MINTLINTEL_CLOSED && mintlintel_host_hold(&closed, 0) == MINTLINTEL_CLOSED);
    CHECK(mintlintel_host_copy(&closed, page, PAGE) == MINTLINTEL_CLOSED && mintlintel_host_word(&closed, 0, &word) == MINTLINTEL_CLOSED);
    CHECK(mintlintel_host_held(&closed, &place) == MINTLINTEL_CLOSED && mintlintel_host_release(&closed) == MINTLINTEL_CLOSED);
    CHECK(mintlintel_broom_drain(&closed, &block, &moved) == MINTLINTEL_CLOSED && mintlintel_broom_erase(&closed, 0) == MINTLINTEL_CLOSED);
    CHECK(mintlintel_host_look(&closed, 0) == MINTLINTEL_CLOSED && mintlintel_broom_restock(&closed) == MINTLINTEL_CLOSED);
    CHECK(mintlintel_broom_drain_next(&closed, &block, &moved) == MINTLINTEL_CLOSED);
    CHECK(mintlintel_broom_drain_dead(&closed, &block, &moved) == MINTLINTEL_CLOSED);
    CHECK(mintlintel_seat_numbers(&closed, &n) == MINTLINTEL_CLOSED);
    mintlintel_seat_close(&closed);
    CHECK(block == 77 && moved == 78 && word == 79 && place.block == 80 && place.generation == 81 && n.luns == 82);
    CHECK(memcmp(page, kept, PAGE) == 0 && memcmp(&closed, &zero, sizeof closed) == 0);
}

/* The faults of a shared device's counts, by the limits of docs/FORMATS.md: none is opened, and all handles stay closed. */
static void test_faults_of_counts(void)
{
    static struct mintlintel_seat many[501], few[33], zeros[501];
    CHECK(mintlintel_shared_open(many, 0, few, 0, 1, 40, 4, 1, 10, 10) == MINTLINTEL_BAD_SEATS);
    CHECK(mintlintel_shared_open(many, 0, few, 1, 1, 40, 4, 1, 10, 10) == MINTLINTEL_BAD_SEATS);
    CHECK(mintlintel_shared_open(many, 0, few, 0, 1, 40, 4, 1, 1000, 10) == MINTLINTEL_BAD_SEATS);
    CHECK(mintlintel_shared_open(many, 501, few, 0, 1, 4096, 4, 1, 10, 10) == MINTLINTEL_BAD_SEATS);
    CHECK(mintlintel_shared_open(many, 1, few, 33, 1, 4096, 4, 1, 10, 10) == MINTLINTEL_BAD_SEATS);
    CHECK(mintlintel_shared_open(many, 501, few, 33, 1, 4096, 4, 1, 10, 0) == MINTLINTEL_BAD_ENDURANCE);
    CHECK(mintlintel_shared_open(many, 38, few, 1, 1, 40, 4, 1, 10, 10) == MINTLINTEL_TOO_FEW_BLOCKS);
    CHECK(memcmp(many, zeros, sizeof many) == 0 && memcmp(few, zeros, sizeof few) == 0);
    CHECK(mintlintel_shared_open(many, 500, few, 32, 1, 4096, 1, 1, 1, 1) == MINTLINTEL_DONE);
    for (int i = 0; i < 500; i++)
        mintlintel_seat_close(&many[i]);
    for (int i = 0; i < 32; i++)
        mintlintel_seat_close(&few[i]);
}

/* The pages programmed since the open, by the blocks: while no call is made, and before a seat is closed, each erase was of a full block. The
 * pages of a retired block were written before its last erase. */
static long count_programs(void)
{
    struct mintlintel_state state;
    long sum = 0;
    for (uint32_t block = 0; block < BLOCKS; block++) {
        CHECK(mintlintel_broom_block(AT(&brooms[0]), block, &state) == MINTLINTEL_DONE);
        sum += (long)state.erases * PAGES + (state.phase == MINTLINTEL_PHASE_RETIRED ? 0 : state.written);
    }
    return sum;
}

/* All threads at the open device, until each host has made its calls. */
static void run_all(struct thread *threads, struct sweep *sweeps)
{
    pthread_t host_threads[HOSTS], broom_threads[BROOMS];
    memset(threads, 0, HOSTS * sizeof *threads);
    memset(sweeps, 0, BROOMS * sizeof *sweeps);
    atomic_store(&hosts_left, HOSTS);
    programs = count_programs();
    for (uint32_t i = 0; i < BROOMS; i++) {
        sweeps[i].number = i;
        pthread_create(&broom_threads[i], NULL, run_broom, &sweeps[i]);
    }
    for (uint32_t i = 0; i < HOSTS; i++) {
        threads[i].number = i;
        for (uint32_t sector = 0; sector < SECTORS; sector++)
            threads[i].sights[sector].writer = HOSTS;
        pthread_create(&host_threads[i], NULL, run_host, &threads[i]);
    }
    for (int i = 0; i < HOSTS; i++)
        pthread_join(host_threads[i], NULL);
    for (int i = 0; i < BROOMS; i++)
        pthread_join(broom_threads[i], NULL);
    check_threads_agree(threads);
    programs = count_programs() - programs;
    for (int i = 0; i < BROOMS; i++)
        CHECK(mintlintel_broom_tally(AT(&brooms[i]), &sweeps[i].tally) == MINTLINTEL_DONE && sweeps[i].tally.moved == (uint64_t)sweeps[i].moved);
    for (int i = 0; i < HOSTS; i++)
        mintlintel_seat_close(AT(&hosts[i]));
    for (int i = 0; i < BROOMS; i++)
        mintlintel_seat_close(AT(&brooms[i]));
}

/* Prints what all threads did, and returns the sums in `host` and `broom`. */
static void print_counts(const char *device, const struct thread *threads, const struct sweep *sweeps, struct thread *host, struct sweep *broom)
{
    memset(host, 0, sizeof *host);
    memset(broom, 0, sizeof *broom);
    for (int i = 0; i < HOSTS; i++) {
        host->writes += threads[i].writes;
        host->reads += threads[i].reads;
        host->holds += threads[i].holds;
        host->no_block += threads[i].no_block;
        host->given_up += threads[i].given_up;
    }
    for (int i = 0; i < BROOMS; i++) {
        broom->moved += sweeps[i].moved;
        broom->tally.programs += sweeps[i].tally.programs;
        broom->tally.erases += sweeps[i].tally.erases;
        for (int code = 0; code < 32; code++) {
            broom->drains[code] += sweeps[i].drains[code];
            broom->erases[code] += sweeps[i].erases[code];
        }
    }
    /* Each write has programmed a page, and each copy one, also if its sector was written meanwhile: then the drain has not moved it. */
    long overtaken = (long)broom->tally.programs - broom->moved;
    const long *d = broom->drains, *e = broom->erases;
    CHECK(programs == host->writes + (long)broom->tally.programs && overtaken >= 0 && overtaken <= host->writes);
    CHECK((long)broom->tally.erases == e[MINTLINTEL_DONE] + e[MINTLINTEL_KEPT] + e[MINTLINTEL_RETIRED]);
    printf("shared: %s: %ld writes, %ld reads, %ld holds, %ld times no block, %ld writes given up; %ld pages moved, %ld copies overtaken; drains: "
           "%ld done, %ld with nothing to gain, %ld without a spare, %ld lost; erases: %ld free, %ld kept, %ld retired, %ld put off\n", device,
           host->writes, host->reads, host->holds, host->no_block, host->given_up, broom->moved, overtaken, d[0], d[20], d[21], d[22], e[0], e[26], e[23],
           e[24]);
}

int main(int count, char **words)
{
    static struct thread threads[HOSTS], host;
    static struct sweep sweeps[BROOMS], broom;
    if (count > 1)
        rounds = atol(words[1]);
    test_closed_seat();
    test_faults_of_counts();
    CHECK(mintlintel_shared_open(hosts, HOSTS, brooms, BROOMS, 1, BLOCKS, PAGES, WORDS, SECTORS, 1000000) == MINTLINTEL_DONE);
    test_refused_calls();
    run_all(threads, sweeps);
    print_counts("one that lasts", threads, sweeps, &host, &broom);
    CHECK(host.writes > 0 && host.reads > 0 && host.holds > 0 && host.given_up == 0 && broom.moved > 0);
    CHECK(broom.drains[MINTLINTEL_DONE] > 0 && broom.drains[MINTLINTEL_LOST] > 0);
    CHECK(broom.erases[MINTLINTEL_DONE] > 0 && broom.erases[MINTLINTEL_KEPT] > 0 && broom.erases[MINTLINTEL_PINNED] > 0);
    most_tries = 4;
    CHECK(mintlintel_shared_open(hosts, HOSTS, brooms, BROOMS, 1, BLOCKS, PAGES, WORDS, SECTORS, 8) == MINTLINTEL_DONE);
    run_all(threads, sweeps);
    print_counts("one that wears out", threads, sweeps, &host, &broom);
    CHECK(host.no_block > 0 && host.given_up > 0 && broom.erases[MINTLINTEL_RETIRED] > 0);
    return 0;
}
