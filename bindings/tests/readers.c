/* Readers beside the thread that writes, trims and collects, on a chip whose blocks fail and whose power is cut, and of which a page reads as garbage while it
 * is programmed or erased. Each answer is whole, no older than what was acknowledged before it or what its reader had seen, and no newer than what has begun;
 * and an open after a cut finds each change that any read had returned. Before that, without chance: a reader and the device tell the same behind trims of
 * several sectors, copies of them, mounts in place, and a read beside an erase. Then the same on images, in the folder that is named or else in out. */
#include "mintlintel_image.h"
#include "mintlintel_reader.h"
#include "testing.h"
#include <pthread.h>
#include <sched.h>
#include <stdatomic.h>
#include <unistd.h>

enum { BLOCKS = 48, PAGES = 8, MAIN_WORDS = 6, PAGE_BYTES = 8 * MAIN_WORDS, STAMP_WORDS = MINTLINTEL_STAMP_BYTES / 8, SECTORS = 240, READERS = 3 };
enum { FEW_BLOCKS = 34 }; /* without chance: so that any page is copied soon */
enum { CALLS = 500, EVENTS = 1 << 14, MOST_BAD = 12, ONE_FAIL_IN = 300, ONE_CUT_IN = 900 };

/* ---- The chip ---- */

struct page { atomic_int is_programmed; _Atomic uint64_t main[MAIN_WORDS], stamp[STAMP_WORDS]; };

static struct page pages[BLOCKS][PAGES];
static uint8_t bad[BLOCKS];
static int bad_count;
static atomic_int is_off;
static uint64_t chip_state = 0x9e3779b97f4a7c15u;
static long fails, cuts, erases;
/* Without chance each command works, but for the next program that stands so many pages behind one of a sector's second event, if that isn't 0: it fails, and
 * takes that page with it. */
static int is_script;
static uint32_t harms_before;
/* The next read is slow: sectors are written while it lasts, until its block is erased, and it gets what its page has in the middle of that. */
enum { NO_BLOCK = BLOCKS };
static int is_slow;
static struct halfway { uint32_t block, page; uint64_t main[MAIN_WORDS], stamp[STAMP_WORDS]; } halfway = {.block = NO_BLOCK};
static void wait_for_erase(void);

static void get(_Atomic uint64_t *words, void *bytes, int count)
{
    for (int i = 0; bytes && i < count; i++) {
        uint64_t word = atomic_load_explicit(&words[i], memory_order_relaxed);
        memcpy((uint8_t *)bytes + 8 * i, &word, 8);
    }
}

/* Sets words, which are garbage before. */
static void set(_Atomic uint64_t *words, const void *bytes, int count)
{
    for (int turn = 0; turn < 2; turn++)
        for (int i = 0; i < count; i++) {
            uint64_t word = chip_state + (uint64_t)i;
            if (turn && bytes)
                memcpy(&word, (const uint8_t *)bytes + 8 * i, 8);
            atomic_store_explicit(&words[i], word, memory_order_relaxed);
        }
}

static int chip_read(void *chip, uint32_t block, uint32_t page, void *main, void *stamp)
{
    struct page *p = &pages[block][page];
    (void)chip;
    if (is_off)
        return 3;
    int is_programmed = p->is_programmed;
    get(p->main, main, MAIN_WORDS);
    get(p->stamp, stamp, STAMP_WORDS);
    if (is_slow) {
        is_slow = 0;
        halfway.block = block;
        halfway.page = page;
        wait_for_erase();
        memcpy(main, halfway.main, PAGE_BYTES);
        memcpy(stamp, halfway.stamp, MINTLINTEL_STAMP_BYTES);
    }
    return is_programmed ? 0 : 1;
}

/* 0 done, 1 failed, 3 the power goes. */
static int fate(uint32_t block)
{
    if (is_script)
        return 0;
    int is_cut = drawn(&chip_state) % ONE_CUT_IN == 0, is_failing = drawn(&chip_state) % ONE_FAIL_IN == 0;
    is_failing = is_failing && bad_count < MOST_BAD && !bad[block];
    cuts += is_cut;
    fails += !is_cut && is_failing;
    bad_count += !is_cut && is_failing;
    return is_cut ? 3 : is_failing;
}

static int chip_program(void *chip, uint32_t block, uint32_t page, const void *main, const void *stamp)
{
    struct page *p = &pages[block][page];
    (void)chip;
    if (is_off)
        return 3;
    CHECK(!p->is_programmed);
    int harms = harms_before && page >= harms_before && (uint32_t)p[-(int)harms_before].main[0] == 2;
    int code = harms ? 1 : fate(block), is_whole = !harms && (code == 0 || drawn(&chip_state) % 2);
    if (harms) {
        set(p[-(int)harms_before].main, NULL, MAIN_WORDS);
        set(p[-(int)harms_before].stamp, NULL, STAMP_WORDS);
    }
    harms_before = harms ? 0 : harms_before;
    p->is_programmed = 1;
    set(p->main, NULL, MAIN_WORDS);
    sched_yield();
    set(p->stamp, stamp, STAMP_WORDS);
    sched_yield();
    set(p->main, is_whole ? main : NULL, MAIN_WORDS);
    is_off = code == 3;
    return code;
}

static int chip_erase(void *chip, uint32_t block)
{
    (void)chip;
    if (is_off)
        return 3;
    int code = fate(block);
    for (uint32_t page = 0; page < PAGES; page++) {
        if (code != 0 && drawn(&chip_state) % 2)
            continue;
        set(pages[block][page].main, NULL, MAIN_WORDS);
        if (block == halfway.block && page == halfway.page) {
            get(pages[block][page].main, halfway.main, MAIN_WORDS);
            get(pages[block][page].stamp, halfway.stamp, STAMP_WORDS);
            halfway.block = NO_BLOCK;
        }
        pages[block][page].is_programmed = 0;
        if (page % 2)
            sched_yield();
    }
    erases++;
    is_off = code == 3;
    return code;
}

static int chip_is_bad(void *chip, uint32_t block) { return (void)chip, bad[block]; }

/* A mark costs what the block holds. */
static int chip_mark_bad(void *chip, uint32_t block)
{
    (void)chip;
    if (is_off)
        return 3;
    bad[block] = 1;
    for (uint32_t page = 0; page < PAGES; page++)
        set(pages[block][page].main, NULL, MAIN_WORDS);
    return 0;
}

/* ---- What was called ---- */

/* The events of a sector, from 1 on: a write, or a trim. The first was an empty sector. Those up to `done` were acknowledged, up to `begun` called. */
struct sector { atomic_uint begun, done, seen; uint32_t next; atomic_uchar is_trim[EVENTS]; };

static struct sector sectors[SECTORS];
static struct mintlintel_nand nand = {NULL, chip_read, chip_program, NULL, chip_erase, chip_is_bad, chip_mark_bad, NULL};
static struct mintlintel_nand without_marks = {NULL, chip_read, chip_program, NULL, chip_erase, NULL, NULL, NULL};
static struct mintlintel_durable on_chip, *device = &on_chip;
static struct mintlintel_image image;
static enum mintlintel_image_mode mode; /* of an image, or 0 */
static char path[4096];
static atomic_int is_over;
static atomic_long answers, empties, unsettled;

static void fill(uint64_t *page, uint32_t sector, uint32_t event)
{
    for (uint64_t i = 0; i < MAIN_WORDS; i++)
        page[i] = ((uint64_t)sector << 32 | event) * (2 * i + 1);
}

/* The event that a page has the bytes of. */
static uint32_t event_of(const uint64_t *page, uint32_t sector)
{
    uint64_t whole[MAIN_WORDS];
    fill(whole, sector, (uint32_t)page[0]);
    CHECK(memcmp(whole, page, sizeof whole) == 0);
    return (uint32_t)page[0];
}

/* The first event from `least` on by which a sector is empty, or one past the last. */
static uint32_t empty_from(const struct sector *s, uint32_t least, uint32_t most)
{
    while (least <= most && least > 0 && !s->is_trim[least])
        least++;
    return least;
}

static void raise(atomic_uint *at, uint32_t least)
{
    unsigned was = *at;
    while (was < least && !atomic_compare_exchange_weak(at, &was, least))
        ;
}

/* ---- Reading ---- */

struct reading { struct mintlintel_reader reader; uint64_t state; uint32_t seen[SECTORS]; };

static void read_one(struct reading *r, uint32_t sector)
{
    struct sector *s = &sectors[sector];
    uint64_t page[MAIN_WORDS];
    uint32_t least = s->done > r->seen[sector] ? s->done : r->seen[sector];
    uint32_t code = mintlintel_reader_read(&r->reader, sector, page, sizeof page), most = s->begun;
    if (code == MINTLINTEL_POWER_GONE && is_off)
        return;
    if (code == MINTLINTEL_UNSETTLED) {
        unsettled++;
        return;
    }
    CHECK(code <= MINTLINTEL_WRITTEN);
    uint32_t event = code == MINTLINTEL_WRITTEN ? event_of(page, sector) : empty_from(s, least, most);
    CHECK(event >= least);
    CHECK(event <= most);
    CHECK(event == 0 || s->is_trim[event] == (code == MINTLINTEL_EMPTY));
    r->seen[sector] = event;
    raise(&s->seen, event);
    answers++;
    empties += code == MINTLINTEL_EMPTY;
}

static void *read_on(void *argument)
{
    struct reading *r = argument;
    while (!is_over)
        read_one(r, drawn(&r->state) % (drawn(&r->state) % 4 ? 16 : SECTORS));
    return NULL;
}

/* ---- Writing ---- */

static uint32_t begin(uint32_t sector, int is_trim)
{
    struct sector *s = &sectors[sector];
    uint32_t event = ++s->next;
    CHECK(event < EVENTS);
    s->is_trim[event] = (unsigned char)is_trim;
    s->begun = event;
    return event;
}

/* A call that may fail: 1 if it was acknowledged. */
static int is_done(uint32_t code)
{
    CHECK(code <= MINTLINTEL_WRITTEN || (code == MINTLINTEL_POWER_GONE && is_off));
    return code <= MINTLINTEL_WRITTEN;
}

static int change(uint64_t *state)
{
    uint32_t first = drawn(state) % (drawn(state) % 4 ? 16 : SECTORS), count = 1, events[8];
    int is_trim = drawn(state) % 8 == 0;
    uint64_t page[MAIN_WORDS];
    if (is_trim)
        count += drawn(state) % 8 < SECTORS - first ? drawn(state) % (SECTORS - first < 8 ? SECTORS - first : 8) : 0;
    for (uint32_t i = 0; i < count; i++)
        events[i] = begin(first + i, is_trim);
    fill(page, first, events[0]);
    if (!is_done(is_trim ? mintlintel_durable_trim(device, first, count) : mintlintel_durable_write(device, first, page, sizeof page)))
        return 0;
    for (uint32_t i = 0; i < count; i++)
        sectors[first + i].done = events[i];
    return 1;
}

/* ---- Sessions ---- */

static void open_device(void)
{
    is_off = 0;
    device = mode ? &image.device : &on_chip;
    CHECK((mode ? mintlintel_image_open(&image, path, mode, 1, BLOCKS, PAGES, PAGE_BYTES, SECTORS)
                : mintlintel_durable_open(device, &nand, 1, BLOCKS, PAGES, PAGE_BYTES, SECTORS)) == MINTLINTEL_DONE);
}

static void close_device(void)
{
    if (mode)
        CHECK(mintlintel_image_close(&image) == MINTLINTEL_DONE);
    else
        mintlintel_durable_close(device);
}

/* After an open each sector has an event that no read and no acknowledgement is ahead of. */
static void open_again(void)
{
    open_device();
    for (uint32_t i = 0; i < SECTORS; i++) {
        struct sector *s = &sectors[i];
        uint64_t page[MAIN_WORDS];
        uint32_t least = s->done > s->seen ? s->done : s->seen, code = mintlintel_durable_read(device, i, page, sizeof page);
        CHECK(code <= MINTLINTEL_WRITTEN);
        uint32_t event = code == MINTLINTEL_WRITTEN ? event_of(page, i) : empty_from(s, least, s->begun);
        CHECK(event >= least && event <= s->begun);
        s->done = s->seen = s->begun = event;
    }
}

/* Some calls beside readers, up to a cut. A reader of a closed device answers no more. */
static void play_session(uint64_t *state)
{
    static struct reading readings[READERS];
    pthread_t threads[READERS];
    uint64_t page[MAIN_WORDS];
    open_again();
    is_over = 0;
    for (uint32_t i = 0; i < READERS; i++) {
        readings[i] = (struct reading){.state = drawn(state) + 1};
        CHECK(mintlintel_reader_open(&readings[i].reader, device) == MINTLINTEL_DONE);
        CHECK(mintlintel_reader_open(&readings[i].reader, device) == MINTLINTEL_ALREADY_OPEN);
        CHECK(pthread_create(&threads[i], NULL, read_on, &readings[i]) == 0);
    }
    for (int i = 0; i < CALLS && change(state); i++)
        if (i % 64 == 63)
            CHECK(is_done(mintlintel_durable_flush(device)));
    is_over = 1;
    for (int i = 0; i < READERS; i++)
        CHECK(pthread_join(threads[i], NULL) == 0);
    for (uint32_t i = 0; i < SECTORS && !is_off; i++)
        read_one(&readings[0], i);
    close_device();
    CHECK(mintlintel_reader_read(&readings[0].reader, 0, page, sizeof page) == MINTLINTEL_CLOSED);
    for (int i = 0; i < READERS; i++)
        mintlintel_reader_close(&readings[i].reader);
    CHECK(mintlintel_reader_read(&readings[0].reader, 0, page, sizeof page) == MINTLINTEL_CLOSED);
}

/* ---- Without chance ---- */

static uint32_t write_event(uint32_t sector, uint32_t event)
{
    uint64_t page[MAIN_WORDS];
    fill(page, sector, event);
    return mintlintel_durable_write(device, sector, page, sizeof page);
}

/* The device that the chip has, which marks no block, and a reader of it. */
static void open_script(struct mintlintel_reader *reader)
{
    uint64_t losses;
    CHECK(mintlintel_durable_open_despite_losses(device, &without_marks, 1, FEW_BLOCKS, PAGES, PAGE_BYTES, SECTORS, &losses) == MINTLINTEL_DONE);
    CHECK(mintlintel_reader_open(reader, device) == MINTLINTEL_DONE);
}

static void close_script(struct mintlintel_reader *reader)
{
    mintlintel_durable_close(device);
    mintlintel_reader_close(reader);
}

/* A new one on an erased chip, with each sector written once. */
static void begin_script(struct mintlintel_reader *reader)
{
    memset(pages, 0, sizeof pages);
    is_script = 1;
    open_script(reader);
    for (uint32_t i = 0; i < SECTORS; i++)
        CHECK(write_event(i, 1) == MINTLINTEL_EMPTY);
}

static void end_script(struct mintlintel_reader *reader)
{
    close_script(reader);
    memset(pages, 0, sizeof pages);
    is_script = 0;
}

/* A reader and the device tell the same of each sector. */
static void agree(struct mintlintel_reader *reader)
{
    for (uint32_t i = 0; i < SECTORS; i++) {
        uint64_t told[MAIN_WORDS], held[MAIN_WORDS];
        uint32_t code = mintlintel_durable_read(device, i, held, sizeof held);
        CHECK(mintlintel_reader_read(reader, i, told, sizeof told) == code);
        CHECK(code == MINTLINTEL_EMPTY || (code == MINTLINTEL_WRITTEN && memcmp(told, held, sizeof held) == 0));
    }
}

/* Trims of several sectors, of which some are written again. The page of one that an open has found is copied, too. */
static void trims(void)
{
    struct mintlintel_reader reader = {0};
    uint64_t state = 5;
    begin_script(&reader);
    for (uint32_t round = 0; round < 8; round++) {
        uint32_t first = 9 * round, count = round % 2 ? 8 : 2;
        CHECK(mintlintel_durable_trim(device, first, count) == MINTLINTEL_WRITTEN);
        agree(&reader);
        CHECK(write_event(first + round / 2 % count, 2) == MINTLINTEL_EMPTY);
        agree(&reader);
        close_script(&reader);
        open_script(&reader);
        for (uint32_t i = 0; i < 400; i++)
            CHECK(write_event(80 + drawn(&state) % (SECTORS - 80), 3) == MINTLINTEL_WRITTEN);
        agree(&reader);
    }
    end_script(&reader);
}

/* A program fails, and takes a page before it with it: none is in reserve, so that the device mounts, and the sector of that page has what it had before. If
 * that was the newest page its number may come again: then no reader answers from then on, but one that is opened now. */
static void mounts_in_place(uint32_t before)
{
    struct mintlintel_reader reader = {0}, later = {0};
    uint64_t page[MAIN_WORDS];
    uint32_t old = 0, written = 0;
    begin_script(&reader);
    for (harms_before = before; harms_before; written++)
        CHECK(write_event(written, 2) == MINTLINTEL_WRITTEN);
    for (uint32_t i = 0; i < SECTORS; i++)
        old += mintlintel_durable_read(device, i, page, sizeof page) == MINTLINTEL_WRITTEN && event_of(page, i) == 1;
    CHECK(old == SECTORS - written + 1);
    CHECK(mintlintel_reader_open(&later, device) == MINTLINTEL_DONE);
    agree(&later);
    if (before == 1)
        CHECK(mintlintel_reader_read(&reader, 0, page, sizeof page) == MINTLINTEL_NO_NUMBER);
    else
        agree(&reader);
    mintlintel_reader_close(&later);
    end_script(&reader);
}

static void wait_for_erase(void)
{
    uint64_t state = 5;
    while (halfway.block != NO_BLOCK)
        CHECK(write_event(1 + drawn(&state) % (SECTORS - 1), 2) == MINTLINTEL_WRITTEN);
}

/* A reader reads a page while its block is erased: it looks again, and finds the copy. */
static void reads_beside_an_erase(void)
{
    struct mintlintel_reader reader = {0};
    uint64_t page[MAIN_WORDS];
    begin_script(&reader);
    is_slow = 1;
    CHECK(mintlintel_reader_read(&reader, 0, page, sizeof page) == MINTLINTEL_WRITTEN);
    CHECK(!is_slow && halfway.block == NO_BLOCK);
    CHECK(event_of(page, 0) == 1);
    agree(&reader);
    end_script(&reader);
}

static void play_images(const char *folder, int sessions, uint64_t *state)
{
    snprintf(path, sizeof path, "%s/readers.img", folder);
    for (mode = MINTLINTEL_ALWAYS; mode <= MINTLINTEL_NEVER; mode++) {
        unlink(path);
        memset(sectors, 0, sizeof sectors);
        for (int i = 0; i < sessions; i++)
            play_session(state);
    }
    unlink(path);
}

int main(int count, char **words)
{
    uint64_t state = 88172645463325252u;
    int sessions = count > 1 && atoi(words[1]) > 0 ? atoi(words[1]) : 20;
    trims();
    mounts_in_place(1);
    mounts_in_place(2);
    reads_beside_an_erase();
    for (int i = 0; i < sessions; i++)
        play_session(&state);
    CHECK(answers > 100 * sessions && empties > 0 && fails > 0 && cuts > 0);
    printf("readers: %ld answers, of which %ld empty, beside %ld erases, %ld failures and %ld cuts; %ld unsettled\n", (long)answers, (long)empties, erases,
           fails, cuts, (long)unsettled);
    long on_chips = answers;
    play_images(count > 2 ? words[2] : count > 1 && atoi(words[1]) == 0 ? words[1] : "out", 1 + sessions / 10, &state);
    printf("readers: %ld answers of images\n", answers - on_chips);
    return 0;
}
