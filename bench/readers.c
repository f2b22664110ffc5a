/* Reads by several threads beside one that writes and collects, or flushes: readers FLASH DESIGN READERS BLOCKS SETTLE SECONDS. FLASH is a number of LUNs that
 * take a part's times, in nanoseconds (READ, PROGRAM and ERASE in the environment), or a folder for an image in mode flush whose syncs take SYNC, and of which
 * each thread has a read to do every DUE. It prints reads a second, the nanoseconds of a read since it was due (p50, p99, p99.9), its processor time, writes a
 * second, programs for each, and how often a read was unsettled.
 * Each answer is checked: it is whole, no older than what was acknowledged before it or what its thread had seen, and no newer than what had begun. */
#define _GNU_SOURCE
#include "luns.h"
#include <fcntl.h>
#include <mintlintel_image.h>
#include <mintlintel_reader.h>
#include <stdatomic.h>
#include <stdio.h>
#include <stdlib.h>
#include <string.h>
#include <time.h>
#include <unistd.h>

enum { PAGE = 4096, PAGES = 64, USE = 85, MOST_READERS = 16, STAMP = MINTLINTEL_STAMP_BYTES, PACE = 2000, WRITES_OF_A_FLUSH = 32 };

#define CHECK(is_right) \
    do { \
        if (!(is_right)) { \
            fprintf(stderr, "%s:%d: does not hold: %s\n", __FILE__, __LINE__, #is_right); \
            exit(1); \
        } \
    } while (0)

static uint32_t blocks, sectors;
static struct luns luns;
static struct mintlintel_durable on_chip, *device = &on_chip;
static struct mintlintel_image image;
static int file = -1; /* of the design without a layer */
static uint64_t sync_time, read_pace; /* a read of a thread is due so long after the one before, or when that is done */
static atomic_int is_slow, is_counting, is_over;
static atomic_ulong programs, unsettled;

/* ---- The chip, in memory ---- */

struct page { _Atomic int is_programmed; uint8_t stamp[STAMP], main[PAGE]; };
static struct page *pages;

/* What a design without readers knows of the chip: by the stamp of each program, where a sector is; and how many threads read a block. */
struct place { uint64_t number; uint32_t page; };
static struct place *places;
static uint32_t *pins;
static pthread_mutex_t tables = PTHREAD_MUTEX_INITIALIZER;
static pthread_cond_t unpinned = PTHREAD_COND_INITIALIZER;

static void note_place(const uint8_t *stamp, uint32_t page)
{
    uint64_t number = 0;
    uint32_t sector, count = stamp[12] | (uint32_t)stamp[13] << 8 | (uint32_t)stamp[14] << 16;
    memcpy(&number, stamp + 1, 7);
    memcpy(&sector, stamp + 8, 4);
    pthread_mutex_lock(&tables);
    for (uint32_t s = sector; s < sector + count; s++)
        if (number >= places[s].number)
            places[s] = (struct place){number, page};
    pthread_mutex_unlock(&tables);
}

static int chip_read(void *chip, uint32_t block, uint32_t page, void *main, void *stamp)
{
    const struct page *p = &pages[block * PAGES + page];
    (void)chip;
    luns_sleep(luns_read(&luns, block, 0));
    if (!p->is_programmed)
        return 1;
    memcpy(stamp, p->stamp, STAMP);
    if (main)
        memcpy(main, p->main, PAGE);
    return 0;
}

static int chip_program(void *chip, uint32_t block, uint32_t page, const void *main, const void *stamp)
{
    struct page *p = &pages[block * PAGES + page];
    (void)chip;
    luns_sleep(luns_program(&luns, block, 0));
    memcpy(p->main, main, PAGE);
    memcpy(p->stamp, stamp, STAMP);
    p->is_programmed = 1;
    programs++;
    note_place(stamp, block * PAGES + page);
    return 0;
}

static int chip_erase(void *chip, uint32_t block)
{
    (void)chip;
    pthread_mutex_lock(&tables);
    while (pins[block] > 0)
        pthread_cond_wait(&unpinned, &tables);
    pthread_mutex_unlock(&tables);
    luns_sleep(luns_erase(&luns, block, 0));
    for (uint32_t i = 0; i < PAGES; i++)
        pages[block * PAGES + i].is_programmed = 0;
    return 0;
}

/* ---- Syncs that take their time ---- */

int __real_fdatasync(int fd);
int __wrap_fdatasync(int fd);

int __wrap_fdatasync(int fd)
{
    if (is_slow)
        luns_sleep(luns_now() + sync_time);
    return __real_fdatasync(fd);
}

/* ---- The designs ---- */

static pthread_mutex_t calls = PTHREAD_MUTEX_INITIALIZER;
static pthread_rwlock_t shared;
static struct mintlintel_reader readers[MOST_READERS];

struct design {
    const char *name;
    uint32_t (*read)(int reader, uint32_t sector, void *out);
    uint32_t (*write)(uint32_t sector, const void *page);
    uint32_t (*flush)(void);
};

/* One lock round each call. */
static uint32_t lock_read(int reader, uint32_t sector, void *out)
{
    (void)reader;
    pthread_mutex_lock(&calls);
    uint32_t code = mintlintel_durable_read(device, sector, out, PAGE);
    pthread_mutex_unlock(&calls);
    return code;
}

static uint32_t lock_write(uint32_t sector, const void *page)
{
    pthread_mutex_lock(&calls);
    uint32_t code = mintlintel_durable_write(device, sector, page, PAGE);
    pthread_mutex_unlock(&calls);
    return code;
}

static uint32_t lock_flush(void)
{
    pthread_mutex_lock(&calls);
    uint32_t code = mintlintel_durable_flush(device);
    pthread_mutex_unlock(&calls);
    return code;
}

/* A page of the caller's own table. */
static uint32_t read_place(uint32_t page, void *out)
{
    uint8_t stamp[STAMP];
    CHECK(chip_read(NULL, page / PAGES, page % PAGES, out, stamp) == 0 && mintlintel_stamp_fits(stamp, out, PAGE));
    return MINTLINTEL_WRITTEN;
}

/* A lock that reads share, by the caller's own table. Who writes comes first, or no write would ever begin. */
static uint32_t shared_read(int reader, uint32_t sector, void *out)
{
    (void)reader;
    pthread_rwlock_rdlock(&shared);
    uint32_t code = read_place(places[sector].page, out);
    pthread_rwlock_unlock(&shared);
    return code;
}

static uint32_t shared_write(uint32_t sector, const void *page)
{
    pthread_rwlock_wrlock(&shared);
    uint32_t code = mintlintel_durable_write(device, sector, page, PAGE);
    pthread_rwlock_unlock(&shared);
    return code;
}

/* A lock round the caller's own table alone, which no command is waited for under, and counts of those who read a block. */
static uint32_t table_read(int reader, uint32_t sector, void *out)
{
    (void)reader;
    pthread_mutex_lock(&tables);
    uint32_t page = places[sector].page;
    pins[page / PAGES]++;
    pthread_mutex_unlock(&tables);
    uint32_t code = read_place(page, out);
    pthread_mutex_lock(&tables);
    if (--pins[page / PAGES] == 0)
        pthread_cond_signal(&unpinned);
    pthread_mutex_unlock(&tables);
    return code;
}

static uint32_t alone_write(uint32_t sector, const void *page) { return mintlintel_durable_write(device, sector, page, PAGE); }
static uint32_t alone_flush(void) { return mintlintel_durable_flush(device); }

/* Readers. */
static uint32_t reader_read(int reader, uint32_t sector, void *out)
{
    uint32_t code;
    while ((code = mintlintel_reader_read(&readers[reader], sector, out, PAGE)) == MINTLINTEL_UNSETTLED)
        unsettled++;
    return code;
}

/* No layer: each sector has its place in a file. A read beside a write may be torn, as of any file: then it is read again. */
static uint32_t file_read(int reader, uint32_t sector, void *out)
{
    const uint64_t *words = out;
    (void)reader;
    do
        CHECK(pread(file, out, PAGE, (off_t)sector * PAGE) == PAGE);
    while (words[1] != words[PAGE / 8 - 1]);
    return MINTLINTEL_WRITTEN;
}

static uint32_t file_write(uint32_t sector, const void *page)
{
    programs++;
    return pwrite(file, page, PAGE, (off_t)sector * PAGE) == PAGE ? MINTLINTEL_WRITTEN : MINTLINTEL_FILE_FAILED;
}

static uint32_t file_flush(void) { return fdatasync(file) == 0 ? MINTLINTEL_DONE : MINTLINTEL_FILE_FAILED; }

static const struct design designs[] = {
    {"lock", lock_read, lock_write, lock_flush}, {"rwlock", shared_read, shared_write, NULL}, {"table", table_read, alone_write, NULL},
    {"readers", reader_read, alone_write, alone_flush}, {"file", file_read, file_write, file_flush},
};
static const struct design *design;

/* ---- The threads ---- */

static _Atomic uint64_t *begun, *acknowledged;

static void fill(uint8_t *page, uint64_t sector, uint64_t version)
{
    for (int i = 0; i < PAGE; i += 16) {
        memcpy(page + i, &sector, 8);
        memcpy(page + i + 8, &version, 8);
    }
}

static uint32_t drawn(uint64_t *state)
{
    *state ^= *state << 13;
    *state ^= *state >> 7;
    *state ^= *state << 17;
    return (uint32_t)(*state >> 32);
}

static void write_one(uint32_t sector)
{
    uint8_t page[PAGE];
    uint64_t version = begun[sector] + 1;
    fill(page, sector, version);
    begun[sector] = version;
    CHECK(design->write(sector, page) <= MINTLINTEL_WRITTEN);
    acknowledged[sector] = version;
}

/* A write begins PACE microseconds after the one before, or when that is done. */
static void *write_on(void *count)
{
    uint64_t state = 88172645463325252u, *writes = count, next = luns_now();
    for (uint32_t i = 1; !is_over; i++) {
        write_one(drawn(&state) % sectors);
        *writes += (uint64_t)is_counting;
        if (design->flush && sync_time && i % WRITES_OF_A_FLUSH == 0)
            CHECK(design->flush() == MINTLINTEL_DONE);
        next = next + PACE * 1000 > luns_now() ? next + PACE * 1000 : luns_now();
        luns_sleep(next);
    }
    return NULL;
}

/* Times by a sixteenth of a power of two. */
enum { TIMES = 64 * 16 };
struct thread { int number; uint64_t reads, processor, times[TIMES], *seen; };

static int time_index(uint64_t time)
{
    int power = 63 - __builtin_clzll(time | 16);
    return (power - 3) * 16 + (int)(time >> (power - 4) & 15);
}

static uint64_t time_of(int index) { return (16u + index % 16ull) << (index / 16 - 1); }

static uint64_t processor_time(void)
{
    struct timespec time;
    clock_gettime(CLOCK_THREAD_CPUTIME_ID, &time);
    return (uint64_t)time.tv_sec * 1000000000 + (uint64_t)time.tv_nsec;
}

static void read_one(struct thread *t, uint32_t sector, uint64_t from)
{
    uint64_t page[PAGE / 8], least = acknowledged[sector];
    CHECK(design->read(t->number, sector, page) == MINTLINTEL_WRITTEN);
    uint64_t took = luns_now() - from;
    uint8_t whole[PAGE];
    fill(whole, sector, page[1]);
    CHECK(memcmp(page, whole, PAGE) == 0);
    CHECK(page[1] >= least && page[1] >= t->seen[sector] && page[1] <= begun[sector]);
    t->seen[sector] = page[1];
    t->reads += (uint64_t)is_counting;
    t->times[time_index(took)] += (uint64_t)is_counting;
}

static void *read_on(void *argument)
{
    struct thread *t = argument;
    uint64_t state = 362436069 + 7919 * (uint64_t)t->number, from = 0, due = luns_now();
    for (int was_counting = 0; !is_over; was_counting = is_counting) {
        if (!was_counting)
            from = processor_time();
        due = read_pace ? due + read_pace : luns_now();
        luns_sleep(due);
        read_one(t, drawn(&state) % sectors, due);
    }
    t->processor = processor_time() - from;
    return NULL;
}

/* ---- The runs ---- */

static void open_flash(const char *flash)
{
    struct part part = {atoll(getenv("READ")), atoll(getenv("PROGRAM")), 0, atoll(getenv("ERASE")), 0, 0};
    struct mintlintel_nand nand = {NULL, chip_read, chip_program, NULL, chip_erase, NULL, NULL, NULL};
    uint32_t count = (uint32_t)atoi(flash);
    pages = calloc((size_t)blocks * PAGES, sizeof *pages);
    luns_begin(&luns, &part, count, blocks);
    CHECK(pages && mintlintel_durable_open(device, &nand, count, blocks, PAGES, PAGE, sectors) == MINTLINTEL_DONE);
}

static void open_folder(const char *folder)
{
    char path[4096];
    sync_time = (uint64_t)atoll(getenv("SYNC"));
    read_pace = (uint64_t)atoll(getenv("DUE"));
    snprintf(path, sizeof path, "%s/%s.img", folder, design->name);
    unlink(path);
    if (design->read == file_read) {
        file = open(path, O_RDWR | O_CREAT | O_EXCL, 0666);
        CHECK(file >= 0);
        return;
    }
    device = &image.device;
    CHECK(mintlintel_image_open(&image, path, MINTLINTEL_FLUSH, 1, blocks, PAGES, PAGE, sectors) == MINTLINTEL_DONE);
}

/* Writes each sector, and then as many at random, without any time of the part. */
static void age(void)
{
    uint64_t state = 42;
    for (uint32_t i = 0; i < 2 * sectors; i++)
        write_one(i < sectors ? i : drawn(&state) % sectors);
    luns_time(&luns);
    is_slow = 1;
}

static void print(const struct thread *threads, int count, uint64_t writes, double seconds)
{
    static const double parts[] = {0.5, 0.99, 0.999};
    uint64_t reads = 0, processor = 0, times[TIMES] = {0}, sum = 0;
    for (int i = 0; i < count; i++) {
        reads += threads[i].reads;
        processor += threads[i].processor;
        for (int k = 0; k < TIMES; k++)
            times[k] += threads[i].times[k];
    }
    printf("%.1f", (double)reads / seconds);
    for (int i = 0, k = -1; i < 3; i++) {
        while (k < TIMES - 1 && (k < 0 || (double)sum < parts[i] * (double)reads))
            sum += times[++k];
        printf(" %llu", (unsigned long long)time_of(k));
    }
    printf(" %.0f %.1f %.2f %lu\n", (double)processor / (double)(reads + !reads), (double)writes / seconds,
           (double)programs / (double)(writes + !writes), (unsigned long)unsettled);
}

static void run(int count, double settle, double seconds)
{
    static struct thread threads[MOST_READERS];
    pthread_t ids[MOST_READERS + 1];
    uint64_t writes = 0;
    for (int i = 0; i < count; i++) {
        threads[i].number = i;
        threads[i].seen = calloc(sectors, sizeof *threads[i].seen);
        CHECK(threads[i].seen && (design->read != reader_read || mintlintel_reader_open(&readers[i], device) == MINTLINTEL_DONE));
        CHECK(pthread_create(&ids[i], NULL, read_on, &threads[i]) == 0);
    }
    CHECK(pthread_create(&ids[count], NULL, write_on, &writes) == 0);
    usleep((useconds_t)(settle * 1e6));
    programs = unsettled = 0;
    uint64_t from = luns_now();
    is_counting = 1;
    usleep((useconds_t)(seconds * 1e6));
    is_counting = 0;
    double counted = (double)(luns_now() - from) / 1e9;
    unsigned long done = programs;
    is_over = 1;
    for (int i = 0; i <= count; i++)
        CHECK(pthread_join(ids[i], NULL) == 0);
    programs = done;
    print(threads, count, writes, counted);
}

int main(int argc, char **argv)
{
    pthread_rwlockattr_t kind;
    CHECK(argc == 7);
    for (size_t i = 0; i < sizeof designs / sizeof *designs; i++)
        design = strcmp(designs[i].name, argv[2]) == 0 ? &designs[i] : design;
    int count = atoi(argv[3]);
    CHECK(design && count > 0 && count <= MOST_READERS);
    pthread_rwlockattr_init(&kind);
    pthread_rwlockattr_setkind_np(&kind, PTHREAD_RWLOCK_PREFER_WRITER_NONRECURSIVE_NP);
    pthread_rwlock_init(&shared, &kind);
    blocks = (uint32_t)atoi(argv[4]);
    sectors = blocks * PAGES * USE / 100;
    places = calloc(sectors, sizeof *places);
    pins = calloc(blocks, sizeof *pins);
    begun = calloc(sectors, sizeof *begun);
    acknowledged = calloc(sectors, sizeof *acknowledged);
    CHECK(places && pins && begun && acknowledged);
    if (atoi(argv[1]) > 0)
        open_flash(argv[1]);
    else
        open_folder(argv[1]);
    age();
    run(count, atof(argv[5]), atof(argv[6]));
    return 0;
}
