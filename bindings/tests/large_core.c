/* The core of large devices: its memory, that it finds the sectors of a block, where a hint stands for several, without a search of them all, and the
 * largest devices that are allowed. Each part runs in a process of its own, and three of them at a time. */
#include "mintlintel_durable.h"
#include "testing.h"
#include <malloc.h>
#include <sys/resource.h>
#include <sys/wait.h>
#include <time.h>
#include <unistd.h>

enum { WRITES = 1000000, MOST_SECONDS = 100, PROGRAM = 1, ERASE = 3, AT_ONCE = 3, NEEDED_MIB = 1700, KEPT_BY_MALLOC = 1 << 19 };
enum { MOST_LUNS = 8, MOST_BLOCKS = 1 << 20, MOST_PAGES = 16384, MOST_PAGE_BYTES = 65536, MOST_SECTORS = 1 << 28 };

struct device { uint32_t blocks, pages, sectors; };

static struct mintlintel_core core;

static long resident(void)
{
    long all, pages;
    FILE *file = fopen("/proc/self/statm", "r");
    CHECK(file && fscanf(file, "%ld %ld", &all, &pages) == 2);
    fclose(file);
    return pages * sysconf(_SC_PAGESIZE);
}

/* The most that was resident so far. */
static long peak(void)
{
    struct rusage usage;
    CHECK(getrusage(RUSAGE_SELF, &usage) == 0);
    return 1024 * usage.ru_maxrss;
}

/* The memory is within the bytes of sectors and those of blocks, and what malloc keeps of small parts that were freed. */
static void check_memory(const char *what, const struct device *device, long taken, double of_a_sector, double of_a_block)
{
    printf("large_core: %u blocks of %u pages, %u sectors: %s %.2f bytes a sector, with those of blocks\n", device->blocks, device->pages,
           device->sectors, what, (double)taken / device->sectors);
    fflush(stdout);
    CHECK((double)taken < of_a_sector * device->sectors + of_a_block * device->blocks + KEPT_BY_MALLOC);
}

/* ---- A device in use ---- */

static void write_one(uint32_t sector)
{
    struct mintlintel_command command;
    do {
        CHECK(mintlintel_core_next(&core, sector, 1, &command) == MINTLINTEL_DONE);
        CHECK(mintlintel_core_done(&core, sector, 1, &command) == MINTLINTEL_DONE);
    } while (command.kind != PROGRAM);
}

static void note_none(uint64_t count)
{
    for (uint64_t page = 0; page < count; page++)
        CHECK(mintlintel_core_note(&core, 0, 0, 0, 0) == MINTLINTEL_DONE);
}

/* Makes calls on a small device, after which the pages of the program are resident. */
static void warm_up(void)
{
    uint64_t draws = 1;
    CHECK(mintlintel_core_open(&core, 8, 4, 20) == MINTLINTEL_DONE);
    note_none(32);
    CHECK(mintlintel_core_finish(&core) == MINTLINTEL_DONE);
    for (int i = 0; i < 1000; i++)
        write_one(drawn(&draws) % 20);
    mintlintel_core_close(&core);
}

static void use(uint32_t blocks, uint32_t pages, uint32_t percent, double of_a_sector)
{
    uint32_t all = blocks * pages;
    struct device device = {blocks, pages, all / 100 * percent};
    uint64_t draws = 1;
    long before = resident();
    clock_t start = clock();
    CHECK(mintlintel_core_open(&core, blocks, pages, device.sectors) == MINTLINTEL_DONE);
    note_none(all);
    CHECK(mintlintel_core_finish(&core) == MINTLINTEL_DONE);
    for (uint32_t sector = 0; sector < device.sectors; sector++)
        write_one(sector);
    for (uint32_t i = 0; i < all - device.sectors + WRITES; i++) {
        write_one(drawn(&draws) % device.sectors);
        CHECK(i % 1024 != 0 || (clock() - start) / CLOCKS_PER_SEC < MOST_SECONDS);
    }
    check_memory("in use", &device, resident() - before, of_a_sector, 24);
    mintlintel_core_close(&core);
}

/* ---- A mount of a device whose sectors are all written ---- */

/* The sectors are in the last blocks, where a place takes the most, in order; with twins half of the pages before have the same versions. */
static void mount_full(uint32_t blocks, uint32_t pages, uint32_t sectors, uint64_t first_number, int has_twins, double of_a_sector)
{
    struct device device = {blocks, pages, sectors};
    uint64_t all = (uint64_t)blocks * pages, written = (uint64_t)sectors << has_twins;
    long before = resident();
    CHECK(mintlintel_core_open(&core, blocks, pages, sectors) == MINTLINTEL_DONE);
    note_none(all - written);
    for (uint64_t page = 0; page < written; page++) {
        uint32_t sector = (uint32_t)(page % sectors);
        CHECK(mintlintel_core_note(&core, 1, sector, 1, first_number + sector) == MINTLINTEL_DONE);
    }
    CHECK(mintlintel_core_finish(&core) == MINTLINTEL_DONE);
    check_memory(has_twins ? "a mount with twins" : "a mount", &device, peak() - before, of_a_sector, 20);
    mintlintel_core_close(&core);
}

/* ---- The largest devices ---- */

/* The versions on a flash, in the order of their pages. */
enum { MOST_VERSIONS = 16 };
static struct version { uint64_t page, number; uint32_t sector, count; } versions[MOST_VERSIONS + 1];
static int held;

static void hold(struct version version)
{
    int place = held++;
    CHECK(held <= MOST_VERSIONS);
    for (; place > 0 && versions[place - 1].page > version.page; place--)
        versions[place] = versions[place - 1];
    versions[place] = version;
}

static int has_sector(const struct version *version, uint32_t sector)
{
    return sector >= version->sector && sector - version->sector < version->count;
}

/* A sector is at a page with the newest of its versions. */
static void check_sector(const struct device *device, uint32_t sector)
{
    struct mintlintel_place at;
    const struct version *newest = NULL;
    int is_found = 0;
    for (const struct version *version = versions; version < versions + held; version++)
        if (has_sector(version, sector) && (!newest || version->number >= newest->number))
            newest = version;
    CHECK(mintlintel_core_page(&core, sector, &at) == (newest ? MINTLINTEL_WRITTEN : MINTLINTEL_EMPTY));
    for (const struct version *version = versions; newest && version < versions + held; version++)
        is_found |= version->number == newest->number && version->page == (uint64_t)at.block * device->pages + at.page;
    CHECK(is_found == (newest != NULL));
}

/* Mounts what the flash has, up to the last page, and checks the sectors on both sides of each version's first and last one. */
static void mount_all(const struct device *device)
{
    uint64_t all = (uint64_t)device->blocks * device->pages;
    const struct version *next = versions;
    struct mintlintel_place at;
    CHECK(mintlintel_core_open(&core, device->blocks, device->pages, device->sectors) == MINTLINTEL_DONE);
    CHECK(mintlintel_core_note(&core, 1, device->sectors, 1, 1) == MINTLINTEL_OTHER_DEVICE);
    for (uint64_t page = 0; page < all; page++) {
        int has_version = next < versions + held && next->page == page;
        CHECK(page + 1 < all || mintlintel_core_finish(&core) == MINTLINTEL_OUT_OF_ORDER);
        CHECK(mintlintel_core_note(&core, (uint32_t)has_version, next->sector, next->count, next->number) == MINTLINTEL_DONE);
        next += has_version;
    }
    CHECK(mintlintel_core_note(&core, 0, 0, 0, 0) == MINTLINTEL_OUT_OF_ORDER);
    CHECK(mintlintel_core_finish(&core) == MINTLINTEL_DONE);
    for (const struct version *version = versions; version < versions + held; version++)
        for (uint32_t side = 0; side < 4; side++) {
            uint32_t sector = side < 2 ? version->sector - 1 + side : version->sector + version->count - 3 + side;
            if (sector < device->sectors)
                check_sector(device, sector);
        }
    CHECK(mintlintel_core_page(&core, device->sectors, &at) == MINTLINTEL_NO_SECTOR);
}

/* Performs the commands of a write. If it is cut, the program was done, and nobody was told. */
static void write_on_flash(const struct device *device, uint32_t sector, int is_cut)
{
    struct mintlintel_command command = {0, 0, 0, 0, 0, 0, 0};
    while (command.kind != PROGRAM) {
        CHECK(mintlintel_core_next(&core, sector, 1, &command) == MINTLINTEL_DONE);
        CHECK(command.kind == PROGRAM || command.kind == ERASE);
        if (command.kind == PROGRAM)
            hold((struct version){(uint64_t)command.block * device->pages + command.page, command.number, sector, 1});
        for (int place = held - 1; command.kind == ERASE && place >= 0; place--)
            if (versions[place].page / device->pages == command.block)
                memmove(versions + place, versions + place + 1, (size_t)(held-- - place) * sizeof *versions);
        CHECK((is_cut && command.kind == PROGRAM) || mintlintel_core_done(&core, sector, 1, &command) == MINTLINTEL_DONE);
    }
}

/* A device with versions on its first and last pages, two of which are twins, is mounted, written, cut and mounted again. */
static void use_largest(uint32_t blocks, uint32_t pages, uint32_t sectors)
{
    struct device device = {blocks, pages, sectors};
    uint64_t all = (uint64_t)blocks * pages;
    long before = resident();
    hold((struct version){0, 7, 0, 1});
    hold((struct version){1, 8, sectors - 1, 1});
    hold((struct version){all / 2, 9, sectors - 4096, 4096});
    hold((struct version){all - pages - 1, 10, sectors / 2, 1});
    hold((struct version){all - 2, 10, sectors / 2, 1});
    hold((struct version){all - 1, 6, 0, 1});
    mount_all(&device);
    for (uint32_t i = 0; i < 4; i++)
        write_on_flash(&device, i % 2 ? i : sectors - 1 - i, 0);
    for (uint32_t i = 0; i < 4; i++)
        check_sector(&device, i % 2 ? i : sectors - 1 - i);
    write_on_flash(&device, sectors - 2, 1);
    mintlintel_core_close(&core);
    mount_all(&device);
    check_memory("mounts, and a few writes,", &device, peak() - before, 4.25, 24);
    mintlintel_core_close(&core);
}

/* All limits at once: the mount begins, and ends only after 2^34 pages. `large_core all` ends it, in some minutes. */
static void begin_largest(void)
{
    long before = resident();
    CHECK(mintlintel_core_open(&core, MOST_BLOCKS, MOST_PAGES, MOST_SECTORS) == MINTLINTEL_DONE);
    CHECK(mintlintel_core_note(&core, 1, MOST_SECTORS - 1, 1, 1) == MINTLINTEL_DONE);
    note_none(10 * MOST_PAGES);
    CHECK(mintlintel_core_note(&core, 1, MOST_SECTORS - 1, 2, 1) == MINTLINTEL_OTHER_DEVICE);
    CHECK(mintlintel_core_finish(&core) == MINTLINTEL_OUT_OF_ORDER);
    check_memory("a mount that has begun", &(struct device){MOST_BLOCKS, MOST_PAGES, MOST_SECTORS}, peak() - before, 0.25, 16);
    mintlintel_core_close(&core);
}

static int is_off(void *chip, uint32_t block, uint32_t page, void *main, void *stamp)
{
    (void)chip, (void)block, (void)page, (void)main, (void)stamp;
    return 3;
}

/* One more than a limit is refused, by the number's own code. All limits together aren't: then there is no memory for the stamps, or the chip is asked. */
static void refuse_one_more(void)
{
    static const uint32_t most[5] = {MOST_LUNS, MOST_BLOCKS, MOST_PAGES, MOST_PAGE_BYTES, MOST_SECTORS}, more[5] = {1, MOST_LUNS, 1, 1, 1};
    struct mintlintel_nand nand = {.read = is_off};
    struct mintlintel_durable device = {{NULL, 0}, NULL};
    for (uint32_t i = 0; i < 6; i++) {
        uint32_t n[6];
        for (uint32_t k = 0; k < 5; k++)
            n[k] = most[k] + (k == i ? more[k] : 0);
        uint32_t code = mintlintel_durable_open(&device, &nand, n[0], n[1], n[2], n[3], n[4]);
        CHECK(i < 5 ? code == MINTLINTEL_BAD_LUNS + i : code == MINTLINTEL_NO_MEMORY || code == MINTLINTEL_POWER_GONE);
    }
    uint32_t blocks = MOST_SECTORS / MOST_PAGES + 1;
    CHECK(mintlintel_durable_open(&device, &nand, 1, blocks, MOST_PAGES, 1, MOST_SECTORS) == MINTLINTEL_TOO_FEW_BLOCKS);
    CHECK(mintlintel_core_open(&core, blocks, MOST_PAGES, MOST_SECTORS) == MINTLINTEL_TOO_FEW_BLOCKS);
    CHECK(mintlintel_core_open_over(&core, blocks, blocks + 1, MOST_PAGES, MOST_SECTORS) == MINTLINTEL_TOO_FEW_BLOCKS);
}

/* ---- The parts ---- */

enum { PARTS = 13 };

/* Those that take the longest are first. */
static void run(int part)
{
    switch (part) {
    case 0: use_largest(MOST_BLOCKS, MOST_SECTORS / MOST_BLOCKS + 1, MOST_SECTORS); break;
    case 1: use(MOST_BLOCKS, 16, 75, 8); break;
    case 2: use(65536, 256, 75, 8); break;
    case 3: use(65536, 256, 55, 8); break;
    case 4: use_largest(1024, MOST_PAGES, 1 << 23); break;
    case 5: mount_full(MOST_BLOCKS, 16, MOST_BLOCKS * 12, 0, 0, 9.4); break;
    case 6: mount_full(MOST_BLOCKS, 16, MOST_BLOCKS * 6, 1ull << 32, 1, 15.4); break;
    case 7: begin_largest(); break;
    default: use(16384, 256, 48u >> (part - 8), 8);
    }
}

/* Three of the parts take at most so much memory at once. */
static void need_memory(void)
{
    long available = 0;
    FILE *file = fopen("/proc/meminfo", "r");
    CHECK(file);
    for (char line[256]; available == 0 && fgets(line, sizeof line, file);)
        sscanf(line, "MemAvailable: %ld kB", &available);
    fclose(file);
    if (available / 1024 < NEEDED_MIB) {
        fprintf(stderr, "large_core: it needs %d MiB of memory, and %ld are available\n", NEEDED_MIB, available / 1024);
        exit(1);
    }
}

/* Waits for a part to end. */
static void end_one(void)
{
    int status;
    CHECK(wait(&status) > 0);
    if (WIFSIGNALED(status))
        fprintf(stderr, "large_core: a part was ended by signal %d, as where memory is short\n", WTERMSIG(status));
    CHECK(status == 0);
}

int main(int count, char **words)
{
    CHECK(mallopt(M_MMAP_THRESHOLD, 65536) == 1);
    if (count > 1 && strcmp(words[1], "all") == 0) {
        warm_up();
        use_largest(MOST_BLOCKS, MOST_PAGES, MOST_SECTORS);
        return 0;
    }
    refuse_one_more();
    need_memory();
    for (int part = 0; part < PARTS; part++) {
        if (part >= AT_ONCE)
            end_one();
        pid_t child = fork();
        CHECK(child >= 0);
        if (child == 0) {
            warm_up();
            run(part);
            return 0;
        }
    }
    for (int part = 0; part < AT_ONCE; part++)
        end_one();
    return 0;
}
