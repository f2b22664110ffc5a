/* power FOLDER [ROUNDS]: an image whose machine loses power at random. Of what was written since the last sync each 4096 bytes are on the disk, or not, or
 * each sector of 512 bytes is for itself, up to any of the writes to it. In mode `always` the image then has each acknowledged call, and in mode `flush`
 * a beginning of the history with all that was flushed. A process that is killed between two writes leaves a beginning with all that was acknowledged.
 * The writes and syncs of the library are wrapped, and every other image can't be mapped. Some machines tell no name of their run. */
#include "../src/flash.h"
#include "mintlintel_image.h"
#include "testing.h"
#include <errno.h>
#include <fcntl.h>
#include <sys/mman.h>
#include <sys/uio.h>
#include <unistd.h>

enum { LUNS = 1, BLOCKS = 5, PAGES = 40, PAGE_BYTES = 256, SECTORS = 120, BLOCK_BYTES = 4096 + 12288, HEAD_BYTES = 8192, SPARE_BYTES = 32,
       LENGTH_OF_ONE_SIDE = HEAD_BYTES + BLOCKS * BLOCK_BYTES, ENTRIES_AT = HEAD_BYTES + 2 * BLOCKS * BLOCK_BYTES, LENGTH = ENTRIES_AT + 5 * 4096 };
enum { SECTOR_BYTES = 512, PART_BYTES = 4096, MOST = 1 << 16, CALLS = 3000, MOST_TOGETHER = 8 };
enum { NOTHING, SOME, ALL };
/* Where the format's version stands, the state of the last session and its mode, and what the state is. */
enum { AT_VERSION = 8, AT_SESSION = 4096, AT_MODE = 4100, IN_USE = 1, CLOSED = 2, VERSION = 3 };

struct write { size_t at, count; uint8_t *bytes; };
struct update { uint32_t sector, value; };

static uint8_t disk[LENGTH];
static struct write pending[MOST];
static struct update history[(2 + MOST_TOGETHER) * CALLS];
static uint32_t begun, safe, answered; /* updates that were begun, those that have to be there, and those that were acknowledged */
static size_t writes;
static long left; /* writes and syncs up to the power cut */
static int is_off, is_write; /* the power is off; it went in a write */
static int is_nameless;      /* the machine tells no name of its run */
static int has_one_side;     /* a block is erased where it stands */
static int changes_mode;     /* an open may be in the other mode */
static enum mintlintel_image_mode used; /* that of the last open */
static uint64_t state = 88172645463325252u;
static char path[4096];
static long cuts, calls, kills, syncs;
static struct mintlintel_reader *watching; /* reads a sector before each sync in mode `always` */

ssize_t __real_pwrite64(int fd, const void *bytes, size_t count, off_t at);
ssize_t __wrap_pwrite64(int fd, const void *bytes, size_t count, off_t at);
ssize_t __wrap_pwritev64(int fd, const struct iovec *parts, int count, off_t at);
int __wrap_fdatasync(int fd);
int __wrap_fsync(int fd);
int __real_open64(const char *name, int flags, ...);
int __wrap_open64(const char *name, int flags, ...);
void *__real_mmap64(void *at, size_t bytes, int rights, int flags, int fd, off_t from);
void *__wrap_mmap64(void *at, size_t bytes, int rights, int flags, int fd, off_t from);

void *__wrap_mmap64(void *at, size_t bytes, int rights, int flags, int fd, off_t from)
{
    static unsigned maps;
    return maps++ % 2 ? MAP_FAILED : __real_mmap64(at, bytes, rights, flags, fd, from);
}

int __wrap_open64(const char *name, int flags, ...)
{
    if (is_nameless && strcmp(name, "/proc/sys/kernel/random/boot_id") == 0)
        return -1;
    return __real_open64(name, flags, 0666);
}

static int goes_off(void)
{
    is_off |= --left <= 0;
    return is_off;
}

/* A stamp is written to erased spare bytes, and no stamp stands behind it in its block. A block that was erased where it stands is erased on the disk. */
static void check_stamp(int fd, size_t count, off_t at)
{
    uint8_t spares[PAGES * SPARE_BYTES];
    size_t inside = (size_t)(at - HEAD_BYTES) % BLOCK_BYTES;
    if (at < HEAD_BYTES || at >= ENTRIES_AT || count != SPARE_BYTES || inside >= sizeof spares)
        return;
    for (size_t i = 0; i < writes; i++)
        CHECK(!has_one_side || used == MINTLINTEL_NEVER || pending[i].count != sizeof spares);
    CHECK(pread(fd, spares, sizeof spares - inside, at) == (ssize_t)(sizeof spares - inside));
    for (size_t i = 0; i < sizeof spares - inside; i++)
        CHECK(spares[i] == 0);
}

/* A write that the power goes in is one that is pending. */
ssize_t __wrap_pwrite64(int fd, const void *bytes, size_t count, off_t at)
{
    check_stamp(fd, count, at);
    if (!is_off) {
        CHECK(writes < MOST && (size_t)at + count <= LENGTH);
        pending[writes] = (struct write){(size_t)at, count, malloc(count)};
        CHECK(pending[writes].bytes);
        memcpy(pending[writes++].bytes, bytes, count);
    }
    if (goes_off()) {
        is_write = 1;
        errno = EIO;
        return -1;
    }
    return __real_pwrite64(fd, bytes, count, at);
}

/* Each part is a write. One that the power goes in is the last. */
ssize_t __wrap_pwritev64(int fd, const struct iovec *parts, int count, off_t at)
{
    ssize_t all = 0;
    for (int i = 0; i < count; i++) {
        ssize_t n = __wrap_pwrite64(fd, parts[i].iov_base, parts[i].iov_len, at + all);
        if (n < 0)
            return all > 0 ? all : n;
        all += n;
    }
    return all;
}

static void forget_writes(void)
{
    while (writes > 0)
        free(pending[--writes].bytes);
}

/* What a read returns in mode `always` is on the disk. */
static void watch(void)
{
    uint8_t page[PAGE_BYTES];
    if (watching)
        CHECK(mintlintel_reader_read(watching, 0, page, sizeof page) == MINTLINTEL_WRITTEN && memmem(disk, LENGTH, page, sizeof page));
}

int __wrap_fdatasync(int fd)
{
    (void)fd;
    syncs++;
    watch();
    if (goes_off()) {
        errno = EIO;
        return -1;
    }
    for (size_t i = 0; i < writes; i++)
        memcpy(disk + pending[i].at, pending[i].bytes, pending[i].count);
    forget_writes();
    return 0;
}

int __wrap_fsync(int fd)
{
    return __wrap_fdatasync(fd);
}

static void put_check(uint8_t *part, size_t count)
{
    uint32_t check = mintlintel_crc32c(0, part, count);
    for (int i = 0; i < 4; i++)
        part[count + (size_t)i] = (uint8_t)(check >> 8 * i);
}

/* What the disk has after the cut, in every other one nearly all, and another run of the machine. */
static void lose_power(void)
{
    static uint8_t is_frozen[LENGTH / SECTOR_BYTES], parts[LENGTH / PART_BYTES];
    uint32_t one_in = 2 + drawn(&state) % 8, has_most = drawn(&state) % 2;
    memset(is_frozen, 0, sizeof is_frozen);
    for (size_t part = 0; part < sizeof parts; part++)
        parts[part] = has_most && drawn(&state) % 8 ? ALL : drawn(&state) % 3;
    for (size_t i = 0; i < writes; i++)
        for (size_t at = pending[i].at, end = at + pending[i].count; at < end;) {
            size_t sector = at / SECTOR_BYTES, stop = (sector + 1) * SECTOR_BYTES < end ? (sector + 1) * SECTOR_BYTES : end;
            uint8_t part = parts[at / PART_BYTES];
            is_frozen[sector] |= part == NOTHING || (part == SOME && drawn(&state) % one_in == 0);
            if (!is_frozen[sector])
                memcpy(disk + at, pending[i].bytes + (at - pending[i].at), stop - at);
            at = stop;
        }
    forget_writes();
    if (disk[4096] != 0) {
        memset(disk + 4104, '0', 36);
        put_check(disk + 4096, 44);
    }
    int fd = open(path, O_RDWR);
    CHECK(fd >= 0 && __real_pwrite64(fd, disk, LENGTH, 0) == LENGTH);
    close(fd);
    cuts++;
}

static void fill(uint8_t *page, uint32_t value)
{
    for (int i = 0; i < PAGE_BYTES; i += 4)
        memcpy(page + i, &value, sizeof value);
}

/* Whether the sectors are those after so many updates. */
static int agree(const uint32_t *values, uint32_t updates)
{
    uint32_t after[SECTORS] = {0};
    for (uint32_t i = 0; i < updates; i++)
        after[history[i].sector] = history[i].value;
    return memcmp(after, values, sizeof after) == 0;
}

static int read_all(struct mintlintel_image *image, uint32_t *values)
{
    uint8_t page[PAGE_BYTES], wanted[PAGE_BYTES];
    for (uint32_t sector = 0; sector < SECTORS; sector++) {
        uint32_t code = mintlintel_durable_read(&image->device, sector, page, sizeof page);
        CHECK(code <= MINTLINTEL_WRITTEN);
        values[sector] = 0;
        if (code == MINTLINTEL_WRITTEN)
            memcpy(&values[sector], page, sizeof values[sector]);
        fill(wanted, values[sector]);
        CHECK(code == MINTLINTEL_EMPTY || memcmp(page, wanted, sizeof page) == 0);
    }
    return 1;
}

/* Opens the image, through power cuts, and finds the beginning of the history that it has. */
static void open_image(struct mintlintel_image *image, enum mintlintel_image_mode mode)
{
    uint32_t values[SECTORS], code;
    for (;;) {
        is_off = is_write = 0;
        left = 1 + drawn(&state) % (changes_mode && drawn(&state) % 2 ? 6 : 400);
        used = !changes_mode ? mode : drawn(&state) % 2 ? MINTLINTEL_FLUSH : MINTLINTEL_ALWAYS;
        code = mintlintel_image_open(image, path, used, LUNS, BLOCKS, PAGES, PAGE_BYTES, SECTORS);
        if (code == MINTLINTEL_DONE)
            break;
        CHECK(code == MINTLINTEL_FILE_FAILED && is_off);
        lose_power();
    }
    CHECK(disk[AT_SESSION] == IN_USE);
    read_all(image, values);
    uint32_t updates = begun;
    while (updates > safe && !agree(values, updates))
        updates--;
    CHECK(agree(values, updates));
    begun = safe = answered = updates;
}

static uint32_t read_back(struct mintlintel_image *image, const struct update *update)
{
    uint8_t page[PAGE_BYTES], wanted[PAGE_BYTES];
    uint32_t code = mintlintel_durable_read(&image->device, update->sector, page, sizeof page);
    fill(wanted, update->value);
    CHECK(code == MINTLINTEL_FILE_FAILED || (code == MINTLINTEL_WRITTEN && memcmp(page, wanted, sizeof page) == 0));
    return code;
}

/* Writes some sectors, whose pages may be written together. */
static uint32_t many_writes(struct mintlintel_image *image)
{
    uint8_t pages[MOST_TOGETHER][PAGE_BYTES] = {{0}};
    uint32_t count = 1 + drawn(&state) % MOST_TOGETHER, code = MINTLINTEL_DONE;
    mtl_image_keep(image, pages, NULL, MOST_TOGETHER);
    for (uint32_t i = 0; code <= MINTLINTEL_WRITTEN && i < count; i++) {
        history[begun++] = (struct update){drawn(&state) % SECTORS, 1 + drawn(&state)};
        fill(pages[i], history[begun - 1].value);
        code = mintlintel_durable_write(&image->device, history[begun - 1].sector, pages[i], sizeof pages[i]);
        if (code <= MINTLINTEL_WRITTEN && drawn(&state) % 8 == 0)
            code = read_back(image, &history[begun - 1]);
    }
    uint32_t done = mtl_image_commit(image, mtl_image_let_go(image));
    CHECK(code <= MINTLINTEL_WRITTEN || done == code);
    return done;
}

static uint32_t one_update(struct mintlintel_image *image, uint32_t value)
{
    uint8_t page[PAGE_BYTES];
    uint32_t sector = drawn(&state) % SECTORS;
    history[begun++] = (struct update){sector, value};
    fill(page, value);
    return value ? mintlintel_durable_write(&image->device, sector, page, sizeof page) : mintlintel_durable_trim(&image->device, sector, 1);
}

static uint32_t one_call(struct mintlintel_image *image)
{
    uint32_t kind = drawn(&state) % 64, code;
    calls++;
    if (kind > 61) {
        left = used != MINTLINTEL_NEVER && drawn(&state) % 2 && left > 4 ? 1 + drawn(&state) % 4 : left;
        code = mintlintel_durable_flush(&image->device);
        safe = code == MINTLINTEL_DONE ? begun : safe;
        return code;
    }
    code = kind < 12 ? many_writes(image) : one_update(image, kind < 52 ? 1 + drawn(&state) : 0);
    if (code <= MINTLINTEL_WRITTEN)
        answered = begun;
    if (code <= MINTLINTEL_WRITTEN && used == MINTLINTEL_ALWAYS)
        safe = begun;
    return code;
}

/* Leaves the image as a process that is killed: nothing of its file is written any more. */
static void leave(struct mintlintel_image *image)
{
    is_off = 1;
    mintlintel_image_close(image);
    is_off = 0;
    kills++;
}

/* Leaves the image: the next process finds every call, and they are on the disk from then on. */
static void leave_and_open(struct mintlintel_image *image, enum mintlintel_image_mode mode)
{
    uint32_t all = begun;
    long earlier = cuts;
    leave(image);
    open_image(image, mode);
    CHECK(cuts > earlier || begun == all);
}

/* What would have been a power cut is the end of the process: the file has all that was written before it. */
static void kill_and_open(struct mintlintel_image *image, enum mintlintel_image_mode mode)
{
    uint32_t there = answered;
    long earlier = cuts;
    if (is_write)
        free(pending[--writes].bytes);
    leave(image);
    open_image(image, mode);
    CHECK(cuts > earlier || begun >= there);
}

/* Closes the image, which may be cut too, and opens it. An image that was closed in order has every call. */
static void close_and_open(struct mintlintel_image *image, enum mintlintel_image_mode mode)
{
    left = drawn(&state) % 2 ? 1 + drawn(&state) % 6 : 1000;
    if (mintlintel_image_close(image) == MINTLINTEL_DONE && !is_off) {
        CHECK(disk[AT_SESSION] == CLOSED);
        safe = begun;
    }
    if (is_off || drawn(&state) % 2)
        lose_power();
    open_image(image, mode);
}

/* A new image is one of an earlier format: one of format 1 is shorter, and one of format 2 has another head alone. */
static void make_old(uint8_t version)
{
    struct mintlintel_image image = {0};
    CHECK(mintlintel_image_open(&image, path, MINTLINTEL_ALWAYS, LUNS, BLOCKS, PAGES, PAGE_BYTES, SECTORS) == MINTLINTEL_DONE);
    CHECK(mintlintel_image_close(&image) == MINTLINTEL_DONE && disk[AT_VERSION] == VERSION);
    disk[AT_VERSION] = version;
    put_check(disk, PART_BYTES - 4);
    int fd = open(path, O_RDWR);
    CHECK(fd >= 0 && __real_pwrite64(fd, disk, PART_BYTES, 0) == PART_BYTES && (version > 1 || ftruncate(fd, LENGTH_OF_ONE_SIDE) == 0));
    close(fd);
}

static void run(enum mintlintel_image_mode mode, uint8_t version)
{
    struct mintlintel_image image = {0};
    unlink(path);
    memset(disk, 0, sizeof disk);
    begun = safe = 0;
    left = 1000;
    is_off = is_write = 0;
    has_one_side = is_nameless || version == 1;
    if (version < VERSION)
        make_old(version);
    used = mode;
    CHECK(mintlintel_image_open(&image, path, mode, LUNS, BLOCKS, PAGES, PAGE_BYTES, SECTORS) == MINTLINTEL_DONE);
    CHECK(disk[AT_SESSION] == IN_USE && disk[AT_VERSION] == version);
    for (int i = 0; i < CALLS; i++) {
        uint32_t code = one_call(&image);
        CHECK(code <= MINTLINTEL_WRITTEN || (code == MINTLINTEL_FILE_FAILED && is_off));
        if (is_off && drawn(&state) % 2)
            kill_and_open(&image, mode);
        else if (is_off || drawn(&state) % 100 == 0)
            close_and_open(&image, mode);
        if (drawn(&state) % 100 == 0)
            leave_and_open(&image, mode);
    }
    left = 1000;
    mintlintel_image_close(&image);
    forget_writes();
}

/* An open in mode `never` says on the disk that the image is in use, and the next one has nothing more to say. One in another mode writes everything. */
static void never(void)
{
    struct mintlintel_image image = {0};
    is_nameless = has_one_side = 0;
    used = MINTLINTEL_NEVER;
    left = 1000;
    for (int turn = 0; turn < 2; turn++) {
        long earlier = syncs;
        CHECK(mintlintel_image_open(&image, path, MINTLINTEL_NEVER, LUNS, BLOCKS, PAGES, PAGE_BYTES, SECTORS) == MINTLINTEL_DONE);
        CHECK(disk[AT_SESSION] == IN_USE && disk[AT_MODE] == MINTLINTEL_NEVER);
        CHECK(syncs - earlier == !turn);
        for (int i = 0; i < 20; i++)
            one_call(&image);
        CHECK(mintlintel_image_close(&image) == MINTLINTEL_DONE && writes > 0);
    }
    CHECK(mintlintel_image_open(&image, path, MINTLINTEL_FLUSH, LUNS, BLOCKS, PAGES, PAGE_BYTES, SECTORS) == MINTLINTEL_DONE);
    CHECK(disk[AT_SESSION] == IN_USE && disk[AT_MODE] == MINTLINTEL_FLUSH && writes == 0);
    CHECK(mintlintel_image_close(&image) == MINTLINTEL_DONE);
}

static void reads_beside_syncs(void)
{
    struct mintlintel_image image = {0};
    struct mintlintel_reader reader = {0};
    long earlier;
    unlink(path);
    memset(disk, 0, sizeof disk);
    left = 100000;
    is_off = 0;
    CHECK(mintlintel_image_open(&image, path, MINTLINTEL_ALWAYS, LUNS, BLOCKS, PAGES, PAGE_BYTES, SECTORS) == MINTLINTEL_DONE);
    CHECK(mintlintel_reader_open(&reader, &image.device) == MINTLINTEL_DONE);
    earlier = syncs;
    for (uint32_t value = 1; value < 1000; value++) {
        uint8_t page[PAGE_BYTES];
        fill(page, 0x10000000u + value);
        CHECK(mintlintel_durable_write(&image.device, value % 3 ? 0 : value % SECTORS, page, sizeof page) <= MINTLINTEL_WRITTEN);
        watching = &reader;
    }
    CHECK(syncs - earlier >= 1000);
    watching = NULL;
    mintlintel_reader_close(&reader);
    CHECK(mintlintel_image_close(&image) == MINTLINTEL_DONE);
    forget_writes();
}

int main(int argc, char **argv)
{
    int rounds = argc > 2 ? atoi(argv[2]) : 32;
    snprintf(path, sizeof path, "%s/power.image", argc > 1 ? argv[1] : "out");
    reads_beside_syncs();
    for (int round = 0; round < rounds; round++) {
        is_nameless = round % 8 > 5;
        changes_mode = round / 8 % 2;
        run(round % 4 ? MINTLINTEL_FLUSH : MINTLINTEL_ALWAYS, (uint8_t)(round % 4 == 3 || round % 8 == 4 ? 1 + round / 8 % 2 : VERSION));
    }
    never();
    unlink(path);
    printf("power: %ld calls with %ld power cuts of the machine and %ld kills keep the promises of `always` and `flush`\n", calls, cuts, kills);
    return 0;
}
