/* An image file: what survives a close and a second open, what is refused, and copies. The file is made in the folder that is named. */
#include "../src/flash.h"
#include "mintlintel_image.h"
#include "testing.h"
#include <errno.h>
#include <fcntl.h>
#include <signal.h>
#include <sys/resource.h>
#include <sys/stat.h>
#include <unistd.h>

enum { LUNS = 1, BLOCKS = 8, PAGES = 4, PAGE_BYTES = 512, SECTORS = 20, HEAD_BYTES = 8192, SESSION_AT = 4096, BLOCK_BYTES = 4096 + 4096, SPARE_BYTES = 32,
       ENTRY_BYTES = 16, ENTRIES_AT = HEAD_BYTES + 2 * BLOCKS * BLOCK_BYTES, CHECKPOINTS_AT = ENTRIES_AT + 4096, LENGTH = CHECKPOINTS_AT + 4 * 4096 };
#define NUMBERS LUNS, BLOCKS, PAGES, PAGE_BYTES, SECTORS

static char path[4096], other[4096];
static uint8_t values[SECTORS];
static uint64_t state = 88172645463325252u;

static void fill(uint8_t *page, uint8_t value)
{
    memset(page, value, PAGE_BYTES);
}

static uint32_t write_value(struct mintlintel_image *image, uint32_t sector, uint8_t value)
{
    uint8_t page[PAGE_BYTES];
    fill(page, value);
    return mintlintel_durable_write(&image->device, sector, page, sizeof page);
}

/* Some calls, and the values of the sectors after them. */
static void use(struct mintlintel_image *image, int calls)
{
    for (int i = 0; i < calls; i++) {
        uint32_t sector = drawn(&state) % SECTORS;
        uint8_t value = drawn(&state) % 4 == 0 ? 0 : (uint8_t)(1 + drawn(&state) % 255);
        uint32_t code = value ? write_value(image, sector, value) : mintlintel_durable_trim(&image->device, sector, 1);
        CHECK(code == (values[sector] != 0));
        values[sector] = value;
    }
}

/* Each sector has its value, or the call says that its page can't be read, at most so many times. */
static int unreadable(struct mintlintel_image *image)
{
    uint8_t page[PAGE_BYTES], wanted[PAGE_BYTES];
    int found = 0;
    for (uint32_t sector = 0; sector < SECTORS; sector++) {
        uint32_t code = mintlintel_durable_read(&image->device, sector, page, sizeof page);
        found += code == MINTLINTEL_UNREADABLE;
        if (code == MINTLINTEL_UNREADABLE)
            continue;
        fill(wanted, values[sector]);
        CHECK(code == (values[sector] != 0));
        CHECK(!code || memcmp(page, wanted, sizeof page) == 0);
    }
    return found;
}

static void begin(struct mintlintel_image *image, enum mintlintel_image_mode mode)
{
    unlink(path);
    memset(values, 0, sizeof values);
    CHECK(mintlintel_image_open(image, path, mode, NUMBERS) == MINTLINTEL_DONE);
    use(image, 300);
}

static void change_byte(off_t at, uint8_t flipped)
{
    uint8_t byte;
    int fd = open(path, O_RDWR);
    CHECK(fd >= 0 && pread(fd, &byte, 1, at) == 1);
    byte ^= flipped;
    CHECK(pwrite(fd, &byte, 1, at) == 1);
    close(fd);
}

/* The session of an image becomes one that has lost power. */
static void lose_power(const char *name)
{
    uint8_t session[48];
    int fd = open(name, O_RDWR);
    CHECK(fd >= 0 && pread(fd, session, sizeof session, SESSION_AT) == sizeof session);
    session[0] = 1;
    memset(session + 8, '0', 36);
    uint32_t check = mintlintel_crc32c(0, session, 44);
    for (int i = 0; i < 4; i++)
        session[44 + i] = (uint8_t)(check >> 8 * i);
    CHECK(pwrite(fd, session, sizeof session, SESSION_AT) == sizeof session);
    close(fd);
}

/* Up to where the entries and checkpoints have room on the disk. */
static off_t room_behind_the_blocks(void)
{
    int fd = open(path, O_RDONLY);
    off_t end = lseek(fd, ENTRIES_AT, SEEK_HOLE);
    close(fd);
    return end;
}

/* Each mode, with calls over several sessions. An image that is closed takes no more room than one side of each block. */
static void sessions(void)
{
    static const enum mintlintel_image_mode modes[3] = {MINTLINTEL_ALWAYS, MINTLINTEL_FLUSH, MINTLINTEL_NEVER};
    struct mintlintel_image image = {0}, second = {0};
    struct mintlintel_image_head head;
    struct stat about;
    for (int mode = 0; mode < 3; mode++) {
        begin(&image, modes[mode]);
        CHECK(room_behind_the_blocks() == LENGTH);
        for (int session = 0; session < 5; session++) {
            CHECK(mintlintel_image_open(&image, path, modes[mode], NUMBERS) == MINTLINTEL_ALREADY_OPEN);
            CHECK(mintlintel_image_open(&second, path, modes[mode], NUMBERS) == MINTLINTEL_IN_USE);
            use(&image, 100);
            CHECK(mintlintel_durable_flush(&image.device) == MINTLINTEL_DONE);
            CHECK(mintlintel_image_close(&image) == MINTLINTEL_DONE);
            CHECK(mintlintel_image_close(&image) == MINTLINTEL_DONE);
            CHECK(mintlintel_image_open(&image, path, modes[(mode + session) % 3], 0, 0, 0, 0, 0) == MINTLINTEL_DONE);
            CHECK(unreadable(&image) == 0);
        }
        mintlintel_image_close(&image);
        CHECK(stat(path, &about) == 0 && about.st_size == LENGTH && about.st_blocks * 512 <= LENGTH - BLOCKS * BLOCK_BYTES);
    }
    CHECK(mintlintel_image_look(path, &head) == MINTLINTEL_DONE && head.version == 3 && head.numbers.sectors == SECTORS);
}

/* Files that are not this image. */
static void refusals(void)
{
    struct mintlintel_image image = {0};
    struct mintlintel_image_head head;
    char in_no_folder[sizeof other + 8];
    snprintf(in_no_folder, sizeof in_no_folder, "%s/image", other);
    begin(&image, MINTLINTEL_NEVER);
    mintlintel_image_close(&image);
    CHECK(mintlintel_image_open(&image, path, MINTLINTEL_NEVER, LUNS, BLOCKS, PAGES, PAGE_BYTES, SECTORS - 1) == MINTLINTEL_OTHER_NUMBERS);
    CHECK(mintlintel_image_open(&image, path, MINTLINTEL_NEVER, LUNS, BLOCKS, PAGES, PAGE_BYTES, BLOCKS * PAGES) == MINTLINTEL_TOO_FEW_BLOCKS);
    CHECK(mintlintel_image_open(&image, in_no_folder, MINTLINTEL_NEVER, NUMBERS) == MINTLINTEL_NO_FILE && errno == ENOENT);
    CHECK(mintlintel_image_open(&image, other, MINTLINTEL_NEVER, 0, 0, 0, 0, 0) == MINTLINTEL_NO_FILE);
    CHECK(mintlintel_image_look(other, &head) == MINTLINTEL_NO_FILE);
    change_byte(8, 4);
    CHECK(mintlintel_image_open(&image, path, MINTLINTEL_NEVER, NUMBERS) == MINTLINTEL_OTHER_VERSION);
    CHECK(mintlintel_image_look(path, &head) == MINTLINTEL_DONE && head.version == 7);
    change_byte(8, 4);
    CHECK(truncate(path, LENGTH - 1) == 0);
    CHECK(mintlintel_image_open(&image, path, MINTLINTEL_NEVER, NUMBERS) == MINTLINTEL_CUT_SHORT);
    CHECK(truncate(path, HEAD_BYTES) == 0);
    CHECK(mintlintel_image_open(&image, path, MINTLINTEL_NEVER, NUMBERS) == MINTLINTEL_CUT_SHORT);
    CHECK(truncate(path, HEAD_BYTES - 1) == 0);
    CHECK(mintlintel_image_open(&image, path, MINTLINTEL_NEVER, NUMBERS) == MINTLINTEL_NOT_AN_IMAGE);
    CHECK(truncate(path, 0) == 0);
    CHECK(mintlintel_image_open(&image, path, MINTLINTEL_NEVER, NUMBERS) == MINTLINTEL_NOT_AN_IMAGE);
}

static int is_over;

static void end_wait(int number)
{
    (void)number;
    is_over = 1;
}

/* What isn't a regular file is no image, which an open says at once: a pipe of which nobody has the other end, a device, a folder and a symbolic link that
 * leads nowhere. */
static void odd_files(const char *folder)
{
    static const char *const odd[] = {"/dev/zero", "/dev/tty", "/"};
    struct mintlintel_image image = {0};
    struct mintlintel_image_head head;
    struct sigaction action = {.sa_handler = end_wait};
    CHECK(sigaction(SIGALRM, &action, NULL) == 0); /* which ends a call that waits */
    unlink(path);
    CHECK(mkfifo(path, 0600) == 0);
    alarm(10);
    uint32_t looked = mintlintel_image_look(path, &head), opened = mintlintel_image_open(&image, path, MINTLINTEL_NEVER, NUMBERS);
    CHECK(alarm(0) > 0 && !is_over);
    CHECK(looked == MINTLINTEL_NOT_AN_IMAGE && opened == MINTLINTEL_NOT_AN_IMAGE);
    unlink(path);
    for (size_t i = 0; i < sizeof odd / sizeof *odd; i++) {
        uint32_t code = mintlintel_image_look(odd[i], &head);
        CHECK(code == MINTLINTEL_NOT_AN_IMAGE || (i == 1 && code == MINTLINTEL_NO_FILE));
    }
    CHECK(mintlintel_image_open(&image, folder, MINTLINTEL_NEVER, NUMBERS) != MINTLINTEL_DONE);
    CHECK(symlink("nowhere", path) == 0);
    CHECK(mintlintel_image_open(&image, path, MINTLINTEL_NEVER, NUMBERS) == MINTLINTEL_NO_FILE && errno == ENOENT);
    unlink(path);
}

/* A name may be as long as the system takes one, and a mode is one of three. */
static void names_and_modes(const char *folder)
{
    static const int modes[] = {0, 4, 8, -1};
    struct mintlintel_image image = {0};
    char name[251] = {0}, is_long[sizeof path + sizeof name];
    uint64_t losses;
    for (size_t length = 190; length < sizeof name; length += 10) {
        memset(name, 'n', length);
        snprintf(is_long, sizeof is_long, "%s/%s", folder, name);
        CHECK(mintlintel_image_open(&image, is_long, MINTLINTEL_NEVER, NUMBERS) == MINTLINTEL_DONE);
        CHECK(mintlintel_image_close(&image) == MINTLINTEL_DONE && unlink(is_long) == 0);
    }
    for (size_t i = 0; i < sizeof modes / sizeof *modes; i++) {
        enum mintlintel_image_mode mode = (enum mintlintel_image_mode)modes[i];
        CHECK(mintlintel_image_open(&image, path, mode, NUMBERS) == MINTLINTEL_BAD_MODE);
        CHECK(mintlintel_image_open_despite_losses(&image, path, mode, NUMBERS, &losses) == MINTLINTEL_BAD_MODE);
        CHECK(access(path, F_OK) != 0);
    }
}

/* An image beside which a block device has listed bad blocks is opened by a block device alone. A file of this name that is no such list is nobody's. */
static void bad_blocks_beside(void)
{
    static const struct { const char *text; int result, is_worn; } lists[] = {{"3\n1\n", 1, 0}, {"1\nworn\n", 1, 1}, {"worn\n", 1, 1}, {"", 0, 0},
                                                                             {"8\n", -1, 0}, {"-1\n", -1, 0}, {"1 x\n", -1, 0}, {"\x89MNTL", -1, 0}};
    struct mintlintel_image image = {0};
    char list[sizeof path + 4];
    uint8_t bad[BLOCKS];
    uint64_t losses;
    int is_worn;
    snprintf(list, sizeof list, "%s.bad", path);
    CHECK(mtl_bad_blocks(path, BLOCKS, bad, &is_worn) == 0);
    for (size_t i = 0; i < sizeof lists / sizeof *lists; i++) {
        FILE *file = fopen(list, "w");
        CHECK(file && fputs(lists[i].text, file) >= 0 && fclose(file) == 0);
        memset(bad, 0, sizeof bad);
        CHECK(mtl_bad_blocks(path, BLOCKS, bad, &is_worn) == lists[i].result && is_worn == lists[i].is_worn);
        CHECK(i > 0 || (bad[1] && bad[3] && !bad[0] && !bad[2]));
        int is_list = mtl_bad_blocks(path, 0, NULL, &is_worn) == 1;
        uint32_t wanted = is_list ? MINTLINTEL_BAD_BLOCKS_LISTED : MINTLINTEL_DONE;
        CHECK(is_list == (lists[i].result == 1 || i == 4)); /* without the number of blocks each number is one */
        CHECK(mintlintel_image_open(&image, path, MINTLINTEL_NEVER, NUMBERS) == wanted);
        mintlintel_image_close(&image);
        CHECK(mintlintel_image_open_despite_losses(&image, path, MINTLINTEL_NEVER, NUMBERS, &losses) == wanted);
        mintlintel_image_close(&image);
        CHECK(mtl_image_open(&image, path, MINTLINTEL_NEVER, &(struct mintlintel_durable_numbers){NUMBERS}, NULL) == MINTLINTEL_DONE);
        mintlintel_image_close(&image);
    }
    unlink(list);
}

/* The byte behind this one, of those that are flipped: all of the head, of the entries and of the checkpoints, of which the last one lists so many bytes. */
static off_t next_byte(off_t at, off_t listed)
{
    if (at == HEAD_BYTES - 1)
        return ENTRIES_AT;
    if (at == ENTRIES_AT + BLOCKS * ENTRY_BYTES - 1)
        return CHECKPOINTS_AT;
    return at >= CHECKPOINTS_AT && at % 4096 == ENTRY_BYTES + listed - 1 ? at + 4096 - ENTRY_BYTES - listed + 1 : at + 1;
}

static void read_image(uint8_t *bytes)
{
    int fd = open(path, O_RDONLY);
    CHECK(fd >= 0 && pread(fd, bytes, LENGTH, 0) == LENGTH);
    close(fd);
}

static void write_image(const char *name, const uint8_t *bytes)
{
    int fd = open(name, O_RDWR | O_CREAT | O_TRUNC, 0666);
    CHECK(fd >= 0 && pwrite(fd, bytes, LENGTH, 0) == LENGTH);
    close(fd);
}

/* Reads or writes the session, and what tells the sides. */
static void keep_sides(uint8_t *kept, int writes)
{
    static const off_t places[2] = {SESSION_AT, ENTRIES_AT};
    static const size_t counts[2] = {48, LENGTH - ENTRIES_AT};
    int fd = open(path, O_RDWR);
    for (int i = 0; i < 2; kept += counts[i++])
        CHECK((writes ? pwrite(fd, kept, counts[i], places[i]) : pread(fd, kept, counts[i], places[i])) == (ssize_t)counts[i]);
    close(fd);
}

/* Each byte of the head and of what tells the sides, flipped in one bit: the image is refused, or it is right, and a checkpoint has a copy. What tells the
 * sides is flipped after a power cut. The last checkpoint is a list. */
static void flipped_heads(void)
{
    static uint8_t kept[48 + LENGTH - ENTRIES_AT], all[LENGTH];
    struct mintlintel_image image = {0};
    int refused = 0;
    off_t listed = 0;
    begin(&image, MINTLINTEL_FLUSH);
    CHECK(mintlintel_durable_flush(&image.device) == MINTLINTEL_DONE);
    read_image(all);
    mintlintel_image_close(&image);
    write_image(path, all);
    keep_sides(kept, 0);
    for (int place = 0; place < 4; place++)
        listed = 12 * kept[48 + 4096 + place * 4096 + 8] > listed ? 12 * kept[48 + 4096 + place * 4096 + 8] : listed;
    CHECK(listed > 0);
    for (off_t at = 0; at < LENGTH; at = next_byte(at, listed)) {
        uint8_t flip = (uint8_t)(1 << drawn(&state) % 8);
        if (at >= ENTRIES_AT)
            lose_power(path);
        change_byte(at, flip);
        uint32_t code = mintlintel_image_open(&image, path, MINTLINTEL_FLUSH, NUMBERS);
        refused += code != MINTLINTEL_DONE;
        CHECK(code == MINTLINTEL_DONE || code == MINTLINTEL_NOT_AN_IMAGE || code == MINTLINTEL_OTHER_VERSION);
        CHECK(code != MINTLINTEL_DONE || unreadable(&image) == 0);
        mintlintel_image_close(&image);
        if (at < SESSION_AT || (at >= SESSION_AT + 48 && at < ENTRIES_AT))
            change_byte(at, flip);
        keep_sides(kept, 1);
    }
    CHECK(refused == SESSION_AT + BLOCKS * ENTRY_BYTES);
}

/* Bytes of blocks, flipped: a sector has its value, or its page can't be read. A flipped stamp may give the value before, which only the chip can tell. */
static void flipped_pages(void)
{
    struct mintlintel_image image = {0};
    for (int round = 0; round < 200; round++) {
        off_t block = drawn(&state) % BLOCKS, page = drawn(&state) % PAGES, byte = drawn(&state) % PAGE_BYTES;
        begin(&image, MINTLINTEL_NEVER);
        CHECK(unreadable(&image) == 0);
        change_byte(HEAD_BYTES + block * BLOCK_BYTES + 4096 + page * PAGE_BYTES + byte, 1);
        CHECK(unreadable(&image) <= 1);
        mintlintel_image_close(&image);
    }
}

static void swap_bytes(off_t first, off_t second, size_t count)
{
    uint8_t one[BLOCK_BYTES], two[BLOCK_BYTES];
    int fd = open(path, O_RDWR);
    CHECK(fd >= 0 && pread(fd, one, count, first) == (ssize_t)count && pread(fd, two, count, second) == (ssize_t)count);
    CHECK(pwrite(fd, two, count, first) == (ssize_t)count && pwrite(fd, one, count, second) == (ssize_t)count);
    close(fd);
}

/* Blocks that have changed places hold what they held. If two pages change places without their stamps, or the stamps do, at most their two sectors can't be
 * read; and where the stamps do, the image may be refused. */
static void swapped(void)
{
    struct mintlintel_image image = {0};
    for (int round = 0; round < 600; round++) {
        off_t first = drawn(&state) % BLOCKS, second = (first + 1 + drawn(&state) % (BLOCKS - 1)) % BLOCKS, page = drawn(&state) % PAGES;
        off_t one = HEAD_BYTES + first * BLOCK_BYTES, two = HEAD_BYTES + second * BLOCK_BYTES;
        begin(&image, MINTLINTEL_NEVER);
        mintlintel_image_close(&image);
        if (round % 3 == 0)
            swap_bytes(one, two, BLOCK_BYTES);
        else if (round % 3 == 1)
            swap_bytes(one + page * SPARE_BYTES, two + drawn(&state) % PAGES * SPARE_BYTES, SPARE_BYTES);
        else
            swap_bytes(one + 4096 + page * PAGE_BYTES, two + 4096 + drawn(&state) % PAGES * PAGE_BYTES, PAGE_BYTES);
        uint32_t code = mintlintel_image_open(&image, path, MINTLINTEL_NEVER, NUMBERS);
        CHECK(code == MINTLINTEL_DONE || round % 3 == 1);
        CHECK(code != MINTLINTEL_DONE || unreadable(&image) <= (round % 3 ? 2 : 0));
        mintlintel_image_close(&image);
    }
}

/* A copy has what the image had, after a power cut too, and goes its own way. */
static void copies(void)
{
    struct mintlintel_image image = {0}, copy = {0};
    struct stat about;
    uint8_t then[SECTORS];
    begin(&image, MINTLINTEL_FLUSH);
    memcpy(then, values, sizeof then);
    CHECK(mintlintel_image_copy(&image, other) == MINTLINTEL_DONE);
    CHECK(mintlintel_image_copy(&image, other) == MINTLINTEL_NO_FILE && errno == EEXIST);
    use(&image, 300);
    CHECK(unreadable(&image) == 0);
    lose_power(other);
    CHECK(mintlintel_image_open(&copy, other, MINTLINTEL_FLUSH, NUMBERS) == MINTLINTEL_DONE);
    memcpy(values, then, sizeof values);
    CHECK(unreadable(&copy) == 0);
    CHECK(stat(other, &about) == 0 && about.st_size == LENGTH);
    mintlintel_image_close(&copy);
    mintlintel_image_close(&image);
    CHECK(mintlintel_image_copy(&image, other) == MINTLINTEL_CLOSED);
    unlink(other);
    for (off_t length = 0; length <= LENGTH - 4096; length += 4096) {
        begin(&image, MINTLINTEL_NEVER);
        CHECK(truncate(path, length) == 0);
        CHECK(mintlintel_image_copy(&image, other) == MINTLINTEL_FILE_FAILED && errno == EIO && access(other, F_OK) != 0);
        mintlintel_image_close(&image);
    }
}

/* Few sectors on few blocks, so that a block is often collected twice with no other collection between. */
static void collections(void)
{
    struct mintlintel_image image = {0};
    uint8_t page[PAGE_BYTES] = {0}, held[3] = {0};
    CHECK(mintlintel_image_open(&image, other, MINTLINTEL_NEVER, 1, 3, 4, PAGE_BYTES, 3) == MINTLINTEL_DONE);
    for (int round = 0; round < 20000; round++) {
        uint32_t sector = drawn(&state) % 3;
        page[0] = held[sector] = (uint8_t)(1 + round % 255);
        CHECK(mintlintel_durable_write(&image.device, sector, page, sizeof page) <= MINTLINTEL_WRITTEN);
        for (sector = 0; sector < 3; sector++)
            CHECK(mintlintel_durable_read(&image.device, sector, page, sizeof page) == (held[sector] != 0) && (!held[sector] || page[0] == held[sector]));
    }
    mintlintel_image_close(&image);
    unlink(other);
}

/* Reads sectors by a reader: each is as it was or as it is, and it is as it is once what waited is done. */
static void check_run(struct mintlintel_reader *reader, const uint8_t *was, int is_done)
{
    uint8_t pages[SECTORS][PAGE_BYTES], old[PAGE_BYTES], new[PAGE_BYTES];
    uint32_t sector = drawn(&state) % SECTORS, count = 1 + drawn(&state) % (SECTORS - sector);
    CHECK(mtl_reader_read_run(reader, sector, count, pages) == count);
    for (uint32_t i = 0; i < count; i++) {
        fill(old, was[sector + i]);
        fill(new, values[sector + i]);
        CHECK(memcmp(pages[i], new, sizeof new) == 0 || (!is_done && memcmp(pages[i], old, sizeof old) == 0));
    }
}

/* Some sectors are written together, and read by a reader before they are done and behind that. */
static void runs(enum mintlintel_image_mode mode)
{
    struct mintlintel_image image = {0};
    struct mintlintel_reader reader = {0};
    uint8_t pages[4][PAGE_BYTES] = {{0}}, was[SECTORS];
    begin(&image, mode);
    CHECK(mintlintel_reader_open(&reader, &image.device) == MINTLINTEL_DONE);
    for (int round = 0; round < 20000; round++) {
        uint32_t first = drawn(&state) % (SECTORS - 3);
        uint32_t checks[4];
        memcpy(was, values, sizeof was);
        for (int i = 0; i < 4; i++) {
            values[first + i] = (uint8_t)(1 + drawn(&state) % 255);
            fill(pages[i], values[first + i]);
            checks[i] = mintlintel_crc32c(0, pages[i], PAGE_BYTES);
        }
        mtl_image_keep(&image, pages, round % 2 ? checks : NULL, 4);
        for (uint32_t i = 0; i < 4; i++)
            CHECK(mintlintel_durable_write(&image.device, first + i, pages[i], PAGE_BYTES) <= MINTLINTEL_WRITTEN);
        check_run(&reader, was, 0);
        CHECK(mtl_image_commit(&image, mtl_image_let_go(&image)) == MINTLINTEL_DONE);
        check_run(&reader, was, 1);
    }
    CHECK(unreadable(&image) == 0);
    mintlintel_image_close(&image);
    mintlintel_reader_close(&reader);
}

/* How many blocks the last checkpoint of an image of so many blocks of 2 pages of 512 bytes lists. */
static uint32_t listed_of(const char *name, uint32_t blocks)
{
    uint8_t part[16];
    uint64_t last = 0, number;
    uint32_t count = 0;
    int fd = open(name, O_RDONLY);
    for (off_t place = 0, at = HEAD_BYTES + 2 * blocks * BLOCK_BYTES + (blocks * ENTRY_BYTES + 4095) / 4096 * 4096; place < 4; place++, at += 4096) {
        CHECK(fd >= 0 && pread(fd, part, sizeof part, at) == sizeof part);
        memcpy(&number, part, sizeof number);
        if (number >= last)
            memcpy(&count, part + 8, sizeof count);
        last = number > last ? number : last;
    }
    close(fd);
    return count;
}

/* A checkpoint lists what was programmed since the one before, if that are at most 32 blocks. One of them may have been open then. */
static void lists(void)
{
    enum { MANY = 80, MOST = 32 };
    struct mintlintel_image image = {0};
    uint8_t page[PAGE_BYTES] = {0};
    CHECK(mintlintel_image_open(&image, other, MINTLINTEL_FLUSH, 1, MANY, 2, PAGE_BYTES, MANY) == MINTLINTEL_DONE);
    for (uint32_t blocks = 1; blocks <= MOST + 4; blocks++) {
        for (uint32_t i = 0; i < 2 * blocks; i++)
            CHECK(mintlintel_durable_write(&image.device, i % MANY, page, sizeof page) <= MINTLINTEL_WRITTEN);
        CHECK(mintlintel_durable_flush(&image.device) == MINTLINTEL_DONE);
        uint32_t listed = listed_of(other, MANY);
        CHECK(listed == blocks || listed == blocks + 1 || listed == 0);
        CHECK(blocks == MOST || (listed == 0) == (blocks > MOST));
    }
    mintlintel_image_close(&image);
    unlink(other);
}

/* Writes sectors in turn: each write has its number as value. */
static void write_in_turn(struct mintlintel_image *image, uint32_t from, uint32_t to)
{
    for (uint32_t i = from; i < to; i++)
        CHECK(write_value(image, i % SECTORS, (uint8_t)i) <= MINTLINTEL_WRITTEN);
    CHECK(mintlintel_durable_flush(&image->device) == MINTLINTEL_DONE);
}

/* After a power cut an image with these bytes has so many of the writes, and no open leaves a list. */
static void check_after_a_cut(const uint8_t *bytes, uint32_t writes)
{
    struct mintlintel_image image = {0};
    write_image(other, bytes);
    for (uint32_t i = writes - SECTORS; i < writes; i++)
        values[i % SECTORS] = (uint8_t)i;
    lose_power(other);
    for (int opens = 0; opens < 2; opens++) {
        CHECK(mintlintel_image_open(&image, other, opens ? MINTLINTEL_ALWAYS : MINTLINTEL_FLUSH, NUMBERS) == MINTLINTEL_DONE);
        CHECK(unreadable(&image) == 0 && listed_of(other, BLOCKS) == 0);
        mintlintel_image_close(&image);
    }
}

/* The same if a power cut has left so many bytes of an earlier image. */
static void check_left(const uint8_t *now, const uint8_t *before, off_t at, size_t count, uint32_t writes)
{
    static uint8_t bytes[LENGTH];
    memcpy(bytes, now, LENGTH);
    memcpy(bytes + at, before + at, count);
    CHECK(memcmp(bytes, now, LENGTH) != 0);
    check_after_a_cut(bytes, writes);
}

/* After a power cut an image with these bytes has this write, though a bit of another one is lost. */
static void check_rotted(const uint8_t *bytes, uint32_t i)
{
    struct mintlintel_image image = {0};
    uint8_t page[PAGE_BYTES];
    write_image(other, bytes);
    lose_power(other);
    CHECK(mintlintel_image_open(&image, other, MINTLINTEL_FLUSH, NUMBERS) == MINTLINTEL_DONE);
    CHECK(mintlintel_durable_read(&image.device, i % SECTORS, page, sizeof page) == MINTLINTEL_WRITTEN && page[0] == i);
    mintlintel_image_close(&image);
}

/* A checkpoint that lists blocks which were erased more than once since the one before. Then checkpoints that list a block that was open and has got 2
 * pages more, one that has moved and is full, and one that has moved and has 2 pages. If any of that is lost in a power cut, or an erase, or an entry,
 * the checkpoint before counts, and what the open block got. Pages behind a list don't matter; nor does a lost bit, once a block has moved behind it. */
static void parts_of_lists(void)
{
    enum { ALONE = 122, EACH = 8, FIRST = ALONE + 10 * EACH, LAST = FIRST + EACH };
    static uint8_t before[LENGTH], now[LENGTH], older[LENGTH];
    struct mintlintel_image image = {0};
    off_t at[3], list = 0;
    unlink(path);
    CHECK(mintlintel_image_open(&image, path, MINTLINTEL_FLUSH, NUMBERS) == MINTLINTEL_DONE);
    write_in_turn(&image, 0, ALONE);
    read_image(now);
    check_after_a_cut(now, ALONE);
    for (uint32_t to = ALONE; to < FIRST; to += EACH)
        write_in_turn(&image, to, to + EACH);
    read_image(before);
    write_in_turn(&image, FIRST, LAST);
    read_image(now);
    for (int place = 0; place < 4; place++)
        if (memcmp(now + CHECKPOINTS_AT + place * 4096, before + CHECKPOINTS_AT + place * 4096, 16) != 0)
            list = CHECKPOINTS_AT + place * 4096 + 16;
    CHECK(list > 0 && now[list - 8] == 3);
    for (int i = 0; i < 3; i++) {
        const uint8_t *listed = now + list + 12 * i;
        CHECK(listed[4] / 2 == (i < 2 ? PAGES : 2));
        at[i] = HEAD_BYTES + (listed[4] % 2 * BLOCKS + listed[0]) * BLOCK_BYTES;
    }
    check_after_a_cut(now, LAST);
    check_left(now, before, at[0], 4096, FIRST);
    check_left(now, before, at[0] + 3 * SPARE_BYTES, SPARE_BYTES, FIRST + 1);
    check_left(now, before, at[1] + 4096 + 2 * PAGE_BYTES, PAGE_BYTES, FIRST + 2);
    check_left(now, before, at[2] + 2 * SPARE_BYTES, 2 * SPARE_BYTES, FIRST + 2);
    check_left(now, before, ENTRIES_AT + now[list + 12] * ENTRY_BYTES, ENTRY_BYTES, FIRST + 2);
    check_left(now, before, ENTRIES_AT + now[list + 24] * ENTRY_BYTES, ENTRY_BYTES, FIRST + 2);
    memcpy(older, now, LENGTH);
    memcpy(older + at[2] + 4096, before + at[2] + 4096, 2 * PAGE_BYTES);
    check_left(older, before, at[2], 2 * SPARE_BYTES, FIRST + 2);
    write_in_turn(&image, LAST, LAST + 1);
    read_image(now);
    check_after_a_cut(now, LAST + 1);
    for (uint32_t i = LAST + 1; i < LAST + EACH; i++)
        CHECK(write_value(&image, i % SECTORS, (uint8_t)i) == MINTLINTEL_WRITTEN);
    read_image(now);
    mintlintel_image_close(&image);
    now[at[1] + 4096] ^= 1;
    check_rotted(now, LAST - 1);
    unlink(other);
}

/* A file that can't grow: the call says so, and nothing that was acknowledged is lost. */
static void full_disk(void)
{
    struct mintlintel_image image = {0};
    struct rlimit limit, small;
    uint32_t code = 0, sector = 0;
    signal(SIGXFSZ, SIG_IGN);
    CHECK(getrlimit(RLIMIT_FSIZE, &limit) == 0);
    for (rlim_t blocks = 1; blocks < BLOCKS; blocks++) {
        begin(&image, MINTLINTEL_NEVER);
        small = limit;
        small.rlim_cur = HEAD_BYTES + blocks * BLOCK_BYTES + 4096 + 700;
        CHECK(setrlimit(RLIMIT_FSIZE, &small) == 0);
        do {
            sector = drawn(&state) % SECTORS;
            code = write_value(&image, sector, 77);
            if (code <= MINTLINTEL_WRITTEN)
                values[sector] = 77;
        } while (code <= MINTLINTEL_WRITTEN);
        CHECK(code == MINTLINTEL_FILE_FAILED && mintlintel_image_errno(&image) == EFBIG);
        CHECK(write_value(&image, 0, 1) == MINTLINTEL_FILE_FAILED && mintlintel_durable_flush(&image.device) == MINTLINTEL_FILE_FAILED);
        CHECK(setrlimit(RLIMIT_FSIZE, &limit) == 0);
        mintlintel_image_close(&image);
        CHECK(mintlintel_image_open(&image, path, MINTLINTEL_NEVER, NUMBERS) == MINTLINTEL_DONE);
        CHECK(unreadable(&image) == 0);
        mintlintel_image_close(&image);
    }
}

/* Where the side of a block stands that an image which was closed has. */
static off_t side_at(uint32_t block)
{
    uint8_t low;
    int fd = open(path, O_RDONLY);
    CHECK(fd >= 0 && pread(fd, &low, 1, ENTRIES_AT + (off_t)block * ENTRY_BYTES) == 1);
    close(fd);
    return HEAD_BYTES + ((off_t)(low % 2) * BLOCKS + block) * BLOCK_BYTES;
}

/* A damaged record counts as one of mode `flush` that has lost power: with a damaged page, what stands behind it is set aside, and nothing is missing
 * between pages that are there. */
static void damaged_record(void)
{
    struct mintlintel_image image = {0};
    struct mintlintel_place at[PAGES];
    unlink(path);
    memset(values, 0, sizeof values);
    CHECK(mintlintel_image_open(&image, path, MINTLINTEL_FLUSH, NUMBERS) == MINTLINTEL_DONE);
    for (uint32_t sector = 0; sector < PAGES; sector++) {
        CHECK(write_value(&image, sector, (uint8_t)(1 + sector)) == MINTLINTEL_EMPTY);
        CHECK(mintlintel_driver_page(&image.device.core, sector, &at[sector]) == MINTLINTEL_WRITTEN);
        CHECK(at[sector].block == at[0].block && at[sector].page == sector);
    }
    CHECK(mintlintel_image_close(&image) == MINTLINTEL_DONE);
    change_byte(SESSION_AT + 4, 1);
    change_byte(side_at(at[1].block) + 4096 + at[1].page * PAGE_BYTES, 1);
    values[0] = 1;
    uint32_t code = mintlintel_image_open(&image, path, MINTLINTEL_FLUSH, NUMBERS);
    CHECK(code == MINTLINTEL_DONE && unreadable(&image) == 0);
    mintlintel_image_close(&image);
}

/* The entry of a block in an image that was closed, as if the block had moved behind so many checkpoints. */
static void set_entry_ahead(uint32_t block, uint64_t ahead)
{
    uint8_t entry[ENTRY_BYTES] = {0}, part[8];
    uint64_t last = 0, was = 0;
    int fd = open(path, O_RDWR);
    for (int place = 0; place < 4; place++) {
        uint64_t number = 0;
        CHECK(pread(fd, part, sizeof part, CHECKPOINTS_AT + place * 4096) == sizeof part);
        for (int i = 0; i < 8; i++)
            number |= (uint64_t)part[i] << 8 * i;
        last = number > last ? number : last;
    }
    CHECK(pread(fd, part, sizeof part, ENTRIES_AT + (off_t)block * ENTRY_BYTES) == sizeof part);
    was = part[0];
    for (int i = 0; i < 8; i++)
        entry[i] = (uint8_t)(((last + ahead) * 2 + was % 2) >> 8 * i);
    uint32_t check = mintlintel_crc32c(0, entry, 12);
    for (int i = 0; i < 4; i++)
        entry[12 + i] = (uint8_t)(check >> 8 * i);
    CHECK(pwrite(fd, entry, sizeof entry, ENTRIES_AT + (off_t)block * ENTRY_BYTES) == sizeof entry);
    close(fd);
}

/* A session leaves entries up to the checkpoint that comes next: with one behind that the file is no image. */
static void entries_ahead(void)
{
    struct mintlintel_image image = {0};
    for (uint32_t ahead = 0; ahead < 5; ahead++) {
        begin(&image, MINTLINTEL_FLUSH);
        CHECK(mintlintel_image_close(&image) == MINTLINTEL_DONE);
        set_entry_ahead(ahead, ahead);
        uint32_t code = mintlintel_image_open(&image, path, MINTLINTEL_FLUSH, NUMBERS);
        CHECK(code == (ahead < 2 ? MINTLINTEL_DONE : MINTLINTEL_NOT_AN_IMAGE));
        CHECK(code != MINTLINTEL_DONE || unreadable(&image) == 0);
        mintlintel_image_close(&image);
    }
}

enum { MANY = 2048, ALL = 2 * MANY + 1500, SMALL = 16, LARGE_BLOCK_BYTES = MANY * (SPARE_BYTES + SMALL) };

/* Behind the page that a sector has, its block is erased. */
static void check_erased_behind(struct mintlintel_image *image, uint32_t sector)
{
    static uint8_t spares[MANY * SPARE_BYTES];
    struct mintlintel_place at;
    CHECK(mintlintel_driver_page(&image->device.core, sector, &at) == MINTLINTEL_WRITTEN);
    int fd = open(other, O_RDONLY);
    CHECK(fd >= 0 && pread(fd, spares, sizeof spares, HEAD_BYTES + (off_t)at.block * LARGE_BLOCK_BYTES) == sizeof spares);
    close(fd);
    for (size_t i = (at.page + 1) * SPARE_BYTES; i < sizeof spares; i++)
        CHECK(spares[i] == 0);
}

/* Blocks with more live pages than commands can wait: a collection is done in parts, and each of its commands is. */
static void large_blocks(void)
{
    static uint32_t held[ALL];
    struct mintlintel_image image = {0};
    struct mintlintel_totals totals;
    uint32_t page[SMALL / 4], large = 0;
    CHECK(mintlintel_image_open(&image, other, MINTLINTEL_NEVER, 1, 4, MANY, SMALL, ALL) == MINTLINTEL_DONE);
    for (uint32_t i = 0; i < ALL + 3 * MANY / 4; i++) {
        uint32_t sector = i < ALL ? i : (uint32_t)((uint64_t)i * 7919 % ALL);
        page[0] = page[3] = held[sector] = i + 1, page[1] = page[2] = sector;
        mintlintel_durable_counts(&image.device, &totals);
        uint64_t before = totals.copies;
        CHECK(mintlintel_durable_write(&image.device, sector, page, SMALL) <= MINTLINTEL_WRITTEN);
        mintlintel_durable_counts(&image.device, &totals);
        if (totals.copies - before > 1024) {
            check_erased_behind(&image, sector);
            large++;
        }
    }
    CHECK(large > 2);
    for (uint32_t sector = 0; sector < ALL; sector++) {
        CHECK(mintlintel_durable_read(&image.device, sector, page, SMALL) == MINTLINTEL_WRITTEN);
        CHECK(page[0] == held[sector] && page[3] == held[sector] && page[1] == sector);
    }
    mintlintel_image_close(&image);
    unlink(other);
}

int main(int argc, char **argv)
{
    const char *folder = argc > 1 ? argv[1] : "out";
    snprintf(path, sizeof path, "%s/test.image", folder);
    snprintf(other, sizeof other, "%s/test.image.bad", folder); /* which a test that failed may have left */
    unlink(other);
    snprintf(other, sizeof other, "%s/copy.image", folder);
    unlink(other);
    sessions();
    refusals();
    odd_files(folder);
    names_and_modes(folder);
    bad_blocks_beside();
    flipped_heads();
    flipped_pages();
    swapped();
    copies();
    collections();
    runs(MINTLINTEL_NEVER);
    runs(MINTLINTEL_FLUSH);
    lists();
    parts_of_lists();
    damaged_record();
    entries_ahead();
    large_blocks();
    full_disk();
    unlink(path);
    printf("image: sessions, refusals, flipped and swapped bytes, copies, large blocks and a full disk agree with what was acknowledged\n");
    return 0;
}
