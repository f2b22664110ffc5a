/* Flash that does worse than the header allows, or answers what it doesn't list: what is lost is told, and nothing else is. Each fault is made by hand, on
 * flash in memory and on an image. */
#include "mintlintel_image.h"
#include "testing.h"
#include <time.h>

enum { STAMP = MINTLINTEL_STAMP_BYTES, CUT = 3, VALUE = 1 };
/* What a page answers: erased; a version; a stamp that can be read, and a page that can't; nothing that can be read. */
enum contents { ERASED, WHOLE, ROTTED, LOST };

static struct mintlintel_durable_numbers n;
static uint8_t *contents, *bytes; /* of each page, and its main bytes with its stamp behind */
static uint8_t bad[64];
static long commands, cut_at; /* the command that the power goes in, counted from 1; 0: none */
static int bad_answer;        /* what `is_bad` says of block 1 */
static uint32_t bytes_read;   /* of a page, as the device was opened */
static struct mintlintel_durable device;
static uint64_t state = 0x9e3779b97f4a7c15u;

static size_t at(uint32_t block, uint32_t page) { return (size_t)block * n.pages + page; }
static uint8_t *main_of(size_t page) { return bytes + page * (n.page_bytes + STAMP); }
static uint8_t *stamp_of(size_t page) { return main_of(page) + n.page_bytes; }

static uint64_t number_in(const uint8_t *from, int count)
{
    uint64_t number = 0;
    while (count-- > 0)
        number = number << 8 | from[count];
    return number;
}

static uint32_t sector_of(size_t page) { return (uint32_t)number_in(stamp_of(page) + 8, 4); }

static int flash_read(void *chip, uint32_t block, uint32_t page, void *main, void *stamp)
{
    size_t p = at(block, page);
    (void)chip;
    if (contents[p] == ERASED || contents[p] == LOST || (contents[p] == ROTTED && main))
        return contents[p] == ERASED ? 1 : 2;
    if (main)
        memcpy(main, main_of(p), bytes_read);
    memcpy(stamp, stamp_of(p), STAMP);
    return 0;
}

static int is_cut(void) { return ++commands == cut_at; }

static int flash_program(void *chip, uint32_t block, uint32_t page, const void *main, const void *stamp)
{
    size_t p = at(block, page);
    (void)chip;
    CHECK(contents[p] == ERASED && !bad[block % 64]);
    contents[p] = LOST;
    if (is_cut())
        return CUT;
    contents[p] = WHOLE;
    memcpy(main_of(p), main, n.page_bytes);
    memcpy(stamp_of(p), stamp, STAMP);
    return 0;
}

static int flash_copyback(void *chip, uint32_t from_block, uint32_t from_page, uint32_t block, uint32_t page, const void *stamp)
{
    int answer = flash_program(chip, block, page, main_of(at(from_block, from_page)), stamp);
    contents[at(block, page)] = answer == 0 ? contents[at(from_block, from_page)] : contents[at(block, page)];
    return answer;
}

static int flash_erase(void *chip, uint32_t block)
{
    (void)chip;
    CHECK(!bad[block % 64]);
    memset(contents + at(block, 0), ERASED, n.pages);
    return is_cut() ? CUT : 0;
}

static int flash_is_bad(void *chip, uint32_t block)
{
    (void)chip;
    return block == 1 && bad_answer ? bad_answer : bad[block % 64];
}

static int flash_mark_bad(void *chip, uint32_t block)
{
    (void)chip;
    bad[block % 64] = 1;
    return 0;
}

static struct mintlintel_nand nand;

/* New flash with these numbers. */
static void begin(uint32_t blocks, uint32_t pages, uint32_t page_bytes, uint32_t sectors)
{
    mintlintel_durable_close(&device);
    free(contents);
    free(bytes);
    n = (struct mintlintel_durable_numbers){1, blocks, pages, page_bytes, sectors};
    contents = calloc((size_t)blocks * pages, 1);
    bytes = calloc((size_t)blocks * pages, page_bytes + STAMP);
    CHECK(contents && bytes);
    memset(bad, 0, sizeof bad);
    commands = cut_at = bad_answer = 0;
    nand = (struct mintlintel_nand){NULL, flash_read, flash_program, NULL, flash_erase, flash_is_bad, NULL, NULL};
}

static uint32_t open_with(uint32_t page_bytes, uint32_t sectors)
{
    mintlintel_durable_close(&device);
    bytes_read = page_bytes;
    return mintlintel_durable_open(&device, &nand, n.luns, n.blocks, n.pages, page_bytes, sectors);
}

static uint32_t open_again(void) { return open_with(n.page_bytes, n.sectors); }

static uint32_t write_one(uint32_t sector, uint32_t value)
{
    uint8_t page[64] = {0};
    memcpy(page, &value, sizeof value);
    return mintlintel_durable_write(&device, sector, page, n.page_bytes);
}

/* A sector's value, 0 if it is empty; or UINT32_MAX if its page can't be read. */
static uint32_t value_of(uint32_t sector)
{
    uint8_t page[64] = {0};
    uint32_t value = 0, code = mintlintel_durable_read(&device, sector, page, n.page_bytes);
    CHECK(code <= MINTLINTEL_WRITTEN || code == MINTLINTEL_UNREADABLE);
    if (code == MINTLINTEL_WRITTEN)
        memcpy(&value, page, sizeof value);
    return code == MINTLINTEL_UNREADABLE ? UINT32_MAX : value;
}

/* Lets each page with a sector's newest version decay. */
static void decay(uint32_t sector, enum contents kind)
{
    uint64_t newest = 0;
    for (int is_found = 0; is_found < 2; is_found++)
        for (size_t p = 0; p < (size_t)n.blocks * n.pages; p++) {
            uint64_t number = number_in(stamp_of(p) + 1, 7);
            if (contents[p] != WHOLE || sector_of(p) != sector || number < newest)
                continue;
            newest = number;
            contents[p] = (uint8_t)(is_found ? kind : WHOLE);
        }
}

/* Whether a page has these contents. */
static int has_page(enum contents kind) { return memchr(contents, (int)kind, (size_t)n.blocks * n.pages) != NULL; }

/* ---- Stamps ---- */

/* Gives a page a stamp that fits by itself, of a page that doesn't. */
static void put_stamp(size_t page, uint32_t kind, uint64_t number, uint32_t sector)
{
    uint8_t *stamp = stamp_of(page);
    memset(stamp, 0, STAMP);
    stamp[0] = (uint8_t)kind;
    for (int i = 0; i < 7; i++)
        stamp[1 + i] = (uint8_t)(number >> 8 * i);
    memcpy(stamp + 8, &sector, sizeof sector);
    stamp[12] = 1;
    uint32_t check = mintlintel_crc32c(0, stamp, 18);
    stamp[18] = (uint8_t)check;
    stamp[19] = (uint8_t)(check >> 8);
    CHECK(mintlintel_stamp_fits(stamp, NULL, 0) && !mintlintel_stamp_fits(stamp, main_of(page), n.page_bytes));
}

/* The stamps of a block that an erase was cut in fit by accident: of a kind or a sector that the device can't have, or with a greater number than any. The
 * device opens, has each sector and goes on. */
static void tear_stamps(void)
{
    static const struct { uint32_t kind, sector; uint64_t number; } stamps[] = {{9, 3, 5}, {VALUE, 1u << 30, 5}, {0, 0, 0}, {VALUE, 3, (1ull << 56) - 1}};
    for (uint32_t kind = 0; kind < 4; kind++)
        for (uint32_t page = 1; page < 7; page++) {
            begin(6, 8, 16, 20);
            CHECK(open_again() == MINTLINTEL_DONE);
            for (uint32_t i = 0; i < 200; i++)
                CHECK(write_one(i % n.sectors, i) <= MINTLINTEL_WRITTEN);
            uint32_t block = 0;
            struct mintlintel_block report = {0, 1, 0};
            for (; report.live > 0; block++)
                CHECK(mintlintel_durable_block(&device, block, &report) == MINTLINTEL_DONE);
            memset(contents + at(block - 1, 0), LOST, n.pages);
            contents[at(block - 1, page)] = contents[at(block - 1, 7)] = WHOLE;
            put_stamp(at(block - 1, page), stamps[kind].kind, stamps[kind].number, stamps[kind].sector);
            CHECK(open_again() == MINTLINTEL_DONE);
            for (uint32_t i = 180; i < 200; i++)
                CHECK(value_of(i % n.sectors) == i && write_one(i % n.sectors, i) == MINTLINTEL_WRITTEN);
        }
}

/* A device with other numbers is refused: with fewer sectors, and with pages of another size, also where each block has one version. */
static void open_with_other_numbers(void)
{
    for (uint32_t writes = 2; writes < 200; writes += writes < 8 ? 1 : 30)
        for (uint32_t in_session = 1; in_session < 4; in_session += 2) {
            begin(24, 4, 16, 60);
            for (uint32_t i = 0; i < writes; i++) {
                CHECK(i % in_session || open_again() == MINTLINTEL_DONE);
                CHECK(write_one(i % n.sectors, i) <= MINTLINTEL_WRITTEN);
            }
            CHECK(open_with(15, n.sectors) == MINTLINTEL_OTHER_DEVICE);
            CHECK(open_with(n.page_bytes, (writes < n.sectors ? writes : n.sectors) - 1) == MINTLINTEL_OTHER_DEVICE);
            CHECK(open_again() == MINTLINTEL_DONE && value_of(writes > n.sectors ? 0 : writes - 1) > 0);
        }
    /* First writes that were cut, with whole stamps: the device is empty. */
    begin(24, 4, 16, 60);
    for (uint32_t block = 0; block < 5; block++) {
        contents[at(block, 0)] = WHOLE;
        put_stamp(at(block, 0), VALUE, 0, block);
    }
    CHECK(open_again() == MINTLINTEL_DONE && value_of(0) == 0);
}

/* A stamp's number has seven bytes: the write after the last one is refused, and none that was acknowledged is lost. */
static void end_numbers(void)
{
    for (uint64_t left = 0; left < 5; left++) {
        begin(8, 4, 16, 10);
        contents[0] = WHOLE;
        put_stamp(0, VALUE, (1ull << 56) - 1 - left, 0);
        uint32_t check = mintlintel_crc32c(mintlintel_crc32c(0, main_of(0), n.page_bytes), stamp_of(0), 20), last = 0;
        for (int i = 0; i < 4; i++)
            stamp_of(0)[20 + i] = (uint8_t)(check >> 8 * i);
        CHECK(open_again() == MINTLINTEL_DONE);
        for (uint32_t i = 1; i < 8; i++) {
            uint32_t code = write_one(0, i);
            CHECK(code == (i <= left ? MINTLINTEL_WRITTEN : (uint32_t)MINTLINTEL_NO_NUMBER));
            last = code == MINTLINTEL_WRITTEN ? i : last;
        }
        CHECK(mintlintel_durable_trim(&device, 0, 1) == MINTLINTEL_NO_NUMBER && value_of(0) == last);
        CHECK(open_again() == MINTLINTEL_DONE && value_of(0) == last);
    }
}

/* ---- Pages that can't be read ---- */

/* A call for a sector that isn't lost, with a cut inside it and an open then. Each sector has what it has to have. */
static void go_on_without(uint32_t lost, uint32_t *values, int opens)
{
    uint32_t sector = (lost + 1 + drawn(&state) % (n.sectors - 1)) % n.sectors, value = 1 + drawn(&state) % 1000;
    cut_at = opens ? commands + 1 + drawn(&state) % 4 : 0;
    uint32_t code = write_one(sector, value);
    CHECK(code == MINTLINTEL_WRITTEN || (code == MINTLINTEL_POWER_GONE && opens));
    cut_at = 0;
    CHECK(!opens || open_again() == MINTLINTEL_DONE);
    values[sector] = code == MINTLINTEL_WRITTEN || value_of(sector) == value ? value : values[sector];
    for (uint32_t s = 0; s < n.sectors; s++)
        CHECK(value_of(s) == (s == lost ? UINT32_MAX : values[s]));
}

/* A page becomes unreadable while the device is open. Each call for another sector goes on; its own sector is lost, and never older, also for each open since
 * its block was erased, with cuts, until it is written or trimmed. A copyback keeps a page that has rotted as it is. */
static void lose_page(enum contents kind, int has_copyback, int trims)
{
    uint32_t values[20], lost = drawn(&state) % 20, calls = 0;
    begin(8, 4, 16, 20);
    nand.copyback = has_copyback ? flash_copyback : NULL;
    CHECK(open_again() == MINTLINTEL_DONE);
    for (uint32_t i = 0; i < 100; i++)
        CHECK(write_one(i < 80 ? drawn(&state) % n.sectors : i % n.sectors, i) <= MINTLINTEL_WRITTEN);
    for (uint32_t s = 0; s < n.sectors; s++)
        values[s] = 80 + s;
    decay(lost, kind);
    for (; has_page(kind) && calls < 200; calls++)
        go_on_without(lost, values, 0);
    for (; calls < 300; calls++)
        go_on_without(lost, values, calls % 20 == 0 && (kind == LOST || !has_copyback));
    CHECK(trims ? mintlintel_durable_trim(&device, lost, 1) == MINTLINTEL_WRITTEN : write_one(lost, 7) == MINTLINTEL_WRITTEN);
    CHECK(value_of(lost) == (trims ? 0 : 7));
    CHECK(open_again() == MINTLINTEL_DONE && value_of(lost) == (trims ? 0 : 7));
}

static void lose_each_kind(void)
{
    for (int round = 0; round < 200; round++)
        lose_page(round & 1 ? ROTTED : LOST, round & 2, round & 4);
}

/* The same of an image, in which one bit of a stamp is flipped. */
static void lose_image_page(const char *folder)
{
    enum { SIDES = 8192, PART = 4096, SPARE = 32, BLOCKS = 8, PAGES = 4, SECTORS = 20, LOST_SECTOR = 5 };
    struct mintlintel_image image = {0};
    char path[4000];
    uint8_t page[512] = {0}, spares[PAGES * SPARE];
    snprintf(path, sizeof path, "%s/rotted.img", folder);
    remove(path);
    CHECK(mintlintel_image_open(&image, path, MINTLINTEL_NEVER, 1, BLOCKS, PAGES, sizeof page, SECTORS) == MINTLINTEL_DONE);
    for (uint32_t i = 0; i < SECTORS; i++)
        CHECK(mintlintel_durable_write(&image.device, i, page, sizeof page) == MINTLINTEL_EMPTY);
    FILE *file = fopen(path, "r+b");
    CHECK(file);
    for (long block = 0, flipped = 0; !flipped; block++) {
        CHECK(block < BLOCKS && fseek(file, SIDES + block * (PART + PART), SEEK_SET) == 0 && fread(spares, sizeof spares, 1, file) == 1);
        for (long p = 0; p < PAGES; p++)
            if (spares[p * SPARE] == VALUE && spares[p * SPARE + 8] == LOST_SECTOR) {
                flipped = fseek(file, SIDES + block * (PART + PART) + p * SPARE + 1, SEEK_SET) == 0 && fputc(spares[p * SPARE + 1] ^ 1, file) != EOF;
                CHECK(flipped);
            }
    }
    CHECK(fclose(file) == 0);
    for (int opened = 0; opened < 3; opened++) {
        CHECK(mintlintel_durable_read(&image.device, LOST_SECTOR, page, sizeof page) == MINTLINTEL_UNREADABLE);
        for (uint32_t i = 0; i < 300; i++)
            CHECK(i * 7 % SECTORS == LOST_SECTOR || mintlintel_durable_write(&image.device, i * 7 % SECTORS, page, sizeof page) == MINTLINTEL_WRITTEN);
        CHECK(mintlintel_image_close(&image) == MINTLINTEL_DONE);
        CHECK(mintlintel_image_open(&image, path, MINTLINTEL_NEVER, 1, BLOCKS, PAGES, sizeof page, SECTORS) == MINTLINTEL_DONE);
    }
    CHECK(mintlintel_durable_write(&image.device, LOST_SECTOR, page, sizeof page) == MINTLINTEL_WRITTEN);
    CHECK(mintlintel_durable_read(&image.device, LOST_SECTOR, page, sizeof page) == MINTLINTEL_WRITTEN);
    CHECK(mintlintel_image_close(&image) == MINTLINTEL_DONE && remove(path) == 0);
}

/* ---- Calls ---- */

/* An answer of `is_bad` that the header doesn't list is a refusal. */
static void refuse_answers(void)
{
    static const int answers[] = {-1, 2, 3, 256, INT32_MIN};
    begin(16, 4, 16, 20);
    CHECK(open_again() == MINTLINTEL_DONE);
    for (uint32_t i = 0; i < 200; i++)
        CHECK(write_one(i % n.sectors, i) <= MINTLINTEL_WRITTEN);
    for (uint32_t i = 0; i < sizeof answers / sizeof *answers; i++) {
        bad_answer = answers[i];
        CHECK(open_again() == MINTLINTEL_POWER_GONE);
    }
    bad_answer = 0;
    CHECK(open_again() == MINTLINTEL_DONE);
    for (uint32_t i = 180; i < 200; i++)
        CHECK(value_of(i % n.sectors) == i);
}

/* A trim of more than 4096 sectors that is cut leaves a beginning of its parts, of 4096 sectors each. */
static void cut_trims(void)
{
    enum { SECTORS = 12000, FIRST = 7, COUNT = 11000, PART = 4096 };
    for (long cut = 1; cut <= 4; cut++) {
        begin(64, 256, 16, SECTORS);
        CHECK(open_again() == MINTLINTEL_DONE);
        for (uint32_t sector = 0; sector < n.sectors; sector++)
            CHECK(write_one(sector, 1) == MINTLINTEL_EMPTY);
        cut_at = commands + cut;
        uint32_t code = mintlintel_durable_trim(&device, FIRST, COUNT), done = 0;
        CHECK(code == (cut <= 3 ? (uint32_t)MINTLINTEL_POWER_GONE : MINTLINTEL_WRITTEN));
        CHECK(open_again() == MINTLINTEL_DONE);
        while (done < COUNT && value_of(FIRST + done) == 0)
            done++;
        CHECK(done == COUNT || done % PART == 0);
        CHECK(done == (cut <= 3 ? (uint32_t)(cut - 1) * PART : COUNT));
        for (uint32_t sector = 0; sector < n.sectors; sector++)
            CHECK(value_of(sector) == !(sector >= FIRST && sector < FIRST + done));
    }
}

static double processor_time(uint32_t writes)
{
    struct timespec before, after;
    clock_gettime(CLOCK_THREAD_CPUTIME_ID, &before);
    for (uint32_t i = 0; i < writes; i++)
        CHECK(write_one(i, i) <= MINTLINTEL_WRITTEN);
    clock_gettime(CLOCK_THREAD_CPUTIME_ID, &after);
    return (double)(after.tv_sec - before.tv_sec) * 1e9 + (double)(after.tv_nsec - before.tv_nsec);
}

/* The first writes after an open take no longer than later ones, on a chip with blocks in reserve of which none is bad. */
static void write_after_an_open(void)
{
    double first = 1e18, later = 1e18;
    begin(3000, 256, 8, 600000);
    nand.mark_bad = flash_mark_bad;
    for (int round = 0; round < 3; round++) {
        CHECK(open_again() == MINTLINTEL_DONE);
        double time = processor_time(100);
        first = time < first ? time : first;
        processor_time(400);
        time = processor_time(100);
        later = time < later ? time : later;
    }
    CHECK(first < 10 * later);
}

int main(int argc, char **argv)
{
    tear_stamps();
    open_with_other_numbers();
    end_numbers();
    lose_each_kind();
    lose_image_page(argc > 1 ? argv[1] : "out");
    refuse_answers();
    cut_trims();
    write_after_an_open();
    begin(3, 1, 1, 1);
    free(contents);
    free(bytes);
    printf("flash_faults: torn stamps, lost pages, answers that aren't listed and cut trims harm no other sector\n");
    return 0;
}
