/* file.c: a device that survives power cuts, over flash in a plain file. `file PATH COUNT` finds there the first COUNT writes, which earlier runs have
 * acknowledged on their output, and makes some more. Kill it at any moment, and the next run finds them all.
 *
 * What a process has written stays when it is killed. For power cuts of the machine open the file with O_DSYNC too: then each command is durable
 * before the next one, as the library needs it, and the sync has nothing left to do. */
#define _DEFAULT_SOURCE
#include <fcntl.h>
#include <mintlintel_durable.h>
#include <stdio.h>
#include <stdlib.h>
#include <string.h>
#include <sys/file.h>
#include <unistd.h>

/* In the file a page has its main bytes, its stamp, and a check of both. All bytes of an erased page are zero, and no stamp is. */
enum { BLOCKS = 16, PAGES = 32, PAGE = 2048, AT_CHECK = PAGE + MINTLINTEL_STAMP_BYTES, RAW = AT_CHECK + 4, SECTORS = 400, MORE = 20000 };
enum { DONE = 0, ERASED = 1, FAILED = 1, UNREADABLE = 2, GONE = 3 };

static const unsigned char zeros[PAGES * RAW] = {0};

static off_t place(uint32_t block, uint32_t page)
{
    return ((off_t)block * PAGES + page) * RAW;
}

static void put_check(unsigned char *at, const unsigned char *raw)
{
    uint32_t check = mintlintel_crc32c(0, raw, AT_CHECK);
    for (int i = 0; i < 4; i++)
        at[i] = (unsigned char)(check >> 8 * i);
}

static int read_page(void *file, uint32_t block, uint32_t page, void *main, void *stamp)
{
    unsigned char raw[RAW], check[RAW - AT_CHECK];
    if (pread(*(int *)file, raw, RAW, place(block, page)) != RAW)
        return GONE;
    if (memcmp(raw, zeros, RAW) == 0)
        return ERASED;
    put_check(check, raw);
    if (memcmp(raw + AT_CHECK, check, sizeof check) != 0)
        return UNREADABLE;
    if (main)
        memcpy(main, raw, PAGE);
    memcpy(stamp, raw + PAGE, MINTLINTEL_STAMP_BYTES);
    return DONE;
}

/* Where a write fails or stops short, it is the file that has failed, and no block of it: the device has to be opened again. */
static int program(void *file, uint32_t block, uint32_t page, const void *main, const void *stamp)
{
    unsigned char raw[RAW];
    memcpy(raw, main, PAGE);
    memcpy(raw + PAGE, stamp, MINTLINTEL_STAMP_BYTES);
    put_check(raw + AT_CHECK, raw);
    return pwrite(*(int *)file, raw, RAW, place(block, page)) == RAW ? DONE : GONE;
}

static int erase(void *file, uint32_t block)
{
    return pwrite(*(int *)file, zeros, sizeof zeros, place(block, 0)) == sizeof zeros ? DONE : GONE;
}

static int sync_file(void *file)
{
    return fdatasync(*(int *)file) == 0 ? DONE : FAILED;
}

/* Opens the file for this process alone, and makes it if it isn't there: -1 if that fails, or if it has another length. */
static int open_file(const char *path)
{
    int file = open(path, O_RDWR | O_CREAT | O_CLOEXEC, 0666);
    off_t bytes = file < 0 || flock(file, LOCK_EX | LOCK_NB) != 0 ? -1 : lseek(file, 0, SEEK_END);
    return bytes == place(BLOCKS, 0) || (bytes == 0 && ftruncate(file, place(BLOCKS, 0)) == 0) ? file : -1;
}

/* Write number i gives this sector a page of i. */
static uint32_t sector_of(uint32_t i)
{
    return i * 7 % SECTORS;
}

static int is_there(struct mintlintel_durable *device, uint32_t i)
{
    uint32_t page[PAGE / sizeof i];
    return mintlintel_durable_read(device, sector_of(i), page, PAGE) == MINTLINTEL_WRITTEN && page[0] == i;
}

/* How many writes are there: those that were acknowledged, and perhaps the one that was begun then. */
static uint32_t find(struct mintlintel_durable *device, uint32_t count)
{
    count += is_there(device, count + 1);
    for (uint32_t i = count; i > 0 && i + SECTORS > count; i--)
        if (!is_there(device, i)) {
            fprintf(stderr, "file: write %u is lost\n", i);
            exit(1);
        }
    return count;
}

int main(int argc, char **argv)
{
    int file = argc == 3 ? open_file(argv[1]) : -1;
    struct mintlintel_nand nand = {.chip = &file, .read = read_page, .program = program, .erase = erase, .sync = sync_file};
    struct mintlintel_durable device = {0};
    uint32_t code = file < 0 ? MINTLINTEL_NO_FILE : mintlintel_durable_open(&device, &nand, 1, BLOCKS, PAGES, PAGE, SECTORS);
    uint32_t count = code == MINTLINTEL_DONE ? find(&device, (uint32_t)strtoul(argv[2], NULL, 10)) : 0, page[PAGE / sizeof count] = {0};
    setvbuf(stdout, NULL, _IOLBF, 0);
    for (uint32_t end = count + MORE; code <= MINTLINTEL_WRITTEN && count < end;) {
        printf("%u\n", count);
        page[0] = ++count;
        code = mintlintel_durable_write(&device, sector_of(count), page, PAGE);
        if (code <= MINTLINTEL_WRITTEN && count % 5000 == 0)
            code = mintlintel_durable_flush(&device);
    }
    mintlintel_durable_close(&device);
    if (code > MINTLINTEL_WRITTEN)
        fprintf(stderr, "file: write %u: %s\n", count, mintlintel_durable_code_name(code));
    else
        printf("%u\n", count);
    return code > MINTLINTEL_WRITTEN;
}
