/* times.c: how long the same writes take, by the durable device over a driver, by a volume of UBI, and by a file of UBIFS.
 *
 *   times mintlintel DEVICE spare|head SECTORS WRITES
 *   times ubi NUMBER SECTORS WRITES       on /dev/mtdNUMBER, a write at random is an atomic change of a block
 *   times ubifs NUMBER SECTORS WRITES     on /dev/mtdNUMBER, in one file, with fdatasync after each write
 *
 * A page is 2048 bytes. Every sector is written once in order, then WRITES of them at random; each write is durable before the next. Each line of the
 * output has a name, what was done, and microseconds for each page, or milliseconds in all. */
#include "flash.h"
#include <fcntl.h>
#include <mtd/ubi-user.h>
#include <stdio.h>
#include <stdlib.h>
#include <string.h>
#include <sys/ioctl.h>
#include <sys/mount.h>
#include <sys/stat.h>
#include <time.h>
#include <unistd.h>

/* A change of a block of UBI takes long, so there are fewer. */
enum { PAGE = 2048, CHANGES_FOR_WRITES = 80 };

static uint8_t page[PAGE];
static double began;

static double milliseconds(void)
{
    struct timespec time;
    clock_gettime(CLOCK_MONOTONIC, &time);
    return (double)time.tv_sec * 1e3 + (double)time.tv_nsec / 1e6;
}

static void want(int is_so, const char *text)
{
    if (!is_so) {
        printf("WRONG: %s\n", text);
        exit(1);
    }
}

static void tell(const char *name, const char *what, uint32_t pages)
{
    double took = milliseconds() - began;
    if (pages)
        printf("time;%s;%s;%.0f µs\n", name, what, took * 1e3 / pages);
    else
        printf("time;%s;%s;%.0f ms\n", name, what, took);
    began = milliseconds();
}

/* A way to keep sectors: the first write of each, in order; any other write; and a read. What was written is durable when the call returns. */
struct store {
    const char *name;
    void (*fill)(uint32_t sector), (*write)(uint32_t sector), (*read)(uint32_t sector);
};

/* A file system keeps pages in memory. */
static void drop_caches(void)
{
    FILE *caches = fopen("/proc/sys/vm/drop_caches", "w");
    want(caches && fputs("3\n", caches) >= 0 && fclose(caches) == 0, "the caches aren't dropped");
    began = milliseconds();
}

static void play(const struct store *store, uint32_t sectors, uint32_t writes)
{
    srand(1);
    began = milliseconds();
    for (uint32_t i = 0; i < sectors; i++) {
        memset(page, (int)i, PAGE);
        store->fill(i);
    }
    tell(store->name, "write in order", sectors);
    for (uint32_t i = 0; i < writes; i++) {
        page[i % PAGE]++;
        store->write((uint32_t)rand() % sectors);
    }
    tell(store->name, "write at random", writes);
    drop_caches();
    for (uint32_t i = 0; i < sectors; i++)
        store->read(i);
    tell(store->name, "read", sectors);
}

/* ---- Mintlintel ---- */

static struct flash flash;
static struct mintlintel_durable device;

static void device_write(uint32_t sector)
{
    want(mintlintel_durable_write(&device, sector, page, flash.page_bytes) <= MINTLINTEL_WRITTEN, "a write was refused");
}

static void device_read(uint32_t sector)
{
    want(mintlintel_durable_read(&device, sector, page, flash.page_bytes) == MINTLINTEL_WRITTEN, "a sector isn't there");
}

static void open_device(const char *path, enum flash_place place, uint32_t sectors, const char *name, const char *what)
{
    began = milliseconds();
    want(!flash_open(&flash, path, place), "the driver refused the device");
    want(mintlintel_durable_open(&device, &flash.nand, 1, flash.blocks, flash.pages, flash.page_bytes, sectors) == MINTLINTEL_DONE, "the open was refused");
    tell(name, what, 0);
}

static void time_device(const char *path, const char *place_name, uint32_t sectors, uint32_t writes)
{
    enum flash_place place = strcmp(place_name, "head") == 0 ? FLASH_HEAD : FLASH_SPARE;
    const char *name = place == FLASH_HEAD ? "Mintlintel, stamps in the pages" : "Mintlintel";
    struct store store = {name, device_write, device_write, device_read};
    open_device(path, place, sectors, name, "open, empty");
    play(&store, sectors, writes);
    mintlintel_durable_close(&device);
    flash_close(&flash);
    open_device(path, place, sectors, name, "open, full");
    device_read(sectors - 1);
}

/* ---- UBI ---- */

static int control, volume, file;
static uint32_t pages_of_a_block;
static uint8_t *block;

static void attach(int number)
{
    struct ubi_attach_req request = {.ubi_num = 0, .mtd_num = number};
    began = milliseconds();
    control = open("/dev/ubi_ctrl", O_RDWR);
    want(control != -1 && ioctl(control, UBI_IOCATT, &request) == 0, "UBI doesn't attach");
}

static void detach(void)
{
    int32_t number = 0;
    want(ioctl(control, UBI_IOCDET, &number) == 0, "UBI doesn't detach");
    close(control);
}

static long number_of(const char *path)
{
    char text[32] = "";
    FILE *source = fopen(path, "r");
    want(source && fgets(text, sizeof text, source), path);
    fclose(source);
    return atol(text);
}

static void make_volume(void)
{
    int ubi = open("/dev/ubi0", O_RDWR);
    struct ubi_mkvol_req request = {.vol_id = 0, .alignment = 1, .vol_type = UBI_DYNAMIC_VOLUME, .name = "v", .name_len = 1};
    request.bytes = number_of("/sys/class/ubi/ubi0/avail_eraseblocks") * number_of("/sys/class/ubi/ubi0/eraseblock_size");
    want(ubi != -1 && ioctl(ubi, UBI_IOCMKVOL, &request) == 0, "UBI makes no volume");
    close(ubi);
}

static void volume_fill(uint32_t sector)
{
    want(pwrite(volume, page, PAGE, (off_t)sector * PAGE) == PAGE, "a page isn't written");
}

/* A write in place is an atomic change of its block, which has to be written whole. */
static void volume_write(uint32_t sector)
{
    struct ubi_leb_change_req request = {.lnum = (int32_t)(sector / pages_of_a_block), .bytes = (int32_t)(pages_of_a_block * PAGE)};
    off_t at = (off_t)request.lnum * request.bytes;
    want(pread(volume, block, (size_t)request.bytes, at) == request.bytes, "a block isn't read");
    memcpy(block + sector % pages_of_a_block * PAGE, page, PAGE);
    want(ioctl(volume, UBI_IOCEBCH, &request) == 0 && write(volume, block, (size_t)request.bytes) == request.bytes, "a block isn't changed");
}

static void volume_read(uint32_t sector)
{
    want(pread(volume, page, PAGE, (off_t)sector * PAGE) == PAGE, "a page isn't read");
}

static void time_volume(int number, uint32_t sectors, uint32_t writes)
{
    struct store store = {"UBI volume", volume_fill, volume_write, volume_read};
    attach(number);
    tell("UBI volume", "open, empty", 0);
    make_volume();
    pages_of_a_block = (uint32_t)number_of("/sys/class/ubi/ubi0/eraseblock_size") / PAGE;
    volume = open("/dev/ubi0_0", O_RDWR);
    block = malloc(pages_of_a_block * PAGE);
    struct ubi_set_vol_prop_req direct = {.property = UBI_VOL_PROP_DIRECT_WRITE, .value = 1};
    want(volume != -1 && block && ioctl(volume, UBI_IOCSETVOLPROP, &direct) == 0, "the volume doesn't open");
    play(&store, sectors, writes / CHANGES_FOR_WRITES);
    close(volume);
    detach();
    attach(number);
    tell("UBI volume", "open, full", 0);
    detach();
}

/* ---- UBIFS ---- */

static void file_write(uint32_t sector)
{
    want(pwrite(file, page, PAGE, (off_t)sector * PAGE) == PAGE && fdatasync(file) == 0, "the file isn't written");
}

static void file_read(uint32_t sector)
{
    want(pread(file, page, PAGE, (off_t)sector * PAGE) == PAGE, "the file isn't read");
}

static void mount_it(void)
{
    mkdir("/ubifs", 0700);
    want(mount("ubi0:v", "/ubifs", "ubifs", 0, "compr=none") == 0, "UBIFS isn't mounted");
    file = open("/ubifs/file", O_RDWR | O_CREAT, 0600);
    want(file != -1, "the file doesn't open");
}

static void time_file(int number, uint32_t sectors, uint32_t writes)
{
    struct store store = {"UBIFS file", file_write, file_write, file_read};
    attach(number);
    make_volume();
    mount_it();
    tell("UBIFS file", "open, empty", 0);
    play(&store, sectors, writes);
    close(file);
    want(umount("/ubifs") == 0, "UBIFS isn't unmounted");
    detach();
    attach(number);
    mount_it();
    tell("UBIFS file", "open, full", 0);
    close(file);
    umount("/ubifs");
    detach();
}

int main(int count, char **words)
{
    setvbuf(stdout, NULL, _IOLBF, 0);
    uint32_t writes = count > 1 ? (uint32_t)atoi(words[count - 1]) : 0, sectors = count > 2 ? (uint32_t)atoi(words[count - 2]) : 0;
    if (count == 6 && strcmp(words[1], "mintlintel") == 0)
        time_device(words[2], words[3], sectors, writes);
    else if (count == 5 && strcmp(words[1], "ubi") == 0)
        time_volume(atoi(words[2]), sectors, writes);
    else if (count == 5 && strcmp(words[1], "ubifs") == 0)
        time_file(atoi(words[2]), sectors, writes);
    else
        return 2;
    return 0;
}
