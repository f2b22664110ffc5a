/* format HEX HEX HEX FOLDER: what the library reads from images of formats 1 to 3 that are kept as text, and CRC-32C against the examples of RFC 3720,
 * appendix B.4. */
#include "../src/crc.h"
#include "mintlintel_image.h"
#include "testing.h"
#include <errno.h>
#include <fcntl.h>
#include <unistd.h>

enum { MOST = 0x13000 };

/* A kept image: its version and length, and where the page of sector 1 stands. */
struct kept { const char *hex; uint32_t version; size_t length, page_at; };

static uint8_t bytes[MOST];

/* Lines of xxd: a place, a colon, and up to sixteen bytes. What no line has is zero. */
static void read_hex(const char *path)
{
    char line[128];
    FILE *file = fopen(path, "r");
    CHECK(file);
    memset(bytes, 0, sizeof bytes);
    while (fgets(line, sizeof line, file)) {
        char *at;
        unsigned long place = strtoul(line, &at, 16);
        unsigned byte;
        int used;
        CHECK(*at++ == ':');
        for (; sscanf(at, "%2x%n", &byte, &used) == 1; at += used) {
            CHECK(place < MOST);
            bytes[place++] = (uint8_t)byte;
        }
    }
    fclose(file);
}

static void write_file(const char *path, const struct kept *kept)
{
    int fd = open(path, O_RDWR | O_CREAT | O_TRUNC, 0666);
    CHECK(fd >= 0 && pwrite(fd, bytes, kept->length, 0) == (ssize_t)kept->length);
    close(fd);
}

/* Whether a checkpoint of this file lists blocks. */
static int has_list(const char *path)
{
    uint8_t part[16] = {0};
    int fd = open(path, O_RDONLY), has = 0;
    for (off_t at = 0xf000; at < MOST; at += 0x1000)
        has |= pread(fd, part, sizeof part, at) == sizeof part && part[8] != 0;
    close(fd);
    return has;
}

static void check_kept_image(const char *path, const struct kept *kept)
{
    struct mintlintel_image image = {0};
    struct mintlintel_image_head head;
    uint8_t page[16];
    for (int mode = MINTLINTEL_ALWAYS; mode <= MINTLINTEL_NEVER; mode++) {
        write_file(path, kept);
        CHECK(mintlintel_image_look(path, &head) == MINTLINTEL_DONE && head.version == kept->version && head.numbers.blocks == 3 && head.numbers.sectors == 3);
        CHECK(mintlintel_image_open(&image, path, mode, 1, 3, 2, 16, 3) == MINTLINTEL_DONE);
        CHECK(mintlintel_durable_read(&image.device, 0, page, sizeof page) == MINTLINTEL_EMPTY);
        CHECK(mintlintel_durable_read(&image.device, 1, page, sizeof page) == MINTLINTEL_WRITTEN && memcmp(page, "0123456789abcdef", 16) == 0);
        CHECK(mintlintel_durable_read(&image.device, 2, page, sizeof page) == MINTLINTEL_EMPTY);
        CHECK(mintlintel_durable_write(&image.device, 2, page, sizeof page) == MINTLINTEL_EMPTY);
        CHECK(mintlintel_durable_flush(&image.device) == MINTLINTEL_DONE && has_list(path) == (kept->version == 3));
        CHECK(mintlintel_image_close(&image) == MINTLINTEL_DONE);
    }
    unlink(path);
}

/* The session is one that lost power. */
static void lose_power(void)
{
    bytes[0x1000] = 1;
    memset(bytes + 0x1008, '0', 36);
    uint32_t check = mintlintel_crc32c(0, bytes + 0x1000, 44);
    for (int i = 0; i < 4; i++)
        bytes[0x102c + i] = (uint8_t)(check >> 8 * i);
}

/* A page that is set aside after a power cut, in mode `flush` with what stands behind it in its block. */
static void check_after_a_cut(const char *path, const struct kept *kept)
{
    struct mintlintel_image image = {0};
    uint8_t page[16];
    bytes[kept->page_at] ^= 1;
    write_file(path, kept);
    bytes[kept->page_at] ^= 1;
    for (int opens = 0; opens < 2; opens++) {
        CHECK(mintlintel_image_open(&image, path, MINTLINTEL_NEVER, 0, 0, 0, 0, 0) == MINTLINTEL_DONE);
        CHECK(mintlintel_durable_read(&image.device, 1, page, sizeof page) == MINTLINTEL_EMPTY);
        CHECK(mintlintel_image_close(&image) == MINTLINTEL_DONE);
    }
    unlink(path);
}

/* Without the last checkpoint and its copy the block that was opened after the one before is back in its first side: the trim that it had is gone. */
static void check_without_checkpoint(const char *path, const struct kept *kept)
{
    struct mintlintel_image image = {0};
    uint8_t page[16];
    memset(bytes + 0xf000, 0, 16);
    memset(bytes + 0x11000, 0, 16);
    write_file(path, kept);
    for (int opens = 0; opens < 2; opens++) {
        CHECK(mintlintel_image_open(&image, path, MINTLINTEL_ALWAYS, 0, 0, 0, 0, 0) == MINTLINTEL_DONE);
        CHECK(mintlintel_durable_read(&image.device, 1, page, sizeof page) == MINTLINTEL_WRITTEN && memcmp(page, "0123456789abcdef", 16) == 0);
        CHECK(mintlintel_durable_read(&image.device, 2, page, sizeof page) == MINTLINTEL_WRITTEN && memcmp(page, "a second sector.", 16) == 0);
        CHECK(mintlintel_image_close(&image) == MINTLINTEL_DONE);
    }
    unlink(path);
}

static void check_crc(void)
{
    uint8_t zeros[32] = {0}, ones[32], rising[32], random[10000];
    uint64_t state = 88172645463325252u;
    memset(ones, 0xff, sizeof ones);
    for (int i = 0; i < 32; i++)
        rising[i] = (uint8_t)i;
    CHECK(mtl_crc(0, zeros, 32) == 0x8a9136aa && mtl_crc(0, ones, 32) == 0x62a8ab43 && mtl_crc(0, rising, 32) == 0x46dd794e);
    CHECK(mtl_crc(0, (const uint8_t *)"123456789", 9) == 0xe3069283);
    for (int round = 0; round < 1000; round++) {
        size_t from = drawn(&state) % 16, count = drawn(&state) % (sizeof random - 16);
        uint32_t crc = drawn(&state);
        for (size_t i = 0; i < count; i++)
            random[from + i] = (uint8_t)drawn(&state);
        CHECK(mtl_crc(crc, random + from, count) == mintlintel_crc32c(crc, random + from, count));
    }
}

int main(int argc, char **argv)
{
    char path[4096];
    CHECK(argc == 5);
    const struct kept images[] = {{argv[1], 1, 0x8000, 0x3000}, {argv[2], 2, MOST, 0x9000}, {argv[3], 3, MOST, 0x9000}};
    snprintf(path, sizeof path, "%s/format.image", argv[4]);
    check_crc();
    for (int i = 0; i < 3; i++) {
        read_hex(images[i].hex);
        check_kept_image(path, &images[i]);
        lose_power();
        check_after_a_cut(path, &images[i]);
        if (images[i].version > 1)
            check_without_checkpoint(path, &images[i]);
    }
    printf("format: kept images of formats 1 to 3 read as they did, and CRC-32C has the values of RFC 3720\n");
    return 0;
}
