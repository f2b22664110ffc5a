#define _GNU_SOURCE
#define NBDKIT_API_VERSION 2
#include "record.h"

#include <errno.h>
#include <fcntl.h>
#include <nbdkit-plugin.h>
#include <stdio.h>
#include <stdlib.h>
#include <string.h>
#include <sys/stat.h>
#include <sys/uio.h>
#include <unistd.h>

enum { STEP_BYTES = 16, AT_ONCE = 1 << 20, MOST_OF_A_STEP = 1 << 26, FOR_ALL = 0 /* layers */ };
enum { MAGIC_BYTES = 12, LAYERS_AT = MAGIC_BYTES, HEAD_BYTES = 16 };

static const uint8_t magic[MAGIC_BYTES] = {0x89, 'M', 'N', 'T', 'R', '\r', '\n', 0x1a, 1};

static struct {
    int fd, error; // by which it has failed, or 0
    const char *path;
    uint32_t layers; // 0 until it has been started
    struct stat images[MAX_LAYERS];
} record = {.fd = -1};

// ---- Writing.

static void put_number(uint8_t *to, uint64_t number, int bytes) {
    for (int i = 0; i < bytes; i++)
        to[i] = (uint8_t) (number >> 8 * i);
}

static int failed(int error) {
    if (!record.error)
        fprintf(stderr, "mintlintel: record=%s: %s\n", record.path, strerror(error));
    errno = record.error = error;
    return -1;
}

static int append(enum record_kind kind, uint32_t layer, const void *bytes, size_t count, off_t at) {
    uint8_t step[STEP_BYTES];
    struct iovec parts[] = {{step, sizeof step}, {(void *) bytes, count}};
    if (record.error)
        return failed(record.error);
    put_number(step, kind, 2);
    put_number(step + 2, layer, 2);
    put_number(step + 4, count, 4);
    put_number(step + 8, (uint64_t) at, 8);
    ssize_t written = writev(record.fd, parts, 2);
    if (written == -1)
        return failed(errno);
    return written == (ssize_t) (sizeof step + count) ? 0 : failed(ENOSPC);
}

// The layer whose image a file is, or as many as there are.
static uint32_t layer_of(int fd) {
    struct stat about;
    uint32_t layer = 0;
    if (record.layers == 0 || fstat(fd, &about) == -1)
        return record.layers;
    while (layer < record.layers && (record.images[layer].st_ino != about.st_ino || record.images[layer].st_dev != about.st_dev))
        layer++;
    return layer;
}

int record_write(int fd, const void *bytes, size_t count, off_t at) {
    uint32_t layer = layer_of(fd);
    return layer < record.layers ? append(RECORD_WRITE, layer, bytes, count, at) : 0;
}

int record_sync(int fd) {
    uint32_t layer = layer_of(fd);
    return layer < record.layers ? append(RECORD_SYNC, layer, NULL, 0, 0) : 0;
}

int record_flush(void) {
    return record.layers > 0 ? append(RECORD_FLUSH, FOR_ALL, NULL, 0, 0) : 0;
}

// Bad blocks stand in a file beside an image, of which a record says nothing.
static int has_bad_blocks(const char *image) {
    char *bad;
    if (asprintf(&bad, "%s.bad", image) == -1)
        return 1;
    int is_there = access(bad, F_OK) == 0;
    free(bad);
    return is_there;
}

static int refuse_bad_blocks(void) {
    nbdkit_error("record= needs an image without bad blocks, whose commands don't fail");
    return -1;
}

int record_open(const struct options *options) {
    uint8_t head[HEAD_BYTES];
    memcpy(head, magic, sizeof magic);
    put_number(head + LAYERS_AT, options->layers, 4);
    if (!options->record)
        return 0;
    if (options->fail_programs > 0 || options->fail_erases > 0 || options->bad.count > 0)
        return refuse_bad_blocks();
    record.path = options->record;
    record.fd = open(record.path, O_WRONLY | O_CREAT | O_EXCL | O_CLOEXEC, 0666);
    if (record.fd >= 0 && write(record.fd, head, sizeof head) == sizeof head)
        return 0;
    nbdkit_error("record=%s: %s", record.path, strerror(errno));
    return -1;
}

// What the file has from a place on: its bytes as far as there is no hole.
static int copy_data(int from, uint32_t layer, off_t at) {
    static uint8_t bytes[AT_ONCE];
    off_t end = lseek(from, at, SEEK_HOLE);
    while (at < end) {
        size_t count = end - at < AT_ONCE ? (size_t) (end - at) : AT_ONCE;
        ssize_t has = pread(from, bytes, count, at);
        if (has <= 0)
            return failed(has == 0 ? EIO : errno);
        if (append(RECORD_BEFORE, layer, bytes, (size_t) has, at) == -1)
            return -1;
        at += has;
    }
    return 0;
}

static int copy_file(int from, uint32_t layer) {
    struct stat *about = &record.images[layer];
    if (fdatasync(from) == -1 || fstat(from, about) == -1)
        return failed(errno);
    if (append(RECORD_LENGTH, layer, NULL, 0, about->st_size) == -1)
        return -1;
    for (off_t at = lseek(from, 0, SEEK_DATA); at != -1; at = lseek(from, lseek(from, at, SEEK_HOLE), SEEK_DATA))
        if (copy_data(from, layer, at) == -1)
            return -1;
    return errno == ENXIO ? 0 : failed(errno);
}

int record_start(const char *const *images, uint32_t layers) {
    if (record.fd == -1)
        return 0;
    for (uint32_t layer = 0; layer < layers; layer++) {
        if (has_bad_blocks(images[layer]))
            return refuse_bad_blocks();
        int from = open(images[layer], O_RDONLY | O_CLOEXEC), result = from == -1 ? failed(errno) : copy_file(from, layer);
        if (from >= 0)
            close(from);
        if (result == -1)
            return -1;
    }
    record.layers = layers;
    return 0;
}

void record_close(void) {
    if (record.fd >= 0)
        close(record.fd);
    record.fd = -1;
    record.layers = 0;
}

// ---- Reading.

static uint64_t number_at(const uint8_t *from, int bytes) {
    uint64_t number = 0;
    for (int i = 0; i < bytes; i++)
        number |= (uint64_t) from[i] << 8 * i;
    return number;
}

int record_read(const char *path, uint32_t *layers) {
    uint8_t head[HEAD_BYTES] = {0};
    int fd = open(path, O_RDONLY | O_CLOEXEC);
    ssize_t has = fd >= 0 ? read(fd, head, sizeof head) : -1;
    *layers = (uint32_t) number_at(head + LAYERS_AT, 4);
    if (has == sizeof head && memcmp(head, magic, sizeof magic) == 0 && *layers >= 1 && *layers <= MAX_LAYERS)
        return fd;
    nbdkit_error("replay=%s: %s", path, has == -1 ? strerror(errno) : "not a record of this version");
    if (fd >= 0)
        close(fd);
    return -1;
}

int record_next(int fd, struct record_step *step, uint8_t **bytes) {
    uint8_t begin[STEP_BYTES];
    ssize_t has = read(fd, begin, sizeof begin);
    *bytes = NULL;
    if (has != sizeof begin)
        return has == -1 ? -1 : 0; // the server was killed while it wrote the last one
    *step = (struct record_step){(uint32_t) number_at(begin, 2), (uint32_t) number_at(begin + 2, 2), (uint32_t) number_at(begin + 4, 4),
                                 number_at(begin + 8, 8)};
    if (step->kind < RECORD_LENGTH || step->kind > RECORD_FLUSH || step->layer >= MAX_LAYERS || step->count > MOST_OF_A_STEP)
        return -1;
    *bytes = malloc((size_t) step->count + 1);
    return !*bytes ? -1 : read(fd, *bytes, step->count) == (ssize_t) step->count ? 1 : 0;
}
