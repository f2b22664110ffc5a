/* Whole reads, writes and copies of a file. Plain C, and not proved. */
#define _GNU_SOURCE
#define _FILE_OFFSET_BITS 64
#include "image_format.h"
#include <errno.h>
#include <fcntl.h>
#include <stdlib.h>
#include <sys/stat.h>
#include <unistd.h>

int mtl_open_file(const char *path, int flags)
{
    struct stat about;
    int fd = open(path, flags | O_NONBLOCK | O_CLOEXEC);
    if (fd < 0 || (fstat(fd, &about) == 0 && S_ISREG(about.st_mode)))
        return fd;
    close(fd);
    errno = EINVAL;
    return -1;
}

int mtl_read_all(int fd, void *bytes, size_t count, off_t at)
{
    for (size_t done = 0; done < count;) {
        ssize_t n = pread(fd, (char *)bytes + done, count - done, at + (off_t)done);
        if (n == 0 || (n < 0 && errno != EINTR))
            return n == 0 ? EIO : errno;
        done += n > 0 ? (size_t)n : 0;
    }
    return 0;
}

int mtl_write_all(int fd, const void *bytes, size_t count, off_t at)
{
    for (size_t done = 0; done < count;) {
        ssize_t n = pwrite(fd, (const char *)bytes + done, count - done, at + (off_t)done);
        if (n == 0 || (n < 0 && errno != EINTR))
            return n == 0 ? ENOSPC : errno;
        done += n > 0 ? (size_t)n : 0;
    }
    return 0;
}

int mtl_write_all_parts(int fd, struct iovec *parts, uint32_t count, off_t at)
{
    while (count > 0) {
        ssize_t n = pwritev(fd, parts, (int)count, at);
        if (n == 0 || (n < 0 && errno != EINTR))
            return n == 0 ? ENOSPC : errno;
        size_t done = n > 0 ? (size_t)n : 0;
        at += (off_t)done;
        for (; count > 0 && done >= parts->iov_len; parts++, count--)
            done -= parts->iov_len;
        if (done > 0)
            *parts = (struct iovec){(char *)parts->iov_base + done, parts->iov_len - done};
    }
    return 0;
}

/* Copies one run of data. */
static int copy_run(int from, int to, off_t at, off_t end)
{
    static const size_t MOST = 1 << 20;
    uint8_t *bytes = malloc(MOST);
    int error = bytes ? 0 : ENOMEM;
    while (error == 0 && at < end) {
        size_t count = (size_t)(end - at) < MOST ? (size_t)(end - at) : MOST;
        error = mtl_read_all(from, bytes, count, at);
        if (error == 0)
            error = mtl_write_all(to, bytes, count, at);
        at += (off_t)count;
    }
    free(bytes);
    return error;
}

int mtl_copy_data(int from, int to, off_t length)
{
    off_t at = 0;
    struct stat about;
    int error = ftruncate(to, length) == 0 ? 0 : errno;
    while (error == 0 && at < length) {
        off_t data = lseek(from, at, SEEK_DATA);
        off_t hole = data < 0 ? -1 : lseek(from, data, SEEK_HOLE);
        if (data < 0 && errno == ENXIO)
            break;
        if (hole < 0)
            return errno;
        hole = hole < length ? hole : length;
        error = data < hole ? copy_run(from, to, data, hole) : 0;
        at = hole;
    }
    if (error == 0 && fstat(from, &about) != 0)
        return errno;
    return error == 0 && about.st_size < length ? EIO : error; /* a hole reads as a file does that was cut short */
}
