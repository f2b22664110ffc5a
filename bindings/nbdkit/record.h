// A record of what happens to a disk's images, by record=: what they have when the disk is there, and then each write, sync, and answered flush of a client,
// in order. docs/FORMATS.md has the format. It is written by one thread at a time.
#ifndef NBDKIT_RECORD_H
#define NBDKIT_RECORD_H

#include <stddef.h>
#include <stdint.h>
#include <sys/types.h>

#include "options.h"

enum record_kind { RECORD_LENGTH = 1, RECORD_BEFORE, RECORD_WRITE, RECORD_SYNC, RECORD_FLUSH };

// What stands in a record: of a write, and of bytes that were there before, their place and number, and of a file's length this.
struct record_step {
    uint32_t kind, layer, count;
    uint64_t at;
};

// Makes the file of a record that the options ask for, before the images are opened. 0, or -1 with an error reported.
int record_open(const struct options *options);

// Writes down what the images of so many layers have, from which the record goes on.
int record_start(const char *const *images, uint32_t layers);
void record_close(void);

// Writes something down, if there is a record that has been started, and the file is an image: 0, or -1 with errno set.
int record_write(int fd, const void *bytes, size_t count, off_t at);
int record_sync(int fd);
int record_flush(void);

// For a replay: opens a record, -1 with an error reported, and gives its next step with the bytes, to be freed: 1, 0 at its end, or -1 if it is damaged.
int record_read(const char *path, uint32_t *layers);
int record_next(int fd, struct record_step *step, uint8_t **bytes);

#endif
