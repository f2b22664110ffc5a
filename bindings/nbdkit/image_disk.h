// The disk in an image file, or a layer of it: a device that survives the end of the server, by image=FILE.
//
// One lock is round all calls of the layer. A request of many pages gives it up from time to time, so it is not one step; each of its pages is. The
// pages of a write that stand one behind another are written together. A read goes by a reader, and takes no lock. What no reader can read, as a page that
// can't be read, it reads under the lock. Changes and flushes take another lock before it, so that a flush syncs the file beside reports and maps of holes.
#ifndef NBDKIT_IMAGE_DISK_H
#define NBDKIT_IMAGE_DISK_H

#include <mintlintel_image.h>
#include <mintlintel_reader.h>
#include <pthread.h>
#include <stdint.h>

#include "chip.h"
#include "options.h"
#include "waits.h"

// Who has the lock lets others have it after so many pages of a request.
enum { PAGES_OF_A_TURN = 32 };
// So many requests can read at once without the lock.
enum { MOST_READERS = 64 };

// One that a request takes for its reads.
struct of_request {
    _Atomic int is_taken;
    struct mintlintel_reader reader;
};

struct image_disk {
    struct options *options;
    pthread_mutex_t order; // of changes and flushes; it is taken first
    pthread_mutex_t mutex; // of all below
    struct mintlintel_image image;
    struct chip chip;
    struct of_request readers[MOST_READERS]; // of no lock
    _Atomic uint64_t reads; // what clients asked for, in pages, and flushes
    uint64_t writes, trims, flushes;
    struct waits waited; // of requests for which pages had to be copied, or a block erased
    uint32_t collecting; // such requests that aren't answered yet
    struct unreadable unreadable;
    int has_failed; // a failure was told
    int is_worn;    // too few blocks are good, which was told: nothing changes any more
};

// Opens the image, or makes it, and takes the numbers that weren't given from it. 0, or -1 with an error reported.
int image_disk_open(struct image_disk *disk, struct options *options);
void image_disk_start(struct image_disk *disk);
void image_disk_close(struct image_disk *disk);

// The requests: 0, or -1 with an error set and reported.
int image_disk_read(struct image_disk *disk, uint8_t *to, uint32_t count, uint64_t offset);
int image_disk_write(struct image_disk *disk, const uint8_t *from, uint32_t count, uint64_t offset);
int image_disk_zero(struct image_disk *disk, uint32_t count, uint64_t offset, int may_trim);
int image_disk_trim(struct image_disk *disk, uint32_t count, uint64_t offset);
int image_disk_flush(struct image_disk *disk);

// Whether a sector is empty: 1 or 0, or -1 with an error set and reported.
int image_disk_is_empty(struct image_disk *disk, uint32_t sector);

#endif
