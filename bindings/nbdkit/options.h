// The parameters of the plugin, and the device that they ask for.
#ifndef NBDKIT_OPTIONS_H
#define NBDKIT_OPTIONS_H

#include <mintlintel.h>
#include <stdint.h>

#include "faults.h"
#include "part.h"

enum { MAX_PAGE_BYTES = MINTLINTEL_MAX_WORDS * MINTLINTEL_WORD_BYTES, NO_CUT = -1, MAX_LAYERS = 16 };

// What a write gets for which no block can be had: the error ENOSPC or EIO, or EROFS, and then so does each write, zero and trim.
enum worn { WORN_ENOSPC, WORN_EIO, WORN_READONLY };

// What a power cut leaves of the writes that weren't synced.
enum unsynced_writes { UNSYNCED_SOME, UNSYNCED_LOST, UNSYNCED_KEPT };

struct options {
    uint32_t page; // bytes of a page, which is a sector
    uint32_t luns, blocks, pages, sectors, endurance;
    uint32_t hosts, brooms; // handles of the pool, and threads that collect
    uint32_t spare_blocks;  // beyond those that every sector written, the handles and the brooms need
    uint32_t low, high;     // brooms start below `low` free blocks, and go on to `high`
    uint32_t wait;          // milliseconds that a write waits while brooms gain nothing
    int64_t size;           // bytes, or -1
    uint32_t spare;         // percent of the sectors
    int has_spare;
    enum worn worn;         // what a write gets for which no block can be had
    uint32_t warn;          // percent of all erases at which a warning is given, or 0
    uint32_t age;           // how many times its size is written before the first client
    uint64_t seed;
    char *image;     // the file or directory that has the device, or NULL: then it is in memory
    uint32_t layers; // of an image; 0 if that isn't given or found
    int has_blocks;  // their number was given
    int sync;        // when writes reach the image's disk: a mode of mintlintel_image.h
    int has_numbers; // some number of the device was given
    int is_unfinished; // of a layer: another one was never made
    int64_t cut;     // the power is cut at this write to the image; 0 by SIGUSR2 alone; or NO_CUT
    enum unsynced_writes unsynced; // what it leaves
    char *record, *replay;  // the file for a record of the image's writes, and the one that the image is made of, or NULL
    const char *of_memory, *of_image; // a parameter that was given and is only of the one or the other, or NULL
    struct part part; // its times, or zeros: then no command takes time
    struct numbers unreadable, bad;     // pages that can't be read, and blocks that are bad from the factory
    double fail_programs, fail_erases;  // which share of the commands fails
    char *stats; // the file for the counts, or NULL
};

// The defaults.
void options_begin(struct options *options);

// Frees what the options hold.
void options_end(struct options *options);

// One parameter. 0, or -1 with an error reported.
int options_set(struct options *options, const char *key, const char *value);

// Computes what wasn't given. 0, or -1 with an error reported.
int options_complete(struct options *options);

// The blocks that the sectors need with the spare pages.
uint32_t options_blocks(const struct options *options);

// Tells why the library made no device of these numbers.
void options_tell_refusal(const struct options *options, uint32_t code);

// The bytes that the device takes in memory: its pages with a stamp each, and a word for each sector and block.
uint64_t options_memory(const struct options *options);

// The errno of a change for which no block can be had.
int options_worn_error(const struct options *options);

extern const char options_help[];

#endif
