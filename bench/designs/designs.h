/* The designs that are compared, behind one table of calls: a layer that threads use at once, in memory, whose commands may take a part's times. */
#ifndef DESIGNS_H
#define DESIGNS_H

#include <mintlintel.h>
#include <signal.h>
#include <stdint.h>

#include "luns.h"

struct geometry { uint32_t hosts, brooms, luns, blocks, pages, words, sectors; };

struct design {
    const char *name;
    int has_brooms;
    /* NULL if the library refuses the geometry. */
    void *(*open)(const struct geometry *geometry);
    /* The library's codes. A write of a design with brooms waits for a block, up to a minute. */
    uint32_t (*read)(void *device, uint32_t host, uint32_t sector, uint8_t *out);
    uint32_t (*write)(void *device, uint32_t host, uint32_t sector, const uint8_t *page);
    /* Collects if few blocks are free: whether there was nothing to do. */
    int (*collect)(void *device, uint32_t broom);
    /* The pages that collections have copied, and the blocks that they came from. */
    void (*moved)(void *device, uint64_t moved[2]);
    void (*close)(void *device);
};

/* Ends with one without a name. */
extern const struct design designs[];

/* Where commands wait, if they take time. */
extern struct luns luns;

/* The signal whose handler stops a thread. */
#define STOP SIGUSR1

enum command { READ, PROGRAM, ERASE, COPY };

/* Waits until a command on a block of a device over so many LUNs is done, if commands take time. Neighbours among the blocks are on different LUNs, and
 * a copy stays within its LUN. */
void command(enum command command, uint32_t block, uint32_t luns);

#endif
