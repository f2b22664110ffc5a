// The LUNs of a device that takes a part's times. Each does one command at a time, and has a channel of its own. When a command comes, its end is
// known at once: so nothing waits here, and whoever asked for it sleeps until then.
//
// A command takes the first time in which its LUN has nothing else to do. What comes later to a LUN that is busy waits behind it; what comes before a
// command that has to wait for another one, as the erase of a write that collects, is done before it.
#ifndef NBDKIT_LUNS_H
#define NBDKIT_LUNS_H

#include <mintlintel.h>
#include <pthread.h>
#include <stdint.h>

#include "part.h"

enum { MOST_RUNS = 128 };

// When a LUN is busy: runs of time, in their order, with some time between each two.
struct lun {
    uint32_t count;
    struct {
        uint64_t begin, end;
    } runs[MOST_RUNS];
};

struct luns {
    struct part part;
    uint32_t blocks;      // of each LUN
    _Atomic int is_timed; // commands take time
    pthread_mutex_t mutex;
    struct lun luns[MINTLINTEL_MAX_LUNS];
};

// The commands take time from luns_time on, if there is a part at all.
void luns_begin(struct luns *luns, const struct part *part, uint32_t count, uint32_t blocks);
void luns_time(struct luns *luns);
void luns_end(struct luns *luns);

// The present time, in nanoseconds.
uint64_t luns_now(void);

// When a command ends that can't begin before `from`, or before now if that is 0. If commands take no time, they end at `from`.
uint64_t luns_read(struct luns *luns, uint32_t block, uint64_t from);
uint64_t luns_program(struct luns *luns, uint32_t block, uint64_t from);
uint64_t luns_erase(struct luns *luns, uint32_t block, uint64_t from);
uint64_t luns_copy(struct luns *luns, uint32_t from_block, uint32_t block, uint64_t from);

// Sleeps until then. 0 if it is already over.
void luns_sleep(uint64_t until);

#endif
