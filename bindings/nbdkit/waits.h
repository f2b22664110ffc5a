// Waits by their time: up to 16 microseconds, up to twice as many, and so on; the last are longer than all before it.
#ifndef NBDKIT_WAITS_H
#define NBDKIT_WAITS_H

#include <stdint.h>

enum { WAIT_STEPS = 22, FIRST_WAIT_STEP_US = 16 };

struct waits {
    uint64_t by_time[WAIT_STEPS], nanoseconds;
};

static inline void waits_add(struct waits *waits, uint64_t nanoseconds) {
    uint32_t step = 0;
    while (step + 1 < WAIT_STEPS && nanoseconds > (uint64_t) FIRST_WAIT_STEP_US * 1000 << step)
        step++;
    waits->by_time[step]++;
    waits->nanoseconds += nanoseconds;
}

#endif
