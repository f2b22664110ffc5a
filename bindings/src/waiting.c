/* A write that waits for a free block, over the proved write. This file is plain C, and not proved. */
#define _POSIX_C_SOURCE 200809L
#include "mintlintel.h"
#include <time.h>

enum { FIRST_PAUSE = 20000, LONGEST_PAUSE = 1000000, NANOSECONDS = 1000000000 };

static uint64_t now(void)
{
    struct timespec time;
    clock_gettime(CLOCK_MONOTONIC, &time);
    return (uint64_t)time.tv_sec * NANOSECONDS + (uint64_t)time.tv_nsec;
}

static void pause_for(uint64_t nanoseconds)
{
    struct timespec time = {(time_t)(nanoseconds / NANOSECONDS), (long)(nanoseconds % NANOSECONDS)};
    nanosleep(&time, NULL);
}

uint32_t mintlintel_write_within(struct mintlintel_seat *host, uint32_t sector, const uint8_t *bytes, size_t count, uint32_t milliseconds)
{
    uint32_t code = mintlintel_host_write(host, sector, bytes, count);
    if (code != MINTLINTEL_NO_BLOCK || milliseconds == 0)
        return code;
    uint64_t end = now() + (uint64_t)milliseconds * 1000000;
    for (uint64_t pause = FIRST_PAUSE, at = now(); code == MINTLINTEL_NO_BLOCK && at < end; at = now()) {
        pause_for(pause < end - at ? pause : end - at);
        pause = pause * 2 < LONGEST_PAUSE ? pause * 2 : LONGEST_PAUSE;
        code = mintlintel_host_write(host, sector, bytes, count);
    }
    return code;
}
