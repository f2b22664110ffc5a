#define _GNU_SOURCE
#include "luns.h"

#include <errno.h>
#include <string.h>
#include <sys/prctl.h>
#include <time.h>

enum { SECOND = 1000000000 };

void luns_begin(struct luns *luns, const struct part *part, uint32_t count, uint32_t blocks) {
    *luns = (struct luns){.part = *part, .blocks = blocks / count};
    pthread_mutex_init(&luns->mutex, NULL);
}

void luns_time(struct luns *luns) {
    luns->is_timed = luns->part.read > 0;
}

void luns_end(struct luns *luns) {
    pthread_mutex_destroy(&luns->mutex);
}

uint64_t luns_now(void) {
    struct timespec time;
    clock_gettime(CLOCK_MONOTONIC, &time);
    return (uint64_t) time.tv_sec * SECOND + (uint64_t) time.tv_nsec;
}

static void remove_run(struct lun *lun, uint32_t at) {
    memmove(&lun->runs[at], &lun->runs[at + 1], (--lun->count - at) * sizeof *lun->runs);
}

// Adds a run before the one with this number. Runs that touch become one; so does the last, if there are too many.
static void add_run(struct lun *lun, uint32_t at, uint64_t begin, uint64_t end) {
    int joins_before = at > 0 && lun->runs[at - 1].end == begin, joins_after = at < lun->count && lun->runs[at].begin == end;
    if (joins_before) {
        lun->runs[at - 1].end = joins_after ? lun->runs[at].end : end;
        if (joins_after)
            remove_run(lun, at);
    } else if (joins_after) {
        lun->runs[at].begin = begin;
    } else if (lun->count == MOST_RUNS) {
        lun->runs[MOST_RUNS - 1].end = end > lun->runs[MOST_RUNS - 1].end ? end : lun->runs[MOST_RUNS - 1].end;
    } else {
        memmove(&lun->runs[at + 1], &lun->runs[at], (lun->count++ - at) * sizeof *lun->runs);
        lun->runs[at].begin = begin;
        lun->runs[at].end = end;
    }
}

// Runs that are over are kept while there is room for them, since a request may be as old as the machine is slow.
static void make_room(struct lun *lun) {
    if (lun->count == MOST_RUNS && lun->runs[0].end <= luns_now())
        remove_run(lun, 0);
}

// A LUN does something of this length, from `from` on as early as it can: when it is done.
static uint64_t take(struct luns *luns, uint32_t block, uint64_t from, uint64_t length) {
    struct lun *lun = &luns->luns[block / luns->blocks];
    uint64_t begin = from > 0 ? from : luns_now();
    uint32_t at = 0;
    pthread_mutex_lock(&luns->mutex);
    make_room(lun);
    for (; at < lun->count && lun->runs[at].begin < begin + length; at++)
        begin = begin > lun->runs[at].end ? begin : lun->runs[at].end;
    add_run(lun, at, begin, begin + length);
    pthread_mutex_unlock(&luns->mutex);
    return begin + length;
}

uint64_t luns_read(struct luns *luns, uint32_t block, uint64_t from) {
    return luns->is_timed ? take(luns, block, from, luns->part.read + luns->part.transfer) : from;
}

uint64_t luns_program(struct luns *luns, uint32_t block, uint64_t from) {
    return luns->is_timed ? take(luns, block, from, luns->part.transfer + luns->part.program) : from;
}

uint64_t luns_erase(struct luns *luns, uint32_t block, uint64_t from) {
    return luns->is_timed ? take(luns, block, from, luns->part.erase) : from;
}

// Within a LUN a page doesn't leave the part.
uint64_t luns_copy(struct luns *luns, uint32_t from_block, uint32_t block, uint64_t from) {
    const struct part *part = &luns->part;
    if (!luns->is_timed)
        return from;
    if (from_block / luns->blocks == block / luns->blocks)
        return take(luns, block, from, part->has_copyback ? part->copyback : part->read + part->program);
    return luns_program(luns, block, luns_read(luns, from_block, from));
}

// The system may end a sleep some 50 microseconds late, unless the thread wants less.
void luns_sleep(uint64_t until) {
    struct timespec time = {.tv_sec = (time_t) (until / SECOND), .tv_nsec = (long) (until % SECOND)};
    if (until <= luns_now())
        return;
    prctl(PR_SET_TIMERSLACK, 1);
    while (clock_nanosleep(CLOCK_MONOTONIC, TIMER_ABSTIME, &time, NULL) == EINTR)
        ;
}
