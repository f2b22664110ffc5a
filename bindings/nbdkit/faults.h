// The faults that a device is asked for, as its parameters say them: rates of commands that fail, and numbers of blocks and of pages.
#ifndef NBDKIT_FAULTS_H
#define NBDKIT_FAULTS_H

#include <stdint.h>

// Numbers as `3,8-11` names them.
struct numbers {
    uint32_t count;
    struct {
        uint32_t first, last;
    } *runs;
};

// 0, or -1 with an error reported. A rate is from 0 to below 1, or a percentage.
int numbers_set(struct numbers *numbers, const char *key, const char *value);
int rate_set(double *rate, const char *key, const char *value);

int numbers_have(const struct numbers *numbers, uint32_t number);

// The largest number that is named, or 0.
uint32_t numbers_most(const struct numbers *numbers);
void numbers_end(struct numbers *numbers);

// Pages of the disk that can't be read until they are written or dropped.
struct unreadable {
    _Atomic uint64_t *words; // a bit for each sector; NULL if there are none
};

// 0, or -1 with an error reported.
int unreadable_begin(struct unreadable *unreadable, const struct numbers *numbers, uint32_t sectors);
void unreadable_end(struct unreadable *unreadable);

// Whether a sector can't be read: then an error is set.
int unreadable_has(struct unreadable *unreadable, uint32_t sector);

// The sector has a new page, or none.
void unreadable_renew(struct unreadable *unreadable, uint32_t sector);

#endif
