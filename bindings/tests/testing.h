/* What the tests share: a check that names its line, and random numbers. */
#ifndef TESTING_H
#define TESTING_H

#include "mintlintel.h"
#include <stdio.h>
#include <stdlib.h>
#include <string.h>

#define CHECK(holds)                                                                \
    do {                                                                            \
        if (!(holds)) {                                                             \
            fprintf(stderr, "%s:%d: does not hold: %s\n", __FILE__, __LINE__, #holds); \
            exit(1);                                                                \
        }                                                                           \
    } while (0)

/* xorshift: the same numbers in each run */
static inline uint32_t drawn(uint64_t *state)
{
    *state ^= *state << 13;
    *state ^= *state >> 7;
    *state ^= *state << 17;
    return (uint32_t)(*state >> 32);
}

#endif
