#define NBDKIT_API_VERSION 2
#include "faults.h"

#include <ctype.h>
#include <errno.h>
#include <inttypes.h>
#include <nbdkit-plugin.h>
#include <stdatomic.h>
#include <stdlib.h>
#include <string.h>

enum { BITS = 64 };

static int refuse_numbers(const char *key, const char *value) {
    nbdkit_error("%s=%s: it is numbers and ranges of them, such as 3,8-11", key, value);
    return -1;
}

// Reads a number, and goes on behind it. 0 if there is none.
static int read_number(const char **at, uint32_t *number) {
    char *end;
    if (!isdigit((unsigned char) **at))
        return 0;
    errno = 0;
    uintmax_t value = strtoumax(*at, &end, 10);
    *number = (uint32_t) value;
    *at = end;
    return errno == 0 && value <= UINT32_MAX;
}

int numbers_set(struct numbers *numbers, const char *key, const char *value) {
    numbers_end(numbers);
    numbers->runs = calloc(strlen(value) + 1, sizeof *numbers->runs);
    if (!numbers->runs) {
        nbdkit_error("%s=: there is no memory for it", key);
        return -1;
    }
    for (const char *at = value;; at++) {
        uint32_t first, last;
        if (!read_number(&at, &first))
            return refuse_numbers(key, value);
        last = first;
        if (*at == '-' && (at++, !read_number(&at, &last) || last < first))
            return refuse_numbers(key, value);
        numbers->runs[numbers->count].first = first;
        numbers->runs[numbers->count++].last = last;
        if (*at == 0)
            return 0;
        if (*at != ',')
            return refuse_numbers(key, value);
    }
}

int rate_set(double *rate, const char *key, const char *value) {
    char *end;
    double number = strtod(value, &end);
    int is_percentage = end > value && strcmp(end, "%") == 0;
    if (end > value && *end == 0 && number == 1) {
        nbdkit_error("%s=%s: is it one of a hundred, or each one? Give %s=1%%, or %s=100%%", key, value, key, key);
        return -1;
    }
    if (is_percentage)
        number /= 100;
    if (end > value && (*end == 0 || is_percentage) && number >= 0 && number <= 1) {
        *rate = number;
        return 0;
    }
    nbdkit_error("%s=%s: it is a rate from 0 to 1, or from 0%% to 100%%", key, value);
    return -1;
}

int numbers_have(const struct numbers *numbers, uint32_t number) {
    for (uint32_t i = 0; i < numbers->count; i++)
        if (number >= numbers->runs[i].first && number <= numbers->runs[i].last)
            return 1;
    return 0;
}

uint32_t numbers_most(const struct numbers *numbers) {
    uint32_t most = 0;
    for (uint32_t i = 0; i < numbers->count; i++)
        most = numbers->runs[i].last > most ? numbers->runs[i].last : most;
    return most;
}

void numbers_end(struct numbers *numbers) {
    free(numbers->runs);
    *numbers = (struct numbers){0};
}

int unreadable_begin(struct unreadable *unreadable, const struct numbers *numbers, uint32_t sectors) {
    unreadable->words = NULL;
    if (numbers->count == 0)
        return 0;
    if (numbers_most(numbers) >= sectors) {
        nbdkit_error("unreadable=%" PRIu32 ": the disk has the pages 0 to %" PRIu32, numbers_most(numbers), sectors - 1);
        return -1;
    }
    unreadable->words = calloc(sectors / BITS + 1, sizeof *unreadable->words);
    if (!unreadable->words) {
        nbdkit_error("there is no memory for unreadable=");
        return -1;
    }
    for (uint32_t i = 0; i < numbers->count; i++)
        for (uint32_t sector = numbers->runs[i].first; sector <= numbers->runs[i].last; sector++)
            unreadable->words[sector / BITS] |= (uint64_t) 1 << sector % BITS;
    return 0;
}

void unreadable_end(struct unreadable *unreadable) {
    free((void *) unreadable->words);
    unreadable->words = NULL;
}

int unreadable_has(struct unreadable *unreadable, uint32_t sector) {
    if (!unreadable->words || !(atomic_load(&unreadable->words[sector / BITS]) >> sector % BITS & 1))
        return 0;
    nbdkit_debug("page %" PRIu32 " can't be read", sector);
    nbdkit_set_error(EIO);
    return 1;
}

void unreadable_renew(struct unreadable *unreadable, uint32_t sector) {
    if (unreadable->words)
        atomic_fetch_and(&unreadable->words[sector / BITS], ~((uint64_t) 1 << sector % BITS));
}
