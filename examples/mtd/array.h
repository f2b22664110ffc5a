/* The array of sectors that a device is compared with: each has a version, or 0 while it is empty. A call that was begun and not ended may have been
 * done or not. */
#ifndef ARRAY_H
#define ARRAY_H

#include <stddef.h>
#include <stdint.h>

enum { MOST_SECTORS = 1 << 18 };

struct array {
    uint32_t sectors, newest;
    uint32_t is_begun, first, count, version;
    uint32_t versions[MOST_SECTORS];
};

/* Prints a fault after `WRONG: `, and ends the process. */
void wrong(const char *format, ...) __attribute__((format(printf, 1, 2), noreturn));

/* The page of a version of a sector, which begins with the version. */
void array_fill(uint8_t *page, uint32_t bytes, uint32_t sector, uint32_t version);

/* Begins a write of a version, or with version 0 a trim. Returns 1 if one of the sectors was written. */
uint32_t array_begin(struct array *array, uint32_t first, uint32_t count, uint32_t version);

void array_end(struct array *array);

/* Compares what was read of a sector, null if it is empty. After an open a sector of the begun call may have either version, and keeps it. */
void array_compare(struct array *array, uint32_t sector, const uint8_t *page, uint32_t bytes, uint8_t *expected, int is_after_open);

#endif
