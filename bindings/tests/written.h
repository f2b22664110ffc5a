/* Pages of an image that tell what was written to them. */
#ifndef WRITTEN_H
#define WRITTEN_H

#include "mintlintel_image.h"
#include "testing.h"

enum { MOST_BYTES = 4096 };

/* A page that begins with a value. Its other words are multiples of that. */
static inline void fill(uint8_t *page, uint32_t bytes, uint32_t value)
{
    for (uint32_t i = 0; i < bytes; i += 4) {
        uint32_t word = i == 0 ? value : value * (i + 1);
        memcpy(page + i, &word, sizeof word);
    }
}

/* The value that a sector has as a whole, or 0 if it is empty. */
static inline uint32_t value_of(struct mintlintel_image *image, uint32_t sector, uint32_t bytes)
{
    uint8_t page[MOST_BYTES], wanted[MOST_BYTES];
    uint32_t value, code = mintlintel_durable_read(&image->device, sector, page, bytes);
    CHECK(code <= MINTLINTEL_WRITTEN);
    if (code == MINTLINTEL_EMPTY)
        return 0;
    memcpy(&value, page, sizeof value);
    fill(wanted, bytes, value);
    CHECK(value != 0 && memcmp(page, wanted, bytes) == 0);
    return value;
}

#endif
