#include "array.h"
#include <stdarg.h>
#include <stdio.h>
#include <stdlib.h>
#include <string.h>

void wrong(const char *format, ...)
{
    va_list values;
    va_start(values, format);
    fputs("WRONG: ", stdout);
    vprintf(format, values);
    putchar('\n');
    va_end(values);
    exit(1);
}

void array_fill(uint8_t *page, uint32_t bytes, uint32_t sector, uint32_t version)
{
    uint64_t state = (uint64_t)version << 32 | (sector + 1);
    memset(page, 0, bytes);
    memcpy(page, &version, sizeof version);
    for (uint32_t i = 4; i + 4 <= bytes; i += 4) {
        state ^= state << 13;
        state ^= state >> 7;
        state ^= state << 17;
        memcpy(page + i, &state, 4);
    }
}

uint32_t array_begin(struct array *array, uint32_t first, uint32_t count, uint32_t version)
{
    uint32_t had = 0;
    for (uint32_t sector = first; sector < first + count; sector++)
        had |= array->versions[sector] != 0;
    array->first = first;
    array->count = count;
    array->version = version;
    array->is_begun = 1;
    return had;
}

void array_end(struct array *array)
{
    for (uint32_t sector = array->first; sector < array->first + array->count; sector++)
        array->versions[sector] = array->version;
    array->is_begun = 0;
}

void array_compare(struct array *array, uint32_t sector, const uint8_t *page, uint32_t bytes, uint8_t *expected, int is_after_open)
{
    uint32_t version = 0;
    if (page) {
        memcpy(&version, page, sizeof version);
        array_fill(expected, bytes, sector, version);
        if (version == 0 || memcmp(page, expected, bytes) != 0)
            wrong("sector %u has bytes that nobody wrote", sector);
    }
    if (is_after_open && array->is_begun && sector - array->first < array->count && version == array->version)
        array->versions[sector] = version;
    if (version != array->versions[sector])
        wrong("sector %u has version %u and not %u %s", sector, version, array->versions[sector], is_after_open ? "after an open" : "in a read");
}
