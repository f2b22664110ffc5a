/* The stamp of a page: docs/FORMATS.md says where each field stands. Plain C, and not proved. */
#ifndef STAMP_H
#define STAMP_H

#include <stddef.h>
#include <stdint.h>

enum { STAMP_VALUE = 1, STAMP_TRIM = 2, STAMP_LOST = 3 };
#define STAMP_MOST_ERASES 0xffffffu
#define STAMP_MOST_NUMBER ((uint64_t)1 << 56)

/* In place of its erases a stamp may name a block that has failed, with one of these added. */
enum { STAMP_FAILED = 1 << 24, STAMP_BROKEN = 2 << 24 };

/* The number of a version is below 2^56. */
struct stamp { uint32_t kind; uint64_t number; uint32_t sector, count, erases; };

/* Whether a stamp names a block; and which one. */
static inline int mtl_names(const struct stamp *stamp)
{
    return stamp->erases > STAMP_MOST_ERASES;
}

static inline uint32_t mtl_named(const struct stamp *stamp)
{
    return stamp->erases & STAMP_MOST_ERASES;
}

/* Whether a stamp is of this sector. */
static inline int mtl_covers(const struct stamp *stamp, uint32_t sector)
{
    return sector >= stamp->sector && sector - stamp->sector < stamp->count;
}

/* The fields of a stamp's bytes. */
struct stamp mtl_stamp_from(const uint8_t *bytes);

/* Whether the version is one of a device with so many sectors and blocks. A value is of one of them. */
int mtl_stamp_is_of(const struct stamp *stamp, uint32_t sectors, uint32_t blocks);

/* The bytes of a stamp for a page with this CRC-32C. */
void mtl_stamp_into(uint8_t *bytes, const struct stamp *stamp, uint32_t page_crc);

#endif
