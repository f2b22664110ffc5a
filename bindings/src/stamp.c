/* The bytes of a stamp, and its checks. This file is plain C, and not proved; the CRC-32C is, unless the processor has an instruction for it. */
#include "stamp.h"
#include "crc.h"
#include "mintlintel_durable.h"

/* Where the fields stand, in little-endian order. The upper half of the kind's byte says what the erases are. */
enum { AT_KIND = 0, AT_NUMBER = 1, AT_SECTOR = 8, AT_COUNT = 12, AT_ERASES = 15, AT_OWN_CHECK = 18, AT_PAGE_CHECK = 20 };

static void put(uint8_t *at, uint64_t value, int bytes)
{
    for (int i = 0; i < bytes; i++)
        at[i] = (uint8_t)(value >> 8 * i);
}

static uint64_t get(const uint8_t *at, int bytes)
{
    uint64_t value = 0;
    for (int i = 0; i < bytes; i++)
        value |= (uint64_t)at[i] << 8 * i;
    return value;
}

/* The check of the fields by themselves: the low half of their CRC-32C. */
static uint32_t own_check(const uint8_t *bytes)
{
    return mtl_crc(0, bytes, AT_OWN_CHECK) & 0xffff;
}

/* The check of a page with this CRC-32C and of what stands before this check in its stamp. */
static uint32_t page_check(const uint8_t *bytes, uint32_t page_crc)
{
    return mtl_crc(page_crc, bytes, AT_PAGE_CHECK);
}

struct stamp mtl_stamp_from(const uint8_t *bytes)
{
    struct stamp stamp = {bytes[AT_KIND] & 15, get(bytes + AT_NUMBER, 7), (uint32_t)get(bytes + AT_SECTOR, 4), (uint32_t)get(bytes + AT_COUNT, 3),
                          (uint32_t)get(bytes + AT_ERASES, 3) | (uint32_t)(bytes[AT_KIND] >> 4) << 24};
    return stamp;
}

int mtl_stamp_is_of(const struct stamp *stamp, uint32_t sectors, uint32_t blocks)
{
    int is_known = stamp->kind == STAMP_VALUE ? stamp->count == 1 : (stamp->kind == STAMP_TRIM || stamp->kind == STAMP_LOST) && stamp->count > 0;
    int has_block = !mtl_names(stamp) || (stamp->erases >> 24 <= STAMP_BROKEN >> 24 && mtl_named(stamp) < blocks);
    return is_known && has_block && stamp->sector < sectors && stamp->count <= sectors - stamp->sector;
}

void mtl_stamp_into(uint8_t *bytes, const struct stamp *stamp, uint32_t page_crc)
{
    put(bytes + AT_KIND, stamp->kind | stamp->erases >> 24 << 4, 1);
    put(bytes + AT_NUMBER, stamp->number, 7);
    put(bytes + AT_SECTOR, stamp->sector, 4);
    put(bytes + AT_COUNT, stamp->count, 3);
    put(bytes + AT_ERASES, stamp->erases, 3);
    put(bytes + AT_OWN_CHECK, own_check(bytes), 2);
    put(bytes + AT_PAGE_CHECK, page_check(bytes, page_crc), 4);
}

int mintlintel_stamp_fits(const void *stamp, const void *page, size_t page_bytes)
{
    const uint8_t *bytes = stamp;
    if (get(bytes + AT_OWN_CHECK, 2) != own_check(bytes))
        return 0;
    return !page || get(bytes + AT_PAGE_CHECK, 4) == page_check(bytes, mtl_crc(0, page, page_bytes));
}
