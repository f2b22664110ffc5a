/* The limits of a device that survives power cuts. This file is plain C, and not proved. */
#include "flash.h"

enum { MOST_LUNS = 8, FEWEST_BLOCKS = 3, MOST_BLOCKS = 1048576, MOST_PAGE_BYTES = 65536, MOST_SECTORS = 268435456 };

uint32_t mtl_durable_fault(const struct mintlintel_durable_numbers *n)
{
    if (n->luns < 1 || n->luns > MOST_LUNS)
        return MINTLINTEL_BAD_LUNS;
    if (n->blocks < FEWEST_BLOCKS || n->blocks > MOST_BLOCKS || n->blocks % n->luns != 0)
        return MINTLINTEL_BAD_BLOCKS;
    if (n->pages < 1 || n->pages > MTL_MOST_PAGES)
        return MINTLINTEL_BAD_PAGES;
    if (n->page_bytes < 1 || n->page_bytes > MOST_PAGE_BYTES)
        return MINTLINTEL_BAD_WORDS;
    if (n->sectors < 1 || n->sectors > MOST_SECTORS)
        return MINTLINTEL_BAD_SECTORS;
    return n->sectors < (uint64_t)(n->blocks - 1) * n->pages ? MINTLINTEL_DONE : MINTLINTEL_TOO_FEW_BLOCKS;
}
