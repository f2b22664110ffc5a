/* What a device takes its memory from, and how much it takes. This file is plain C, and not proved.
 * What the core asks for follows from its tables: tests/given.c compares it with what it takes. */
#include "durable.h"
#include <stdlib.h>
#include <string.h>

/* Numbers of 32 bits are kept in groups of 256 (crates/packed_map). What the core keeps of a handle has so many bytes. */
enum { GROUP = 256, SEAT_BYTES = 696 };
/* A count has at most so many places in the core's queue of blocks. */
enum { MOST_COUNTS = 65534 };

void *mtl_take(struct mtl_given *given, uint64_t bytes)
{
    if (bytes > SIZE_MAX / 2)
        return NULL;
    void *memory = given ? mtl_lend(given, (size_t)bytes) : calloc(1, (size_t)bytes);
    return memory && given ? memset(memory, 0, (size_t)bytes) : memory;
}

void mtl_free_to(struct mtl_given *given, void *memory)
{
    if (given)
        mtl_take_back(memory);
    else
        free(memory);
}

/* What the handle keeps. */
static uint64_t handle_bytes(const struct mintlintel_durable_numbers *n)
{
    return mtl_lent(sizeof(struct mintlintel_flash)) + 2 * mtl_lent(sizeof(uint32_t) * (uint64_t)n->blocks) + mtl_lent(n->blocks)
        + mtl_lent(n->sectors / 8 + 1) + 2 * mtl_lent(n->page_bytes);
}

/* A list of numbers of 32 bits, and one of 64 bits. */
static uint64_t words_bytes(uint64_t count)
{
    uint64_t groups = count / GROUP + 1;
    return mtl_lent(4 * GROUP * (groups + 1)) + mtl_lent(4 * groups);
}

static uint64_t numbers_bytes(uint64_t count)
{
    return 2 * words_bytes(count) + words_bytes(count / 4 + 1);
}

/* For each page the sector that it may have: one bit more than tells sectors apart, but at most 32 bits for each sector. */
static uint64_t hints_bytes(const struct mintlintel_durable_numbers *n)
{
    uint64_t pages = (uint64_t)n->blocks * n->pages, most = 32 * (uint64_t)n->sectors, width = 0;
    while (width < 31 && n->sectors > (uint64_t)1 << width >> 1)
        width++;
    return mtl_lent(8 * ((pages * width < most ? pages * width : most) / 64 + 2));
}

/* What the core has after a mount, and has not before: counts, erases, openings and an order of the blocks, and each page's sector. */
static uint64_t mounted_bytes(const struct mintlintel_durable_numbers *n)
{
    uint64_t blocks = n->blocks, counts = (n->pages < MOST_COUNTS ? n->pages : MOST_COUNTS) + 2;
    return 3 * mtl_lent(4 * blocks) + 2 * mtl_lent(2 * blocks) + mtl_lent(8 * blocks) + mtl_lent(4 * counts) + hints_bytes(n)
        + mtl_lent(4 * ((uint64_t)n->pages + 1));
}

static uint64_t greater(uint64_t a, uint64_t b)
{
    return a > b ? a : b;
}

uint64_t mtl_durable_bytes(const struct mintlintel_durable_numbers *n, int tells_torn)
{
    uint64_t stamps = tells_torn ? 0 : mtl_lent(sizeof(struct noted) * (uint64_t)n->blocks * n->pages) + mtl_lent(sizeof(uint64_t) * (uint64_t)n->sectors);
    /* While it mounts: of each sector the page, the number and a second page; which have values; and the gaps of each block. */
    uint64_t mounting = 3 * numbers_bytes(n->sectors) + mtl_lent(8 * ((uint64_t)n->sectors / 64 + 1)) + mtl_lent(4 * (uint64_t)n->blocks);
    uint64_t most = mounting + greater(mtl_lent(SEAT_BYTES) + stamps, mtl_lent(n->blocks));
    /* At its end the numbers and the second pages make room. */
    if (mounted_bytes(n) > 2 * numbers_bytes(n->sectors))
        most = greater(most, mounting + mounted_bytes(n) + mtl_lent(SEAT_BYTES));
    return mtl_given_head() + handle_bytes(n) + most;
}
