// A request in its parts: one for each sector that it has a part in.
#ifndef NBDKIT_PIECES_H
#define NBDKIT_PIECES_H

#include <stdint.h>

// The rest of a request, and its part in one sector.
struct range {
    uint64_t offset;
    uint32_t count, page;
};
struct piece {
    uint32_t sector, at, count;
    int is_whole;
};

static inline int next_piece(struct range *range, struct piece *piece) {
    if (range->count == 0)
        return 0;
    piece->sector = (uint32_t) (range->offset / range->page);
    piece->at = (uint32_t) (range->offset % range->page);
    piece->count = range->page - piece->at < range->count ? range->page - piece->at : range->count;
    piece->is_whole = piece->count == range->page;
    range->offset += piece->count;
    range->count -= piece->count;
    return 1;
}

// The sectors that a request covers as a whole.
struct sectors {
    uint64_t first, end;
};

static inline struct sectors whole_sectors(uint32_t count, uint64_t offset, uint32_t page) {
    struct sectors sectors = {.first = (offset + page - 1) / page, .end = (offset + count) / page};
    return sectors;
}

#endif
