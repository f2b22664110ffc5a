/* A collection, over the proved calls of a broom. This file is plain C, and not proved. */
#include "mintlintel.h"

/* Erases a block if it is drained, and counts what came of it. The code is that of the erase. */
static uint32_t erase(struct mintlintel_seat *broom, uint32_t block, struct mintlintel_collected *did)
{
    uint32_t code = mintlintel_broom_erase(broom, block);
    did->freed += code == MINTLINTEL_DONE;
    did->kept += code == MINTLINTEL_KEPT;
    did->retired += code == MINTLINTEL_RETIRED;
    did->pinned += code == MINTLINTEL_PINNED;
    return code;
}

/* Erases what is drained already, by whichever broom: a block that was read then may not be read any more. This takes the marks of the last
 * survey away, so it comes before a new one. */
static uint32_t erase_drained(struct mintlintel_seat *broom, uint32_t blocks, struct mintlintel_collected *did)
{
    for (uint32_t block = 0; block < blocks; block++) {
        uint32_t code = erase(broom, block, did);
        if (code == MINTLINTEL_CLOSED || code == MINTLINTEL_WRONG_KIND)
            return code;
    }
    return MINTLINTEL_DONE;
}

/* Drains one block and erases it: by a new survey, or by the last one. */
static uint32_t drain(struct mintlintel_seat *broom, int has_survey, struct mintlintel_collected *did)
{
    uint32_t block, moved;
    uint32_t code = has_survey ? mintlintel_broom_drain_next(broom, &block, &moved) : mintlintel_broom_drain(broom, &block, &moved);
    if (code != MINTLINTEL_DONE)
        return code;
    did->moved += moved;
    erase(broom, block, did);
    return MINTLINTEL_DONE;
}

/* Drains a block without live pages, by a new survey, and erases it. If there is none, the code says whether one can become free all the same. A
 * reader may have pinned the block in between: it may be drained later, and so this broom isn't done. */
static uint32_t drain_dead(struct mintlintel_seat *broom, struct mintlintel_collected *did)
{
    struct mintlintel_counts counts;
    uint32_t block, moved, code = mintlintel_broom_drain_dead(broom, &block, &moved);
    if (code == MINTLINTEL_DONE) {
        erase(broom, block, did);
        return MINTLINTEL_DONE;
    }
    return code != MINTLINTEL_LOST && mintlintel_broom_counts(broom, &counts) == MINTLINTEL_EXHAUSTED ? MINTLINTEL_EXHAUSTED : MINTLINTEL_NO_SPARE;
}

/* A broom without a spare takes a free block, or else one that it drains and erases without a spare. */
static uint32_t restock(struct mintlintel_seat *broom, int *has_survey, struct mintlintel_collected *did)
{
    if (mintlintel_broom_restock(broom) == MINTLINTEL_DONE) {
        did->restocked++;
        return MINTLINTEL_DONE;
    }
    *has_survey = 1;
    return drain_dead(broom, did);
}

uint32_t mintlintel_collect(struct mintlintel_seat *broom, uint32_t goal, struct mintlintel_collected *did)
{
    struct mintlintel_numbers numbers;
    struct mintlintel_collected none = {0, 0, 0, 0, 0, 0};
    uint32_t code = mintlintel_seat_numbers(broom, &numbers);
    *did = none;
    if (code == MINTLINTEL_DONE)
        code = erase_drained(broom, numbers.blocks, did);
    if (code != MINTLINTEL_DONE)
        return code;
    for (int has_survey = 0; did->freed < goal;) {
        code = drain(broom, has_survey, did);
        if (code == MINTLINTEL_NO_SPARE)
            code = restock(broom, &has_survey, did);
        else
            has_survey = 1;
        if (code != MINTLINTEL_DONE && code != MINTLINTEL_LOST)
            return did->pinned > 0 ? MINTLINTEL_PINNED : code;
    }
    return MINTLINTEL_DONE;
}
