/* Flash whose functions put their answers where they are told. This file is plain C, and not proved. */
#include "mintlintel_answering.h"

enum { POWER_GONE = 3 };

static int answer_read(void *at, uint32_t block, uint32_t page, void *main, void *stamp)
{
    const struct mintlintel_answering *flash = at;
    int answer = POWER_GONE;
    flash->read(flash->chip, block, page, main, stamp, &answer);
    return answer;
}

static int answer_program(void *at, uint32_t block, uint32_t page, const void *main, const void *stamp)
{
    const struct mintlintel_answering *flash = at;
    int answer = POWER_GONE;
    flash->program(flash->chip, block, page, main, stamp, &answer);
    return answer;
}

static int answer_copyback(void *at, uint32_t from_block, uint32_t from_page, uint32_t block, uint32_t page, const void *stamp)
{
    const struct mintlintel_answering *flash = at;
    int answer = POWER_GONE;
    flash->copyback(flash->chip, from_block, from_page, block, page, stamp, &answer);
    return answer;
}

static int answer_erase(void *at, uint32_t block)
{
    const struct mintlintel_answering *flash = at;
    int answer = POWER_GONE;
    flash->erase(flash->chip, block, &answer);
    return answer;
}

static int answer_is_bad(void *at, uint32_t block)
{
    const struct mintlintel_answering *flash = at;
    int answer = POWER_GONE;
    flash->is_bad(flash->chip, block, &answer);
    return answer;
}

static int answer_mark_bad(void *at, uint32_t block)
{
    const struct mintlintel_answering *flash = at;
    int answer = POWER_GONE;
    flash->mark_bad(flash->chip, block, &answer);
    return answer;
}

static int answer_sync(void *at)
{
    const struct mintlintel_answering *flash = at;
    int answer = POWER_GONE;
    flash->sync(flash->chip, &answer);
    return answer;
}

void mintlintel_answering_nand(struct mintlintel_nand *nand, struct mintlintel_answering *answering)
{
    *nand = (struct mintlintel_nand){
        answering, answer_read, answer_program, answering->copyback ? answer_copyback : NULL, answer_erase,
        answering->is_bad ? answer_is_bad : NULL, answering->mark_bad ? answer_mark_bad : NULL, answering->sync ? answer_sync : NULL,
    };
}
