/* Flash whose functions put their answers where they are told: each arrives with its arguments, and none is 3, power gone. */
#include "mintlintel_answering.h"
#include "testing.h"

/* What a function is called with, and what it answers; -1: nothing. */
static struct { int calls, answer; uint32_t numbers[4]; const void *main, *stamp; void *chip; } seen;

static void note(void *chip, const uint32_t *numbers, int count, const void *main, const void *stamp, int *answer)
{
    memset(seen.numbers, 0, sizeof seen.numbers);
    memcpy(seen.numbers, numbers, (size_t)count * sizeof *numbers);
    seen.calls++;
    seen.chip = chip;
    seen.main = main;
    seen.stamp = stamp;
    if (seen.answer >= 0)
        *answer = seen.answer;
}

static void read_page(void *chip, uint32_t block, uint32_t page, void *main, void *stamp, int *answer)
{
    note(chip, (uint32_t[]){block, page}, 2, main, stamp, answer);
}

static void program(void *chip, uint32_t block, uint32_t page, const void *main, const void *stamp, int *answer)
{
    note(chip, (uint32_t[]){block, page}, 2, main, stamp, answer);
}

static void copyback(void *chip, uint32_t from_block, uint32_t from_page, uint32_t block, uint32_t page, const void *stamp, int *answer)
{
    note(chip, (uint32_t[]){from_block, from_page, block, page}, 4, NULL, stamp, answer);
}

static void on_block(void *chip, uint32_t block, int *answer) { note(chip, &block, 1, NULL, NULL, answer); }

static void sync_all(void *chip, int *answer) { note(chip, (uint32_t[]){0}, 0, NULL, NULL, answer); }

/* Whether the last call was this one, and its answer came back. */
static int was(int answered, int calls, const void *chip, const uint32_t numbers[4], const void *main, const void *stamp)
{
    return answered == (seen.answer < 0 ? 3 : seen.answer) && seen.calls == calls && seen.chip == chip
        && memcmp(seen.numbers, numbers, sizeof seen.numbers) == 0 && seen.main == main && seen.stamp == stamp;
}

int main(void)
{
    int chip;
    char main[8], stamp[MINTLINTEL_STAMP_BYTES];
    struct mintlintel_answering answering = {&chip, read_page, program, copyback, on_block, on_block, on_block, sync_all};
    struct mintlintel_nand nand;
    mintlintel_answering_nand(&nand, &answering);
    for (seen.answer = -1; seen.answer < 4; seen.answer++) {
        seen.calls = 0;
        CHECK(was(nand.read(nand.chip, 1, 2, main, stamp), 1, &chip, (uint32_t[4]){1, 2}, main, stamp));
        CHECK(was(nand.read(nand.chip, 1, 2, NULL, stamp), 2, &chip, (uint32_t[4]){1, 2}, NULL, stamp));
        CHECK(was(nand.program(nand.chip, 3, 4, main, stamp), 3, &chip, (uint32_t[4]){3, 4}, main, stamp));
        CHECK(was(nand.copyback(nand.chip, 1, 2, 3, 4, stamp), 4, &chip, (uint32_t[4]){1, 2, 3, 4}, NULL, stamp));
        CHECK(was(nand.erase(nand.chip, 5), 5, &chip, (uint32_t[4]){5}, NULL, NULL));
        CHECK(was(nand.is_bad(nand.chip, 6), 6, &chip, (uint32_t[4]){6}, NULL, NULL));
        CHECK(was(nand.mark_bad(nand.chip, 7), 7, &chip, (uint32_t[4]){7}, NULL, NULL));
        CHECK(was(nand.sync(nand.chip), 8, &chip, (uint32_t[4]){0}, NULL, NULL));
    }
    answering = (struct mintlintel_answering){.read = read_page, .program = program, .erase = on_block};
    mintlintel_answering_nand(&nand, &answering);
    CHECK(nand.read && nand.program && nand.erase && !nand.copyback && !nand.is_bad && !nand.mark_bad && !nand.sync);
    puts("answering: a function that puts no answer says that the power is gone");
}
