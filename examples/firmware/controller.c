#include "controller.h"
#include "board.h"
#include <string.h>

enum { NEW = 0x6e616e64, ERASED = 0, HELD = 1, TORN = 2, SPARE = MINTLINTEL_STAMP_BYTES };
/* What a command takes, in microseconds: as a part of SLC NAND. */
enum { READ_TIME = 25, PROGRAM_TIME = 200, ERASE_TIME = 2000 };

/* The chip and what belongs to it outlive a reset: the memory that the start doesn't clear. */
static struct {
    uint32_t is_new;
    uint64_t chance;
    uint32_t to_cut;
    struct chip_counts counts;
    uint16_t next[BLOCKS];
    uint8_t kind[BLOCKS * PAGES], main[BLOCKS * PAGES][PAGE_BYTES], spare[BLOCKS * PAGES][SPARE];
} chip OUTLIVES_RESET;

struct controller controller;
static int is_cut; /* the power goes inside the command that is under way */

void controller_begin(void)
{
    if (chip.is_new == NEW)
        return;
    memset(&chip, 0, sizeof chip);
    chip.is_new = NEW;
    chip.chance = 0x9e3779b97f4a7c15u;
}

uint32_t any(uint32_t below)
{
    chip.chance ^= chip.chance << 13;
    chip.chance ^= chip.chance >> 7;
    chip.chance ^= chip.chance << 17;
    return (uint32_t)(chip.chance >> 32) % below;
}

void controller_cut(uint32_t commands)
{
    chip.to_cut = commands;
}

const struct chip_counts *controller_counts(void)
{
    return &chip.counts;
}

void controller_start(void)
{
    uint32_t time = controller.command == READ ? READ_TIME : controller.command == PROGRAM ? PROGRAM_TIME : ERASE_TIME;
    controller.status = BUSY;
    is_cut = controller.command != READ && chip.to_cut && --chip.to_cut == 0;
    board_interrupt_after(is_cut ? 1 + any(time) : time);
}

static uint32_t read_page(uint32_t at)
{
    chip.counts.reads++;
    if (chip.kind[at] != HELD)
        return chip.kind[at] == TORN ? PAGE_TORN : PAGE_ERASED;
    if (controller.main)
        memcpy(controller.main, chip.main[at], PAGE_BYTES);
    memcpy(controller.spare, chip.spare[at], SPARE);
    return DONE;
}

/* A program that was cut has left nothing, a torn page or the whole page. */
static void program_page(uint32_t at)
{
    uint32_t left = is_cut ? any(3) : 2;
    chip.counts.wrong += chip.kind[at] != ERASED || controller.page < chip.next[controller.block];
    chip.counts.torn += left == 1;
    if (left == 0)
        return;
    chip.next[controller.block] = (uint16_t)(controller.page + 1);
    chip.counts.programs++;
    memcpy(chip.main[at], controller.main, PAGE_BYTES);
    memcpy(chip.spare[at], controller.spare, SPARE);
    chip.kind[at] = left == 1 ? TORN : HELD;
}

/* An erase that was cut has erased some of the pages, and torn others. */
static void erase_block(uint32_t first)
{
    for (uint32_t page = 0; page < PAGES; page++)
        if (!is_cut || any(2)) {
            chip.kind[first + page] = is_cut && any(4) == 0 ? TORN : ERASED;
            chip.counts.torn += chip.kind[first + page] == TORN;
        }
    chip.next[controller.block] = is_cut ? chip.next[controller.block] : 0;
    chip.counts.erases++;
}

void controller_interrupt(void)
{
    uint32_t at = controller.block * PAGES + controller.page, status = DONE;
    chip.counts.interrupts++;
    if (controller.command == READ)
        status = read_page(at);
    else if (controller.command == PROGRAM)
        program_page(at);
    else
        erase_block(controller.block * PAGES);
    if (is_cut) {
        chip.counts.cuts++;
        chip.counts.cut_programs += controller.command == PROGRAM;
        chip.counts.cut_erases += controller.command == ERASE;
        board_reset();
    }
    controller.status = status;
}
