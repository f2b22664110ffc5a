/* What power cuts and wear leave on flash, made by a second handle of the device. The checks use it; a driver doesn't. */
#ifndef HURT_H
#define HURT_H

#include "flash.h"

/* What a cut leaves of a program: nothing, the whole page, or one of the torn pages. */
enum { CUT_NOTHING, CUT_WHOLE, CUT_FIRST_TORN, PROGRAM_CUTS = 8, ERASE_CUTS = 4 };

/* 0, or -1 and errno. */
int hurt_open(const struct flash *flash, const char *path, enum flash_place place);

/* Leaves what a cut of this program leaves, by `how` below PROGRAM_CUTS. */
void hurt_program(uint32_t block, uint32_t page, const void *main, const void *stamp, unsigned how);

/* Leaves what a cut of this erase leaves: nothing done, all done, or some pages in part. */
void hurt_erase(uint32_t block, unsigned how);

/* How many pages of a block the flash itself doesn't show as erased. */
uint32_t hurt_held(uint32_t block);

/* How many wrong bits the ECC mends in a step, or 0 if there is no ECC that the caller may see. */
int hurt_mended(void);

/* Flips so many bits of the first page of a block, in one step of its ECC; the block has no other page. */
void hurt_flip(uint32_t block, int bits);

#endif
