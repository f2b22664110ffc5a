/* A page-mapped layer for one thread in plain C: the same array, the same choice of victims and the same order of copies as Mintlintel's layer for
 * one thread, so both make the same programs, copies and erases. */
#ifndef PLAIN_H
#define PLAIN_H

#include <stddef.h>
#include <stdint.h>

enum { PLAIN_EMPTY = 0, PLAIN_WRITTEN = 1, PLAIN_WORN_OUT = 5 };

struct plain;

struct plain *plain_open(uint32_t blocks, uint32_t pages, uint32_t words, uint32_t sectors, uint32_t endurance);
void plain_close(struct plain *layer);
uint32_t plain_read(struct plain *layer, uint32_t sector, uint8_t *out);
uint32_t plain_write(struct plain *layer, uint32_t sector, const uint8_t *page);

/* The block of a sector that is written, and the programs, copies and erases so far. */
uint32_t plain_block_of(const struct plain *layer, uint32_t sector);
void plain_counts(const struct plain *layer, uint64_t counts[3]);

#endif
