/* Compiled with RUNS, the layer copies live pages that stand side by side in one move. */
#include "plain.h"

#include <stdlib.h>
#include <string.h>

enum { NO_PAGE = -1, NO_BLOCK = -1 };

struct plain {
    uint32_t blocks, pages, sectors, endurance;
    size_t page_bytes;
    uint8_t *data;             /* of all pages, one after the other */
    int32_t *stamps, *map;     /* the sector of each page, and the page of each sector or NO_PAGE */
    uint32_t *live, *written, *erases;
    int32_t open, spare;       /* blocks, or NO_BLOCK */
    uint32_t unused;           /* the lowest block that was never opened; the last block is the spare at first */
    uint64_t counts[3];
};

struct plain *plain_open(uint32_t blocks, uint32_t pages, uint32_t words, uint32_t sectors, uint32_t endurance)
{
    struct plain *layer = calloc(1, sizeof *layer);
    size_t all = (size_t)blocks * pages;
    *layer = (struct plain){.blocks = blocks, .pages = pages, .sectors = sectors, .endurance = endurance, .page_bytes = 8 * (size_t)words};
    layer->data = calloc(all, layer->page_bytes);
    layer->stamps = calloc(all, sizeof *layer->stamps);
    layer->map = malloc(sectors * sizeof *layer->map);
    memset(layer->map, 0xff, sectors * sizeof *layer->map);
    layer->live = calloc(blocks, sizeof *layer->live);
    layer->written = calloc(blocks, sizeof *layer->written);
    layer->erases = calloc(blocks, sizeof *layer->erases);
    layer->open = NO_BLOCK;
    layer->spare = (int32_t)blocks - 1;
    return layer;
}

void plain_close(struct plain *layer)
{
    free(layer->data);
    free(layer->stamps);
    free(layer->map);
    free(layer->live);
    free(layer->written);
    free(layer->erases);
    free(layer);
}

uint32_t plain_read(struct plain *layer, uint32_t sector, uint8_t *out)
{
    int32_t page = layer->map[sector];
    if (page == NO_PAGE)
        return PLAIN_EMPTY;
    memcpy(out, layer->data + (size_t)page * layer->page_bytes, layer->page_bytes);
    return PLAIN_WRITTEN;
}

/* The block with the fewest live pages, the lowest on a tie, but not the spare. */
static uint32_t victim_of(const struct plain *layer)
{
    uint32_t victim = 0, least = layer->pages + 1;
    for (uint32_t block = 0; block < layer->blocks; block++)
        if ((int32_t)block != layer->spare && layer->live[block] < least) {
            least = layer->live[block];
            victim = block;
        }
    return victim;
}

static int is_live(const struct plain *layer, size_t page)
{
    return layer->map[layer->stamps[page]] == (int32_t)page;
}

/* Copies so many pages, all live. */
static void move(struct plain *layer, size_t to, size_t from, size_t count)
{
    memcpy(layer->data + to * layer->page_bytes, layer->data + from * layer->page_bytes, count * layer->page_bytes);
    memcpy(layer->stamps + to, layer->stamps + from, count * sizeof *layer->stamps);
    for (size_t i = 0; i < count; i++)
        layer->map[layer->stamps[to + i]] = (int32_t)(to + i);
}

/* Copies the live pages of the victim into the spare, which is open then, and erases the victim, which is the spare then. */
static void collect(struct plain *layer)
{
    uint32_t victim = victim_of(layer), spare = (uint32_t)layer->spare;
    size_t first = (size_t)victim * layer->pages, end = first + layer->written[victim], to = (size_t)spare * layer->pages;
    for (size_t page = first; page < end;) {
        size_t count = 0;
        while (page + count < end && is_live(layer, page + count)) {
            count++;
#ifndef RUNS
            break;
#endif
        }
        if (count > 0)
            move(layer, to, page, count);
        to += count;
        page += count > 0 ? count : 1;
    }
    uint32_t copies = (uint32_t)(to - (size_t)spare * layer->pages);
    layer->live[spare] = layer->written[spare] = copies;
    layer->live[victim] = layer->written[victim] = 0;
    layer->counts[1] += copies;
    layer->counts[2]++;
    layer->open = (int32_t)spare;
    layer->spare = ++layer->erases[victim] == layer->endurance ? NO_BLOCK : (int32_t)victim;
}

uint32_t plain_write(struct plain *layer, uint32_t sector, const uint8_t *page)
{
    if (layer->open == NO_BLOCK && layer->unused + 1 < layer->blocks)
        layer->open = (int32_t)layer->unused++;
    else if (layer->open == NO_BLOCK && layer->spare != NO_BLOCK)
        collect(layer);
    if (layer->open == NO_BLOCK)
        return PLAIN_WORN_OUT;
    uint32_t block = (uint32_t)layer->open;
    size_t at = (size_t)block * layer->pages + layer->written[block]++;
    int32_t was = layer->map[sector];
    memcpy(layer->data + at * layer->page_bytes, page, layer->page_bytes);
    layer->stamps[at] = (int32_t)sector;
    layer->map[sector] = (int32_t)at;
    if (was != NO_PAGE)
        layer->live[(uint32_t)was / layer->pages]--;
    layer->live[block]++;
    layer->counts[0]++;
    if (layer->written[block] == layer->pages)
        layer->open = NO_BLOCK;
    return was != NO_PAGE;
}

uint32_t plain_block_of(const struct plain *layer, uint32_t sector)
{
    return (uint32_t)layer->map[sector] / layer->pages;
}

void plain_counts(const struct plain *layer, uint64_t counts[3])
{
    memcpy(counts, layer->counts, sizeof layer->counts);
}
