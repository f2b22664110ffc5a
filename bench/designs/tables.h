/* A page-mapped layer in plain C that threads share, with locks round its tables alone. */
#ifndef TABLES_H
#define TABLES_H

#include <stdint.h>

struct geometry;
struct tables;

/* So many locks: sector s of the map is behind lock s % stripes. */
struct tables *tables_open(const struct geometry *geometry, uint32_t stripes);
void tables_close(struct tables *tables);

/* The library's codes. A write waits until a block is free. */
uint32_t tables_read(struct tables *tables, uint32_t sector, uint8_t *out);
uint32_t tables_write(struct tables *tables, uint32_t host, uint32_t sector, const uint8_t *page);

/* Collects if few blocks are free: whether there was nothing to do. */
int tables_collect(struct tables *tables, uint32_t collector);

/* The pages copied so far, and the blocks that they were in. */
void tables_moved(struct tables *tables, uint64_t moved[2]);

#endif
