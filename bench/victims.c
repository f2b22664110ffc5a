/* The same in plain C: the device of victims_alone over blocks in doubly linked lists, one for each count of kept pages. */
#include <stdint.h>
#include <stdio.h>
#include <stdlib.h>

#define NONE UINT32_MAX

static uint32_t blocks, pages, sectors, *map, *sector_at, *next, *prev, *head, *erases, lowest;
static uint16_t *kept;
static uint8_t *excluded;
static uint32_t open_block = NONE, next_page = NONE, spares;
static uint64_t copies, erased, state = 1;

static uint64_t number(void) {
    uint64_t z = state += 0x9e3779b97f4a7c15;
    z = (z ^ (z >> 30)) * 0xbf58476d1ce4e5b9;
    z = (z ^ (z >> 27)) * 0x94d049bb133111eb;
    return z ^ (z >> 31);
}

static void unlink_block(uint32_t b) {
    uint32_t p = prev[b], n = next[b];
    if (p == NONE) head[kept[b]] = n; else next[p] = n;
    if (n != NONE) prev[n] = p;
    spares -= kept[b] == 0;
}

static void link_block(uint32_t b) {
    uint32_t n = head[kept[b]];
    next[b] = n;
    prev[b] = NONE;
    if (n != NONE) prev[n] = b;
    head[kept[b]] = b;
    if (kept[b] < lowest) lowest = kept[b];
    spares += kept[b] == 0;
}

static void change(uint32_t b, int by) {
    if (excluded[b]) { kept[b] += by; return; }
    unlink_block(b);
    kept[b] += by;
    link_block(b);
}

static uint32_t victim(void) {
    while (lowest <= pages && head[lowest] == NONE) lowest++;
    return lowest <= pages ? head[lowest] : NONE;
}

static void program(uint32_t s) {
    uint32_t page = open_block * pages + next_page;
    if (map[s] != NONE) change(map[s] / pages, -1);
    map[s] = page;
    sector_at[page] = s;
    change(open_block, 1);
    next_page++;
}

static void write_sector(uint32_t s) {
    if (next_page >= pages) {
        if (open_block != NONE) { excluded[open_block] = 0; link_block(open_block); }
        uint32_t spare = victim();
        if (spare == NONE || kept[spare]) exit(2);
        erases[spare]++;
        erased++;
        unlink_block(spare);
        excluded[spare] = 1;
        open_block = spare;
        next_page = 0;
        if (spares == 0) {
            uint32_t v = victim();
            for (uint32_t p = 0; p < pages; p++) {
                uint32_t page = v * pages + p, at = sector_at[page];
                if (at != NONE && map[at] == page) { program(at); copies++; }
            }
        }
    }
    program(s);
}

int main(int argc, char **argv) {
    if (argc < 5) return 1;
    blocks = atoi(argv[1]); pages = atoi(argv[2]); sectors = atoi(argv[3]);
    uint32_t count = atoi(argv[4]), b;
    map = malloc(4ul * sectors); sector_at = malloc(4ul * blocks * pages);
    next = malloc(4ul * blocks); prev = malloc(4ul * blocks); head = malloc(4ul * (pages + 1));
    erases = calloc(blocks, 4); kept = calloc(blocks, 2); excluded = calloc(blocks, 1);
    for (uint32_t i = 0; i < sectors; i++) map[i] = NONE;
    for (uint64_t i = 0; i < (uint64_t)blocks * pages; i++) sector_at[i] = NONE;
    for (uint32_t i = 0; i <= pages; i++) head[i] = NONE;
    for (b = 0; b < blocks; b++) link_block(b);
    for (uint32_t s = 0; s < sectors; s++) write_sector(s);
    for (uint32_t i = 0; i < count; i++) write_sector((number() >> 32) % sectors);
    uint32_t low = NONE, high = 0;
    for (b = 0; b < blocks; b++) { if (erases[b] < low) low = erases[b]; if (erases[b] > high) high = erases[b]; }
    printf("%lu %lu %u %u\n", copies, erased, low, high);
}
