// What the tests of the stock share: a stock over no library, and steps on it.
#ifndef TESTS_OVER_STOCK_H
#define TESTS_OVER_STOCK_H

#define NBDKIT_API_VERSION 2
#include <nbdkit-plugin.h>
#include <stdarg.h>
#include <stdio.h>
#include <stdlib.h>
#include <string.h>
#include <unistd.h>

#include "../brooms.h"

static int failures;
static struct mintlintel_seat host_seats[4];
static struct stock stock;

static inline void want(int is_so, const char *text) {
    if (is_so)
        return;
    failures++;
    printf("%s\n", text);
    fflush(stdout); // the test may be ended
}

void nbdkit_error(const char *form, ...) {
    va_list words;
    va_start(words, form);
    vprintf(form, words);
    va_end(words);
    printf("\n");
}

static inline struct options numbers(uint32_t hosts, uint32_t brooms, uint32_t blocks, uint32_t mark) {
    return (struct options){
        .hosts = hosts, .brooms = brooms, .blocks = blocks, .pages = 2, .low = mark, .high = mark, .wait = 1000};
}

static inline void begin(uint32_t hosts, uint32_t brooms, uint32_t blocks, uint32_t mark) {
    struct options options = numbers(hosts, brooms, blocks, mark);
    if (stock_begin(&stock, &options, host_seats) == -1)
        abort();
}

static inline double seconds(void) {
    struct timespec time;
    clock_gettime(CLOCK_MONOTONIC, &time);
    return (double) time.tv_sec + (double) time.tv_nsec / 1e9;
}

// A write for which the library has a page.
static inline struct attempt write_page(void) {
    struct attempt attempt = {0};
    struct host *host = stock_take_to_write(&stock, &attempt);
    if (host)
        stock_give_written(&stock, host, &attempt);
    return attempt;
}

static inline void find_nothing(uint32_t broom) {
    stock_end_round(&stock, broom, stock.changes, 1, 0);
}

// Each free block is written full, and no broom finds anything.
static inline void fill(void) {
    while (stock.free_count > 0 || stock.open_count > 0)
        write_page();
    find_nothing(0);
}

#endif
