// The library as the plugin sees it: its header, and the rule that a seat is used by one thread at a time.
#ifndef NBDKIT_LIBRARY_H
#define NBDKIT_LIBRARY_H

#include <mintlintel.h>

// A seat that is about to be used. ThreadSanitizer doesn't see what the library does with it, so it is announced as written:
// two threads in one seat are then reported.
#ifdef __SANITIZE_THREAD__
void __tsan_write_range(void *begin, long bytes);
static inline struct mintlintel_seat *announced(struct mintlintel_seat *seat) {
    __tsan_write_range(seat, sizeof *seat);
    return seat;
}
#else
static inline struct mintlintel_seat *announced(struct mintlintel_seat *seat) {
    return seat;
}
#endif

enum { NO_BLOCK = UINT32_MAX };

// The block that has a sector's page, or NO_BLOCK if it has none. The page is held for a moment by a host's seat, and copied if there is a place for it.
static inline uint32_t block_of(struct mintlintel_seat *host, uint32_t sector, uint8_t *page, size_t bytes) {
    struct mintlintel_page held = {.block = NO_BLOCK};
    if (mintlintel_host_hold(announced(host), sector) != MINTLINTEL_WRITTEN)
        return NO_BLOCK;
    mintlintel_host_held(announced(host), &held);
    if (page)
        mintlintel_host_copy(announced(host), page, bytes);
    mintlintel_host_release(announced(host));
    return held.block;
}

#endif
