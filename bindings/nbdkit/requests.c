// The requests, page by page. A page that is changed, also a whole one, is changed under its sector's lock: otherwise a part's old bytes could
// overwrite a whole page that was answered in between. A request waits for no lock while it has a handle; it keeps one from page to page, as long
// as nobody waits for it.
#define NBDKIT_API_VERSION 2
#include <errno.h>
#include <inttypes.h>
#include <nbdkit-plugin.h>
#include <string.h>
#include <time.h>

#include "device.h"
#include "pieces.h"

// A long read lets others have its handle after this many pages.
enum { PAGES_OF_A_TURN = 16 };

// After so long without a refusal the next one is reported.
enum { QUIET_MS = 1000 };

static struct range range_of(const struct device *device, uint32_t count, uint64_t offset) {
    return (struct range){.offset = offset, .count = count, .page = device->options.page};
}

static int fail(const char *call, uint32_t code) {
    nbdkit_error("%s: %s (%" PRIu32 ")", call, mintlintel_code_name(code), code);
    nbdkit_set_error(EIO);
    return -1;
}

static uint64_t milliseconds(void) {
    struct timespec time;
    clock_gettime(CLOCK_MONOTONIC, &time);
    return (uint64_t) time.tv_sec * 1000 + (uint64_t) time.tv_nsec / 1000000;
}

// No block is free, and none became free in time. It is reported once, since a client may repeat the request many times, and again after the
// device was usable for a while.
static int fail_full(struct device *device) {
    uint64_t now = milliseconds(), before = atomic_exchange(&device->refused_at, now);
    int was_usable = atomic_exchange(&device->has_stored, 0);
    if (device->options.worn == WORN_READONLY)
        atomic_store(&device->is_readonly, 1);
    if (before == 0 || (was_usable && now - before > QUIET_MS))
        nbdkit_error("no block is free, and the brooms can reclaim none: the device is full or worn out (reported once, until it was usable again)");
    nbdkit_set_error(options_worn_error(&device->options));
    return -1;
}

static void note_stored(struct device *device) {
    if (atomic_load_explicit(&device->refused_at, memory_order_relaxed) != 0 && !atomic_load_explicit(&device->has_stored, memory_order_relaxed))
        atomic_store(&device->has_stored, 1);
}

// Whether nothing may be changed any more: then an error is set.
static int is_readonly(struct device *device) {
    if (!atomic_load_explicit(&device->is_readonly, memory_order_relaxed))
        return 0;
    nbdkit_set_error(EROFS);
    return 1;
}

// ---- The time that commands take.

// When commands end: those of a page, which come one after the other, and the last of a request.
struct times {
    uint64_t page, request;
};

static void note_end(struct times *times, uint64_t end) {
    times->page = end;
    times->request = times->request > end ? times->request : end;
}

// Reads a sector, and takes the time of it.
static uint32_t read_in_time(struct device *device, struct host *host, uint32_t sector, uint8_t *page, struct times *times) {
    uint32_t block = block_of(host->seat, sector, page, device->options.page);
    if (block == NO_BLOCK)
        return MINTLINTEL_EMPTY;
    note_end(times, luns_read(&device->luns, block, times->page));
    return MINTLINTEL_WRITTEN;
}

// Takes the time of the program with which a sector was written.
static void take_program(struct device *device, struct host *host, uint32_t sector, struct times *times) {
    uint32_t block = device->luns.is_timed ? block_of(host->seat, sector, NULL, 0) : NO_BLOCK;
    if (block != NO_BLOCK)
        note_end(times, luns_program(&device->luns, block, times->page));
}

// ---- Pages.

// A sector's page, with zeros if it is empty. `is_empty` is set too, or -1 is returned with an error set and reported.
static int load(struct device *device, struct host *host, uint32_t sector, uint8_t *page, int *is_empty, struct times *times) {
    if (unreadable_has(&device->unreadable, sector))
        return -1;
    uint32_t code = device->luns.is_timed ? read_in_time(device, host, sector, page, times)
                                          : mintlintel_host_read(announced(host->seat), sector, page, device->options.page);
    tally_add(&host->reads, 1);
    *is_empty = code == MINTLINTEL_EMPTY;
    if (*is_empty)
        memset(page, 0, device->options.page);
    return code <= MINTLINTEL_WRITTEN ? 0 : fail("read", code);
}

static int read_piece(struct device *device, struct host *host, const struct piece *piece, uint8_t *to, struct times *times) {
    int is_empty;
    times->page = 0;
    if (piece->is_whole)
        return load(device, host, piece->sector, to, &is_empty, times);
    uint8_t page[MAX_PAGE_BYTES];
    if (load(device, host, piece->sector, page, &is_empty, times) == -1)
        return -1;
    memcpy(to, page + piece->at, piece->count);
    return 0;
}

int device_read(struct device *device, uint8_t *to, uint32_t count, uint64_t offset) {
    struct range range = range_of(device, count, offset);
    struct piece piece;
    struct host *host = stock_take(&device->stock);
    struct times times = {0};
    int result = 0;
    for (uint32_t done = 1; result == 0 && next_piece(&range, &piece); done++) {
        result = read_piece(device, host, &piece, to, &times);
        to += piece.count;
        if (done % PAGES_OF_A_TURN == 0)
            host = stock_yield(&device->stock, host);
    }
    stock_give(&device->stock, host);
    luns_sleep(times.request);
    return result;
}

// Of a request: the number of the handle that its client's writes prefer, and the handle that it has kept from its last page, or NULL.
struct handles {
    uint32_t own;
    struct host *kept;
};

static struct handles handles_of(const struct device *device, uint32_t client) {
    return (struct handles){.own = client % device->options.hosts};
}

// Gives the handle back that a request has kept, if any.
static void give_kept(struct device *device, struct handles *handles) {
    if (handles->kept)
        stock_give_changed(&device->stock, handles->kept);
    handles->kept = NULL;
}

// Locks the next sector of a request. Who has a handle waits for nothing: so the lock is tried first, and if another request has it, the handle
// is given back.
static void lock_next(struct device *device, uint32_t sector, struct handles *handles) {
    if (handles->kept && try_lock_sector(&device->locks, sector))
        return;
    give_kept(device, handles);
    lock_sector(&device->locks, sector);
}

// Writes a page to a sector whose lock is held, with the handle that was kept for it, if any. It holds no handle while it waits for a block.
static int store(struct device *device, uint32_t sector, const uint8_t *page, struct handles *handles, struct times *times) {
    struct attempt attempt = {.own = handles->own};
    struct host *host = handles->kept ? stock_use_kept(&device->stock, handles->kept) : NULL;
    for (handles->kept = NULL;; host = NULL) {
        if (!host)
            host = stock_take_to_write(&device->stock, &attempt);
        if (!host)
            return fail_full(device);
        uint32_t code = mintlintel_host_write(announced(host->seat), sector, page, device->options.page);
        if (code <= MINTLINTEL_WRITTEN) {
            tally_add(&host->writes, 1);
            tally_add(&host->filled, code == MINTLINTEL_EMPTY);
            take_program(device, host, sector, times);
            unreadable_renew(&device->unreadable, sector);
            handles->kept = stock_keep_written(&device->stock, host, &attempt);
            note_stored(device);
            return 0;
        }
        tally_add(&host->refusals, 1);
        stock_give_refused(&device->stock, host, &attempt);
        if (code != MINTLINTEL_NO_BLOCK)
            return fail("write", code);
        if (attempt.is_last)
            return fail_full(device);
    }
}

// Puts bytes, or zeros if there are none, into a part of a sector whose lock is held. Zeros leave an empty sector empty if
// they may trim.
static int change(struct device *device, const struct piece *piece, const uint8_t *from, int may_trim, struct handles *handles, struct times *times) {
    uint8_t page[MAX_PAGE_BYTES];
    int is_empty;
    give_kept(device, handles);
    struct host *host = stock_take(&device->stock);
    int result = load(device, host, piece->sector, page, &is_empty, times);
    stock_give(&device->stock, host);
    if (result == -1 || (is_empty && !from && may_trim))
        return result;
    if (from)
        memcpy(page + piece->at, from, piece->count);
    else
        memset(page + piece->at, 0, piece->count);
    return store(device, piece->sector, page, handles, times);
}

int device_write(struct device *device, uint32_t client, const uint8_t *from, uint32_t count, uint64_t offset) {
    struct range range = range_of(device, count, offset);
    struct piece piece;
    struct handles handles = handles_of(device, client);
    struct times times = {0};
    int result = is_readonly(device) ? -1 : 0;
    while (result == 0 && next_piece(&range, &piece)) {
        lock_next(device, piece.sector, &handles);
        times.page = 0;
        result = piece.is_whole ? store(device, piece.sector, from, &handles, &times) : change(device, &piece, from, 0, &handles, &times);
        unlock_sector(&device->locks, piece.sector);
        from += piece.count;
    }
    give_kept(device, &handles);
    luns_sleep(times.request);
    return result;
}

// Empties a sector whose lock is held.
static int drop(struct device *device, uint32_t sector, struct handles *handles) {
    struct host *host = handles->kept ? handles->kept : stock_take(&device->stock);
    uint32_t code = mintlintel_host_trim(announced(host->seat), sector);
    tally_add(&host->trims, 1);
    tally_add(&host->emptied, code == MINTLINTEL_WRITTEN);
    unreadable_renew(&device->unreadable, sector);
    handles->kept = stock_keep_changed(&device->stock, host);
    return code <= MINTLINTEL_WRITTEN ? 0 : fail("trim", code);
}

static int zero_piece(struct device *device, const struct piece *piece, int may_trim, struct handles *handles, struct times *times) {
    static const uint8_t zeros[MAX_PAGE_BYTES];
    if (!piece->is_whole)
        return change(device, piece, NULL, may_trim, handles, times);
    return may_trim ? drop(device, piece->sector, handles) : store(device, piece->sector, zeros, handles, times);
}

int device_zero(struct device *device, uint32_t client, uint32_t count, uint64_t offset, int may_trim) {
    struct range range = range_of(device, count, offset);
    struct piece piece;
    struct handles handles = handles_of(device, client);
    struct times times = {0};
    int result = is_readonly(device) ? -1 : 0;
    while (result == 0 && next_piece(&range, &piece)) {
        lock_next(device, piece.sector, &handles);
        times.page = 0;
        result = zero_piece(device, &piece, may_trim, &handles, &times);
        unlock_sector(&device->locks, piece.sector);
    }
    give_kept(device, &handles);
    luns_sleep(times.request);
    return result;
}

// A trim drops the pages that it covers as a whole. So it programs none, and needs no block.
int device_trim(struct device *device, uint32_t count, uint64_t offset) {
    struct sectors sectors = whole_sectors(count, offset, device->options.page);
    struct handles handles = {0};
    int result = is_readonly(device) ? -1 : 0;
    for (uint64_t sector = sectors.first; result == 0 && sector < sectors.end; sector++) {
        lock_next(device, (uint32_t) sector, &handles);
        result = drop(device, (uint32_t) sector, &handles);
        unlock_sector(&device->locks, (uint32_t) sector);
    }
    give_kept(device, &handles);
    return result;
}

int device_is_empty(struct host *host, uint32_t sector) {
    uint32_t code = mintlintel_host_look(announced(host->seat), sector);
    return code <= MINTLINTEL_WRITTEN ? code == MINTLINTEL_EMPTY : fail("look", code);
}
