#define _GNU_SOURCE
#define NBDKIT_API_VERSION 2
#include "image_disk.h"

#include <errno.h>
#include <inttypes.h>
#include <nbdkit-plugin.h>
#include <sched.h>
#include <stdatomic.h>
#include <stdlib.h>
#include <string.h>

#include <crc.h>
#include <flash.h>

#include "luns.h"
#include "pieces.h"
#include "power.h"

// Who has the lock lets others have it after so many sectors of a trim.
enum { SECTORS_OF_A_TURN = 4096 };
// How often a write that waits for the lock lets others run before it sleeps.
enum { YIELDS = 4 };

// ---- Opening and closing.

static void tell_other_numbers(const struct options *options) {
    struct mintlintel_image_head head;
    mintlintel_image_look(options->image, &head);
    const struct mintlintel_durable_numbers *has = &head.numbers;
    const char *told = options->is_unfinished ? "the disk was never finished, so give the numbers that it was begun with, or remove its layers"
                       : options->layers > 1  ? "give the disk's numbers, or none of them"
                                              : "give these numbers, or none of them";
    nbdkit_error("image=%s has %" PRIu32 " sectors and %" PRIu32 " blocks of %" PRIu32 " pages of %" PRIu32 " bytes on %" PRIu32
                 " LUNs, and not %" PRIu32 " and %" PRIu32 " of %" PRIu32 " of %" PRIu32 " on %" PRIu32 ": %s",
                 options->image, has->sectors, has->blocks, has->pages, has->page_bytes, has->luns, options->sectors, options->blocks, options->pages,
                 options->page, options->luns, told);
}

static void tell_refusal(const struct options *options, uint32_t code, int error) {
    if (code == MINTLINTEL_OTHER_NUMBERS)
        tell_other_numbers(options);
    else if (code == MINTLINTEL_NO_FILE || code == MINTLINTEL_FILE_FAILED)
        nbdkit_error("image=%s: %s", options->image, strerror(error));
    else
        nbdkit_error("image=%s: %s (%" PRIu32 ")", options->image, mintlintel_durable_code_name(code), code);
}

static void tell_worn(void) {
    nbdkit_error("too few blocks are good: the disk can be read, and not be changed any more");
}

// Without numbers the image says what they are, or a new one has the defaults.
static uint32_t open_image(struct image_disk *disk) {
    const struct options *options = disk->options;
    enum mintlintel_image_mode mode = options->sync;
    struct mintlintel_durable_numbers numbers = {0};
    if (!options->has_numbers) {
        uint32_t code = mtl_image_open(&disk->image, options->image, mode, &numbers, NULL);
        if (code != MINTLINTEL_NO_FILE || errno != ENOENT)
            return code;
    }
    numbers = (struct mintlintel_durable_numbers){options->luns, options->blocks, options->pages, options->page, options->sectors};
    return mtl_image_open(&disk->image, options->image, mode, &numbers, NULL);
}

// Who waits for the lock spins a little first, since it is mostly held for less than a sleep takes.
static void make_mutex(pthread_mutex_t *mutex) {
    pthread_mutexattr_t kind;
    pthread_mutexattr_init(&kind);
    pthread_mutexattr_settype(&kind, PTHREAD_MUTEX_ADAPTIVE_NP);
    pthread_mutex_init(mutex, &kind);
    pthread_mutexattr_destroy(&kind);
}

int image_disk_open(struct image_disk *disk, struct options *options) {
    struct mintlintel_durable_numbers numbers;
    disk->options = options;
    if (chip_begin(&disk->chip, options) == -1)
        return -1;
    errno = 0;
    uint32_t code = open_image(disk);
    if (code != MINTLINTEL_DONE) {
        tell_refusal(options, code, errno);
        return -1;
    }
    make_mutex(&disk->order);
    make_mutex(&disk->mutex);
    mintlintel_durable_numbers(&disk->image.device, &numbers);
    options->luns = numbers.luns;
    options->blocks = numbers.blocks;
    options->pages = numbers.pages;
    options->page = numbers.page_bytes;
    options->sectors = numbers.sectors;
    disk->is_worn = chip_is_worn(&disk->chip);
    if (disk->is_worn)
        tell_worn();
    if (options->page <= MAX_PAGE_BYTES)
        return unreadable_begin(&disk->unreadable, &options->unreadable, options->sectors);
    nbdkit_error("image=%s has pages of %" PRIu32 " bytes, and the plugin takes at most %d", options->image, options->page, MAX_PAGE_BYTES);
    return -1;
}

// Whether reads have to be in order with all else: commands take time, or pages can't be read.
static int reads_in_turn(const struct image_disk *disk) {
    return disk->options->part.read > 0 || disk->unreadable.words;
}

// Opens the readers that are taken, as far as the device has some, and gives them back.
static void open_readers(struct image_disk *disk) {
    for (uint32_t i = 0; i < MOST_READERS; i++) {
        if (!reads_in_turn(disk))
            mintlintel_reader_open(&disk->readers[i].reader, &disk->image.device);
        atomic_store(&disk->readers[i].is_taken, 0);
    }
}

// Closes them, once none of them reads.
static void close_readers(struct image_disk *disk) {
    for (uint32_t i = 0; i < MOST_READERS; i++) {
        while (atomic_exchange(&disk->readers[i].is_taken, 1))
            sched_yield();
        mintlintel_reader_close(&disk->readers[i].reader);
    }
}

// nbdkit has become its own child by now, if it is in the background.
void image_disk_start(struct image_disk *disk) {
    mtl_image_take_over(&disk->image);
    open_readers(disk);
    chip_start(&disk->chip);
}

static void close_image(struct image_disk *disk) {
    close_readers(disk);
    if (mintlintel_image_close(&disk->image) != MINTLINTEL_DONE)
        nbdkit_error("image=%s wasn't closed well: %s", disk->options->image, strerror(errno));
    pthread_mutex_destroy(&disk->mutex);
    pthread_mutex_destroy(&disk->order);
}

void image_disk_close(struct image_disk *disk) {
    if (disk->image.file)
        close_image(disk);
    unreadable_end(&disk->unreadable);
    chip_end(&disk->chip);
}

// ---- The requests. The locks are held by all functions whose names don't begin with image_disk.

// What failed is told once, since the layer refuses each call after it.
static int fail(struct image_disk *disk, const char *call, uint32_t code) {
    int error = mintlintel_image_errno(&disk->image);
    if (!disk->has_failed)
        nbdkit_error("%s: %s (%" PRIu32 ")%s%s: start the server again", call, mintlintel_durable_code_name(code), code, error ? ": " : "",
                     error ? strerror(error) : "");
    disk->has_failed = 1;
    nbdkit_set_error(error == ENOSPC ? ENOSPC : EIO);
    return -1;
}

// The same of a write that couldn't be done, without the lock.
static int fail_commit(struct image_disk *disk, uint32_t code) {
    pthread_mutex_lock(&disk->mutex);
    int result = fail(disk, "write", code);
    pthread_mutex_unlock(&disk->mutex);
    return result;
}

// Too few blocks are good for the sectors.
static int fail_worn(struct image_disk *disk) {
    if (!disk->is_worn)
        tell_worn();
    disk->is_worn = 1;
    chip_wear_out(&disk->chip);
    nbdkit_set_error(options_worn_error(disk->options));
    return -1;
}

// Whether a call that has returned this code can be made once more. The device is closed and opened for that, and its readers with it.
static int goes_on(struct image_disk *disk, uint32_t code) {
    if (code != MINTLINTEL_EXHAUSTED)
        return 0;
    close_readers(disk);
    int result = chip_mount_again(&disk->chip, &disk->image.device);
    open_readers(disk);
    return result;
}

// The result of a change that has returned this code.
static int changed(struct image_disk *disk, const char *call, uint32_t code) {
    if (code <= MINTLINTEL_WRITTEN)
        return 0;
    return code == MINTLINTEL_EXHAUSTED || chip_is_worn(&disk->chip) ? fail_worn(disk) : fail(disk, call, code);
}

// A request: when it began, when its commands are done, so far, and whether pages had to be copied for it, or a block erased.
struct request {
    uint64_t began, until;
    int collects;
};

static struct request begin_request(void) {
    uint64_t now = luns_now();
    return (struct request){.began = now, .until = now};
}

// Notes what a request, or a page of one, has done since chip_ask.
static void note(struct image_disk *disk, struct request *request) {
    uint64_t end = chip_done(&disk->chip);
    request->until = request->until > end ? request->until : end;
    disk->collecting += !request->collects && chip_has_collected(&disk->chip);
    request->collects |= chip_has_collected(&disk->chip);
}

// Waits, without the lock, until a request's commands are done.
static void end_request(struct image_disk *disk, const struct request *request) {
    luns_sleep(request->until);
    if (!request->collects)
        return;
    pthread_mutex_lock(&disk->mutex);
    disk->collecting--;
    waits_add(&disk->waited, luns_now() - request->began);
    pthread_mutex_unlock(&disk->mutex);
}

// A sector's page, with zeros if it is empty. `is_empty` is set too.
static int load(struct image_disk *disk, uint32_t sector, uint8_t *page, int *is_empty) {
    if (unreadable_has(&disk->unreadable, sector))
        return -1;
    uint32_t code = mintlintel_durable_read(&disk->image.device, sector, page, disk->options->page);
    disk->reads++;
    *is_empty = code == MINTLINTEL_EMPTY;
    if (*is_empty)
        memset(page, 0, disk->options->page);
    return code <= MINTLINTEL_WRITTEN ? 0 : fail(disk, "read", code);
}

static int store(struct image_disk *disk, uint32_t sector, const uint8_t *page) {
    if (disk->is_worn)
        return fail_worn(disk);
    uint32_t code;
    do
        code = mintlintel_durable_write(&disk->image.device, sector, page, disk->options->page);
    while (goes_on(disk, code));
    disk->writes += code <= MINTLINTEL_WRITTEN;
    if (code <= MINTLINTEL_WRITTEN)
        unreadable_renew(&disk->unreadable, sector);
    return changed(disk, "write", code);
}

static int load_piece(struct image_disk *disk, const struct piece *piece, uint8_t *to) {
    uint8_t page[MAX_PAGE_BYTES];
    int is_empty;
    if (piece->is_whole)
        return load(disk, piece->sector, to, &is_empty);
    if (load(disk, piece->sector, page, &is_empty) == -1)
        return -1;
    memcpy(to, page + piece->at, piece->count);
    return 0;
}

static int store_part(struct image_disk *disk, const struct piece *piece, const uint8_t *from) {
    uint8_t page[MAX_PAGE_BYTES];
    int is_empty;
    if (load(disk, piece->sector, page, &is_empty) == -1)
        return -1;
    memcpy(page + piece->at, from, piece->count);
    return store(disk, piece->sector, page);
}

static int trim_sectors(struct image_disk *disk, uint32_t first, uint32_t count) {
    if (disk->is_worn)
        return fail_worn(disk);
    uint32_t code;
    do
        code = mintlintel_durable_trim(&disk->image.device, first, count);
    while (goes_on(disk, code));
    disk->trims += count;
    for (uint32_t i = 0; code <= MINTLINTEL_WRITTEN && i < count; i++)
        unreadable_renew(&disk->unreadable, first + i);
    return changed(disk, "trim", code);
}

// ---- The locks. Requests that change anything and flushes are in order; reads come between, but for a flush's syncs, beside which they go on.

static void begin_change(struct image_disk *disk) {
    pthread_mutex_lock(&disk->order);
    pthread_mutex_lock(&disk->mutex);
}

static void end_change(struct image_disk *disk) {
    pthread_mutex_unlock(&disk->mutex);
    pthread_mutex_unlock(&disk->order);
}

// Lets others have the locks.
static void end_turn(struct image_disk *disk) {
    end_change(disk);
    begin_change(disk);
}

// ---- Reads without a lock, by readers. Each request takes one; while it has it, it waits for nobody.

// Reads whole pages, at most those of a turn: how many of them, from the first on. What is left has to be read under the lock.
static uint32_t read_beside(struct image_disk *disk, uint8_t *to, uint32_t sector, uint32_t count) {
    uint32_t i = 0;
    while (i < MOST_READERS && atomic_exchange(&disk->readers[i].is_taken, 1))
        i++;
    if (i == MOST_READERS)
        return 0;
    uint32_t done = mtl_reader_read_run(&disk->readers[i].reader, sector, count, to);
    atomic_store(&disk->readers[i].is_taken, 0);
    disk->reads += done;
    return done;
}

// Reads what comes next of a request as far as it can, whole pages or a part of one: 1 if it has read something.
static int read_ahead(struct image_disk *disk, uint8_t *to, struct range *range) {
    uint8_t page[MAX_PAGE_BYTES];
    uint32_t bytes = range->page, whole = range->offset % bytes == 0 ? range->count / bytes : 0, count = whole < PAGES_OF_A_TURN ? whole : PAGES_OF_A_TURN;
    struct range rest = *range;
    struct piece piece;
    if (reads_in_turn(disk))
        return 0;
    if (count > 0) {
        count = read_beside(disk, to, (uint32_t) (range->offset / bytes), count);
        range->offset += (uint64_t) count * bytes;
        range->count -= count * bytes;
        return count > 0;
    }
    if (!next_piece(&rest, &piece) || read_beside(disk, page, piece.sector, 1) == 0)
        return 0;
    memcpy(to, page + piece.at, piece.count);
    *range = rest;
    return 1;
}

// The next pages of a read.
static int read_turn(struct image_disk *disk, uint8_t *to, struct range *range, struct request *request) {
    struct piece piece;
    int result = 0;
    if (read_ahead(disk, to, range))
        return 0;
    pthread_mutex_lock(&disk->mutex);
    for (uint32_t done = 0; result == 0 && done < PAGES_OF_A_TURN && next_piece(range, &piece); done++) {
        chip_ask(&disk->chip, request->began);
        result = load_piece(disk, &piece, to);
        note(disk, request);
        to += piece.count;
    }
    pthread_mutex_unlock(&disk->mutex);
    return result;
}

int image_disk_read(struct image_disk *disk, uint8_t *to, uint32_t count, uint64_t offset) {
    struct range range = {.offset = offset, .count = count, .page = disk->options->page};
    struct request request = begin_request();
    int result = 0;
    while (result == 0 && range.count > 0)
        result = read_turn(disk, to + (count - range.count), &range, &request);
    end_request(disk, &request);
    return result;
}

// ---- Writes: the lock is held while the layer says what to do, and not while that is done.

// A part of a page.
static int write_part(struct image_disk *disk, const struct piece *piece, const uint8_t *from, struct request *request) {
    begin_change(disk);
    chip_ask(&disk->chip, request->began);
    int result = store_part(disk, piece, from);
    note(disk, request);
    end_change(disk);
    return result;
}

// The lock is mostly given back before a thread that sleeps would be awake again. Reads don't wait like this, so they come before writes.
static void begin_write(struct image_disk *disk) {
    for (int i = 0; i < YIELDS; i++) {
        if (pthread_mutex_trylock(&disk->order) == 0) {
            pthread_mutex_lock(&disk->mutex);
            return;
        }
        sched_yield();
    }
    begin_change(disk);
}

// Whole pages, at most those of a turn.
static int write_pages(struct image_disk *disk, const uint8_t *from, uint32_t sector, uint32_t count, struct request *request) {
    size_t page = disk->options->page;
    uint32_t checks[PAGES_OF_A_TURN];
    int result = 0;
    for (uint32_t i = 0; i < count; i++)
        checks[i] = mtl_crc(0, from + i * page, page);
    begin_write(disk);
    mtl_image_keep(&disk->image, from, checks, count);
    for (uint32_t i = 0; result == 0 && i < count; i++) {
        chip_ask(&disk->chip, request->began);
        result = store(disk, sector + i, from + i * page);
        note(disk, request);
    }
    uint64_t ticket = mtl_image_let_go(&disk->image);
    end_change(disk);
    uint32_t code = mtl_image_commit(&disk->image, ticket);
    announce_had_back();
    return result == 0 && code != MINTLINTEL_DONE ? fail_commit(disk, code) : result;
}

// What comes next of a write: whole pages, or a part of one.
static int write_turn(struct image_disk *disk, const uint8_t *from, struct range *range, struct request *request) {
    uint32_t page = range->page, whole = range->count / page, count = whole < PAGES_OF_A_TURN ? whole : PAGES_OF_A_TURN;
    uint32_t sector = (uint32_t) (range->offset / page);
    struct piece piece;
    if (range->offset % page != 0 || count == 0) {
        next_piece(range, &piece);
        return write_part(disk, &piece, from, request);
    }
    range->offset += (uint64_t) count * page;
    range->count -= count * page;
    return write_pages(disk, from, sector, count, request);
}

int image_disk_write(struct image_disk *disk, const uint8_t *from, uint32_t count, uint64_t offset) {
    struct range range = {.offset = offset, .count = count, .page = disk->options->page};
    struct request request = begin_request();
    int result = 0;
    while (result == 0 && range.count > 0)
        result = write_turn(disk, from + (count - range.count), &range, &request);
    end_request(disk, &request);
    return result;
}

int image_disk_trim(struct image_disk *disk, uint32_t count, uint64_t offset) {
    struct sectors sectors = whole_sectors(count, offset, disk->options->page);
    struct request request = begin_request();
    int result = 0;
    begin_change(disk);
    for (uint64_t sector = sectors.first; result == 0 && sector < sectors.end; sector += SECTORS_OF_A_TURN) {
        uint64_t left = sectors.end - sector;
        chip_ask(&disk->chip, request.began);
        result = trim_sectors(disk, (uint32_t) sector, left < SECTORS_OF_A_TURN ? (uint32_t) left : SECTORS_OF_A_TURN);
        note(disk, &request);
        end_turn(disk);
    }
    end_change(disk);
    end_request(disk, &request);
    return result;
}

// Zeros in a part of a page, or in a whole one. An empty sector stays empty if it may trim.
static int zero_piece(struct image_disk *disk, const struct piece *piece, int may_trim) {
    uint8_t page[MAX_PAGE_BYTES];
    int is_empty = 0;
    if (!piece->is_whole && load(disk, piece->sector, page, &is_empty) == -1)
        return -1;
    if (is_empty && may_trim)
        return 0;
    memset(page + piece->at, 0, piece->count);
    return store(disk, piece->sector, page);
}

int image_disk_zero(struct image_disk *disk, uint32_t count, uint64_t offset, int may_trim) {
    struct range range = {.offset = offset, .count = count, .page = disk->options->page};
    struct piece piece;
    if (may_trim && image_disk_trim(disk, count, offset) == -1)
        return -1;
    struct request request = begin_request();
    int result = 0;
    begin_change(disk);
    for (uint32_t done = 1; result == 0 && next_piece(&range, &piece); done++) {
        chip_ask(&disk->chip, request.began);
        if (!piece.is_whole || !may_trim)
            result = zero_piece(disk, &piece, may_trim);
        note(disk, &request);
        if (done % PAGES_OF_A_TURN == 0)
            end_turn(disk);
    }
    end_change(disk);
    end_request(disk, &request);
    return result;
}

// The syncs come first, without the lock of reads. Then the layer's flush has nothing left to sync, and takes note of a sync that failed.
int image_disk_flush(struct image_disk *disk) {
    pthread_mutex_lock(&disk->order);
    mtl_image_sync(&disk->image);
    pthread_mutex_lock(&disk->mutex);
    uint32_t code = mintlintel_durable_flush(&disk->image.device);
    disk->flushes++;
    int result = code == MINTLINTEL_DONE ? 0 : fail(disk, "flush", code);
    end_change(disk);
    return result;
}

// A sector of which no page tells is empty; another one may have been trimmed, which its page says.
int image_disk_is_empty(struct image_disk *disk, uint32_t sector) {
    struct mintlintel_place place;
    uint8_t page[MAX_PAGE_BYTES];
    int result;
    pthread_mutex_lock(&disk->mutex);
    chip_look(&disk->chip);
    uint32_t code = mintlintel_driver_page(&disk->image.device.core, sector, &place);
    if (code == MINTLINTEL_WRITTEN)
        code = mintlintel_durable_read(&disk->image.device, sector, page, disk->options->page);
    result = code <= MINTLINTEL_WRITTEN ? code == MINTLINTEL_EMPTY : fail(disk, "look", code);
    pthread_mutex_unlock(&disk->mutex);
    return result;
}
