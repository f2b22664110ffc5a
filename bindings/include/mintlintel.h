/* Mintlintel: a flash translation layer, proved up to these calls.
 *
 * There are two kinds of device. `struct mintlintel_one` is a device for one thread, which collects garbage inside a write.
 * `struct mintlintel_seat` is one place at a device that threads share: a host, which reads and writes, or a broom, which
 * drains and erases. docs/LINKING.md describes each call.
 *
 * What the caller has to ensure, and nothing checks:
 *  - A handle begins as all zero bytes, as with `= {0}`. After that only these calls write to it, and its bytes are never
 *    copied: a copy would be a second handle of the same memory. It may be moved as a whole, if the old place is not used again.
 *  - There is only one call at a time on a handle. A handle may pass from one thread to another if a lock, a join or a
 *    sequentially consistent atomic orders the two uses. Handles of one shared device may be used at the same time.
 *  - A pointer is not null, and what it points to exists for the whole call and doesn't change during it: a handle, a struct or a
 *    number of its type, and a buffer of as many bytes as its length says. A buffer of no bytes and an array of no handles also need a
 *    pointer that is not null. The memory of two arguments of one call does not overlap.
 *  - malloc, realloc and free belong to one allocator, which aligns a block to each power of two up to 16 that divides its size.
 *  - There is no call from a signal handler, or in the forked child of a process with threads.
 * A handle that is not closed keeps its memory.
 *
 * The calls of all hosts of a shared device are in one order, which has the calls of each handle in their order: they are sequentially
 * consistent, and not claimed to be linearizable.
 *
 * A call with any code except 0, 1, 23 and 26 has changed no sector, no page and no block, but mintlintel_collect, whose `did` says what it has
 * done with each code. 23 is an erase that is done. 20 to 22, 24 and 25 may have changed which blocks a broom has marked: see
 * mintlintel_broom_drain_next and mintlintel_broom_drain_dead.
 *
 * The calls at this header's end are plain C over the others, and not proved. */
#ifndef MINTLINTEL_H
#define MINTLINTEL_H

#include <stddef.h>
#include <stdint.h>

/* The version of this header: 0.1.0 is 1000, 1.2.3 would be 1002003. */
#define MINTLINTEL_VERSION "0.1.0"
#define MINTLINTEL_VERSION_MAJOR 0
#define MINTLINTEL_VERSION_MINOR 1
#define MINTLINTEL_VERSION_PATCH 0
#define MINTLINTEL_VERSION_NUMBER (1000000 * MINTLINTEL_VERSION_MAJOR + 1000 * MINTLINTEL_VERSION_MINOR + MINTLINTEL_VERSION_PATCH)

#ifdef __cplusplus
extern "C" {
#endif

/* What a call returns. */
enum mintlintel_code {
    MINTLINTEL_EMPTY = 0,           /* of a read, a look, a write, a trim or a hold: the sector was empty */
    MINTLINTEL_DONE = 0,            /* the call is done */
    MINTLINTEL_WRITTEN = 1,         /* the sector was written; of a hold or a copy: the page is held */
    MINTLINTEL_CLOSED = 2,          /* the handle is closed */
    MINTLINTEL_NO_SECTOR = 3,       /* the device has no such sector */
    MINTLINTEL_NOT_A_PAGE = 4,      /* the buffer is not as long as a page */
    MINTLINTEL_WORN_OUT = 5,        /* one thread: no page is left for a write, and none can be reclaimed; reads and trims still work */
    MINTLINTEL_NO_MEMORY = 6,       /* there is no memory for the device */
    MINTLINTEL_NO_BLOCK = 7,        /* shared: no block was free for a write; let a broom erase, pause, and try again a bounded number of times */
    MINTLINTEL_ALREADY_OPEN = 8,    /* the handle, or one of the handles, is open already */
    MINTLINTEL_WRONG_KIND = 9,      /* the handle is of another kind, such as a host where a broom is needed */
    MINTLINTEL_NO_SUCH_BLOCK = 10,  /* the device has no such block */
    MINTLINTEL_NO_SUCH_WORD = 10,   /* of mintlintel_host_word: a page has no such word */
    MINTLINTEL_NOTHING_TO_GAIN = 20, /* a drain, a collection: no block is closed, or the best one is all live, until hosts write or trim */
    MINTLINTEL_NO_SPARE = 21,       /* a drain: the broom has no block to copy to; a restock: no block is free; a collection: both */
    MINTLINTEL_LOST = 22,           /* a drain: the block's state changed since it was loaded; try again */
    MINTLINTEL_RETIRED = 23,        /* an erase: done, and it was the block's last */
    MINTLINTEL_PINNED = 24,         /* an erase, a collection: hosts read what is left to erase; try again later */
    MINTLINTEL_STALE = 25,          /* an erase: the block isn't drained; forget it */
    MINTLINTEL_KEPT = 26,           /* an erase: done, and the broom keeps the block as its spare */
    MINTLINTEL_EXHAUSTED = 27,      /* counts, a collection: no block is free, and none can become free while each closed one has a live page */
    MINTLINTEL_BAD_LUNS = 101,      /* luns: 1 to MAX_LUNS */
    MINTLINTEL_BAD_BLOCKS = 102,    /* blocks: MIN_BLOCKS to MAX_BLOCKS, and a multiple of luns */
    MINTLINTEL_BAD_PAGES = 103,     /* pages of a block: 1 to MAX_PAGES */
    MINTLINTEL_BAD_WORDS = 104,     /* words of a page: 1 to MAX_WORDS, of WORD_BYTES bytes each */
    MINTLINTEL_BAD_SECTORS = 105,   /* sectors: 1 to MAX_SECTORS */
    MINTLINTEL_BAD_ENDURANCE = 106, /* erases of a block: 1 to MAX_ENDURANCE */
    MINTLINTEL_BAD_SEATS = 107,     /* hosts: up to MAX_HOSTS; brooms: up to MAX_BROOMS, and none without a host */
    MINTLINTEL_TOO_MANY_WORDS = 108, /* sectors + blocks + blocks * pages * (words + 1): up to MAX_TABLE_WORDS */
    MINTLINTEL_TOO_FEW_BLOCKS = 109 /* the sectors leave no room to collect: more than mintlintel_most_sectors */
};

/* The limits of a device's numbers. */
enum mintlintel_limit {
    MINTLINTEL_MAX_LUNS = 8,
    MINTLINTEL_MIN_BLOCKS = 3,
    MINTLINTEL_MAX_BLOCKS = 4096,
    MINTLINTEL_MAX_PAGES = 16384,        /* of a block */
    MINTLINTEL_MAX_WORDS = 512,          /* of a page */
    MINTLINTEL_MAX_SECTORS = 1048576,
    MINTLINTEL_MAX_ENDURANCE = 1000000,  /* erases of a block */
    MINTLINTEL_MAX_HOSTS = 500,
    MINTLINTEL_MAX_BROOMS = 32,
    MINTLINTEL_MAX_TABLE_WORDS = 16777216, /* sectors + blocks + blocks * pages * (words + 1) */
    MINTLINTEL_WORD_BYTES = 8
};

/* A code's name, for messages. */
static inline const char *mintlintel_code_name(uint32_t code)
{
    switch (code) {
    case MINTLINTEL_DONE: return "done, or the sector was empty";
    case MINTLINTEL_WRITTEN: return "the sector was written";
    case MINTLINTEL_CLOSED: return "the handle is closed";
    case MINTLINTEL_NO_SECTOR: return "no such sector";
    case MINTLINTEL_NOT_A_PAGE: return "not a page";
    case MINTLINTEL_WORN_OUT: return "worn out";
    case MINTLINTEL_NO_MEMORY: return "out of memory";
    case MINTLINTEL_NO_BLOCK: return "no block is free";
    case MINTLINTEL_ALREADY_OPEN: return "already open";
    case MINTLINTEL_WRONG_KIND: return "wrong kind of handle";
    case MINTLINTEL_NO_SUCH_BLOCK: return "no such block or word";
    case MINTLINTEL_NOTHING_TO_GAIN: return "nothing to gain";
    case MINTLINTEL_NO_SPARE: return "no spare block";
    case MINTLINTEL_LOST: return "lost the block to another";
    case MINTLINTEL_RETIRED: return "erased and retired";
    case MINTLINTEL_PINNED: return "the block is being read";
    case MINTLINTEL_STALE: return "the block isn't drained";
    case MINTLINTEL_KEPT: return "erased and kept";
    case MINTLINTEL_EXHAUSTED: return "no block is free, and none can become free";
    case MINTLINTEL_BAD_LUNS: return "luns out of range";
    case MINTLINTEL_BAD_BLOCKS: return "blocks out of range";
    case MINTLINTEL_BAD_PAGES: return "pages out of range";
    case MINTLINTEL_BAD_WORDS: return "words out of range";
    case MINTLINTEL_BAD_SECTORS: return "sectors out of range";
    case MINTLINTEL_BAD_ENDURANCE: return "endurance out of range";
    case MINTLINTEL_BAD_SEATS: return "hosts or brooms out of range";
    case MINTLINTEL_TOO_MANY_WORDS: return "too many words";
    case MINTLINTEL_TOO_FEW_BLOCKS: return "too few blocks";
    default: return "no such code";
    }
}

/* The most sectors that these blocks have room for, or 0 if they are too few for any. A device for one thread has no hosts, and keeps a block
 * and a page to collect; a shared device keeps a block for each host and two for each broom. */
static inline uint64_t mintlintel_most_sectors(uint32_t blocks, uint32_t pages, uint32_t hosts, uint32_t brooms)
{
    uint64_t kept = hosts == 0 ? 1 : hosts + 2 * (uint64_t)brooms;
    uint64_t room = blocks > kept ? (blocks - kept) * pages : 0;
    return hosts == 0 && room > 0 ? room - 1 : room;
}

/* The numbers that a device was made with. A device for one thread has no hosts and no brooms. */
struct mintlintel_numbers { uint32_t luns, blocks, pages, words, sectors, endurance, hosts, brooms; };

/* ---- A device for one thread ---- */

/* A handle: `struct mintlintel_one device = {0};`. */
struct mintlintel_one { void *at; uint64_t is_open; };

/* Pages programmed for writes, pages relocated, and erase commands. */
struct mintlintel_totals { uint64_t programs, copies, erases; };

/* A block's erase commands, its live pages, and 1 if it is retired. */
struct mintlintel_block { uint32_t erases, live, retired; };

/* Opens a device with these numbers and every sector empty. 0, 6, 8, or the first fault of the numbers, 101 to 109; 8 comes before the
 * faults, and 6 after them. */
uint32_t mintlintel_one_open(struct mintlintel_one *handle, uint32_t luns, uint32_t blocks, uint32_t pages, uint32_t words,
                             uint32_t sectors, uint32_t endurance);

/* Closes the device and frees its memory. A closed handle stays closed. */
void mintlintel_one_close(struct mintlintel_one *handle);

/* Reads a sector into `out`, of 8 times words bytes: 1 with the page in `out`; 0 for an empty sector, and 2, 3 or 4, with `out` unchanged. */
uint32_t mintlintel_one_read(struct mintlintel_one *handle, uint32_t sector, uint8_t *out, size_t bytes);

/* Writes a page to a sector: 0 or 1 for what the sector was; 2, 3, 4 or 5. */
uint32_t mintlintel_one_write(struct mintlintel_one *handle, uint32_t sector, const uint8_t *bytes, size_t count);

/* Writes a page to a sector that is empty: 0 if it wrote, 1 if the sector was written and didn't change; 2, 3, 4 or 5. */
uint32_t mintlintel_one_write_new(struct mintlintel_one *handle, uint32_t sector, const uint8_t *bytes, size_t count);

/* Empties a sector: 0 or 1 for what it was; 2 or 3. */
uint32_t mintlintel_one_trim(struct mintlintel_one *handle, uint32_t sector);

/* The totals so far: 0; 2 leaves `totals` as it was. */
uint32_t mintlintel_one_counts(struct mintlintel_one *handle, struct mintlintel_totals *totals);

/* A block: 0; 2 or 10 leave `report` as it was. */
uint32_t mintlintel_one_block(struct mintlintel_one *handle, uint32_t block, struct mintlintel_block *report);

/* The device's numbers: 0; 2 leaves `numbers` as it was. */
uint32_t mintlintel_one_numbers(struct mintlintel_one *handle, struct mintlintel_numbers *numbers);

/* ---- A device that threads share ---- */

/* A handle of one seat: `struct mintlintel_seat hosts[4] = {{0}};`. An open seat is a host, a host that holds a page, or a broom;
 * a call for another kind returns 9 and changes nothing. */
struct mintlintel_seat { void *at; uint64_t is_open; };

/* A page that a host holds: its block, in this generation of the block. */
struct mintlintel_page { uint32_t block, generation; };

/* What a block is, from one erase to the next: free; open, while a host or a broom programs it or a broom keeps it as its spare; closed; then
 * a broom's victim, drained, and being erased. After its last erase it is retired for ever. */
enum mintlintel_phase {
    MINTLINTEL_PHASE_FREE = 0,
    MINTLINTEL_PHASE_OPEN = 1,
    MINTLINTEL_PHASE_CLOSED = 2,
    MINTLINTEL_PHASE_VICTIM = 3,
    MINTLINTEL_PHASE_DRAINED = 4,
    MINTLINTEL_PHASE_ERASING = 5,
    MINTLINTEL_PHASE_RETIRED = 6
};

/* A block: its phase, the hosts that read it now, the pages that are written since its last erase (of a retired block: before it), and its
 * erases. */
struct mintlintel_state { uint32_t phase, readers, written, erases; };

/* The erases of all blocks, how many blocks are in each phase, and 1 if the broom that counts has a spare. */
struct mintlintel_counts {
    uint64_t erases;
    uint32_t free, open, closed, victims, drained, erasing, retired, spares;
};

/* What a broom has done since its open: the pages that it programmed for copies; those of them that became their sectors' pages, as the others did
 * not whose sectors were written or trimmed meanwhile; and the blocks that it erased. */
struct mintlintel_tally { uint64_t programs, moved, erases; };

/* Opens a device with a seat for each of these handles, every sector empty: 0; 6, 8, or the first fault of the numbers, 101 to 109.
 * 107 if there is no host; 8 if a handle is open, before the faults; 6 after them. With any code but 0 all handles are as they were. */
uint32_t mintlintel_shared_open(struct mintlintel_seat *hosts, size_t host_count, struct mintlintel_seat *brooms, size_t broom_count,
                                uint32_t luns, uint32_t blocks, uint32_t pages, uint32_t words, uint32_t sectors, uint32_t endurance);

/* Closes the seat. The last close frees the device. A closed handle stays closed. */
void mintlintel_seat_close(struct mintlintel_seat *handle);

/* The device's numbers, of a seat of any kind: 0; 2 leaves `numbers` as it was. */
uint32_t mintlintel_seat_numbers(struct mintlintel_seat *handle, struct mintlintel_numbers *numbers);

/* Reads a sector into `out`: 1 with the page in `out`; 0 for an empty sector, and 2, 3, 4 or 9, with `out` as it was. */
uint32_t mintlintel_host_read(struct mintlintel_seat *handle, uint32_t sector, uint8_t *out, size_t bytes);

/* Writes a page to a sector: 0 or 1 for what the sector was; 2, 3, 4, 7 or 9. 7 says that each block was found taken, and not why: brooms may be
 * behind, the device may be full of live pages, or worn out. So bound the loop that tries again, and pause in it: hosts that try again at
 * once keep each other and the brooms from going on. mintlintel_write_within does both. */
uint32_t mintlintel_host_write(struct mintlintel_seat *handle, uint32_t sector, const uint8_t *bytes, size_t count);

/* Writes a page to a sector that is empty: 0 if it wrote, 1 if the sector was written and has stayed so, with a page of the device used up;
 * 2, 3, 4, 7 or 9. 7 comes before 1. */
uint32_t mintlintel_host_write_new(struct mintlintel_seat *handle, uint32_t sector, const uint8_t *bytes, size_t count);

/* Empties a sector: 0 or 1 for what it was; 2, 3 or 9. */
uint32_t mintlintel_host_trim(struct mintlintel_seat *handle, uint32_t sector);

/* Whether a sector is written, by one look at its entry in the map; no page is read: 0 empty, 1 written; 2, 3 or 9. */
uint32_t mintlintel_host_look(struct mintlintel_seat *handle, uint32_t sector);

/* Holds the page that has the sector's value: 1 if it is held from now on, up to the release; 0 if the sector is empty; 2, 3 or 9. The block of
 * a held page is not erased. For a host that holds, every call returns 9 except those of the next four lines, seat_numbers and seat_close. */
uint32_t mintlintel_host_hold(struct mintlintel_seat *handle, uint32_t sector);

/* The page that is held, into `out`: 1; 2, 4, or 9 if the handle holds none, with `out` as it was. */
uint32_t mintlintel_host_copy(struct mintlintel_seat *handle, uint8_t *out, size_t bytes);

/* Word i of the page that is held, its bytes 8 i to 8 i + 7 as a little-endian number: 0; 2, 9 or 10 leave `word` as it was. */
uint32_t mintlintel_host_word(struct mintlintel_seat *handle, uint32_t i, uint64_t *word);

/* The place of the page that is held: 0; with 2 or 9 `page` is unchanged. */
uint32_t mintlintel_host_held(struct mintlintel_seat *handle, struct mintlintel_page *page);

/* Gives the page up, and the handle is a host as before: 0; 2 or 9. */
uint32_t mintlintel_host_release(struct mintlintel_seat *handle);

/* Moves the live pages out of the closed block with the fewest: 0 with its number in `block` and how many pages moved in `moved`, and then the
 * block is to be erased; 2, 9, 20, 21 or 22, with both as they were. */
uint32_t mintlintel_broom_drain(struct mintlintel_seat *handle, uint32_t *block, uint32_t *moved);

/* Drains the next block by the survey that this broom's last drain made, without a new survey: of the blocks that were closed then, and that the
 * broom has neither drained nor found changed nor been asked to erase since, the one with the fewest live pages then. An erase takes the block's
 * mark away whatever it returns, also 24 and 25. The codes are those of a drain, with
 * `block` and `moved` as they were unless it returns 0: 20 if no such block is left (as before the broom's first drain) or it was all live. */
uint32_t mintlintel_broom_drain_next(struct mintlintel_seat *handle, uint32_t *block, uint32_t *moved);

/* Drains the closed block with the fewest live pages, by a new survey, if it has none: no page moves, so no spare is needed, and after a trim a
 * broom without one can go on. 0 with its number in `block` and 0 in `moved`; 2, 9, 20 as a drain, 21 if the block has a live page or isn't closed
 * any more, or 22, with both as they were. */
uint32_t mintlintel_broom_drain_dead(struct mintlintel_seat *handle, uint32_t *block, uint32_t *moved);

/* Erases a drained block: 0 if it is free, 26 if the broom keeps it as its spare, 23 if it was the block's last erase; 2, 9, 10, 24 or 25. */
uint32_t mintlintel_broom_erase(struct mintlintel_seat *handle, uint32_t block);

/* Makes a free block the spare of a broom that has none: 0 if the broom has a spare now; 2, 9, or 21 if it has none and no block is free. */
uint32_t mintlintel_broom_restock(struct mintlintel_seat *handle);

/* The state of a block, by one load: 0; 2, 9 or 10 leave `state` as it was. Other threads may change the block meanwhile. The broom keeps the
 * survey of its last drain; only a block whose state has changed since then may lose its mark. */
uint32_t mintlintel_broom_block(struct mintlintel_seat *handle, uint32_t block, struct mintlintel_state *state);

/* Counts the blocks by their phases: each block's state is loaded once, one after the other, while other threads go on. The broom keeps its
 * survey, as with mintlintel_broom_block. 0; 27 with the counts too, if no block is free and none can become free while each closed block has a
 * live page: the device has this broom alone, it has no spare, and no block is free, a victim, drained or being erased. 2 or 9 leave `counts`
 * as it was.
 * With several brooms it returns 0, since another one may have a spare. If each of them has counted, all without a spare, and the last one,
 * while the others made no call, has found no block that is free, a victim, drained or being erased, then it is the same. */
uint32_t mintlintel_broom_counts(struct mintlintel_seat *handle, struct mintlintel_counts *counts);

/* What the broom has done since its open: 0; 2 or 9 leave `tally` as it was. A device has programmed the pages of its brooms' tallies, and one page
 * for each write of a host that returned 0 or 1; it has made the erases of these tallies. */
uint32_t mintlintel_broom_tally(struct mintlintel_seat *handle, struct mintlintel_tally *tally);

/* ---- Plain C over the calls above, and not proved ---- */

/* The version of the library that is linked: MINTLINTEL_VERSION, and ", not proved" behind it if it was built without proof. */
const char *mintlintel_version(void);

/* Why an open of these numbers returned this code, in at most `bytes` bytes with a zero at the end: of 101 to 109 what was given, what the limit
 * is, and what would do; of any other code its name. */
void mintlintel_explain(uint32_t code, const struct mintlintel_numbers *numbers, char *text, size_t bytes);

/* Changes numbers that an open refuses to near ones that it takes: each into its limits, then the number of blocks, and only if that doesn't do
 * the pages of a block and the sectors. A device for one thread has no hosts; to ask for a shared one, give at least one. */
void mintlintel_nearest(struct mintlintel_numbers *numbers);

/* What a collection did: blocks that came free, blocks that were erased and are the broom's spare now, free blocks that became its spare, blocks
 * that were retired, live pages that were moved, and erases that a reader of the block put off. */
struct mintlintel_collected { uint32_t freed, kept, restocked, retired, moved, pinned; };

/* Collects until `goal` blocks have come free: it erases what is drained already, drains and erases the blocks with the fewest live pages, and
 * takes a free block as the broom's spare if it has lost its own. If none is free, it drains and erases a block without live pages, and that is
 * the spare. It surveys the device once at most, and once more each time that it looks for such a block. 0 if the goal is reached. With any other
 * code pause before the next call: 20 if there is nothing more to gain until hosts write or trim; 21 if the broom has no spare, no block is free,
 * and each closed one has a live page; 24 if what is left to erase is being read; 27 as 21, if moreover mintlintel_broom_counts returns it: then
 * this broom is done, unless hosts go on to trim. 2 or 9. `did` says what it did with each of these codes.
 *
 * A broom that never rests moves pages that would soon have died: rest while mintlintel_broom_counts finds enough free blocks. */
uint32_t mintlintel_collect(struct mintlintel_seat *broom, uint32_t goal, struct mintlintel_collected *did);

/* Writes as mintlintel_host_write does; while that returns 7, it pauses, 20 microseconds at first and a millisecond at most, and tries again, up
 * to this many milliseconds. It returns what the last try did: 7 then says that no block came free in this time. */
uint32_t mintlintel_write_within(struct mintlintel_seat *handle, uint32_t sector, const uint8_t *bytes, size_t count, uint32_t milliseconds);

#ifdef __cplusplus
}
#endif

#endif
