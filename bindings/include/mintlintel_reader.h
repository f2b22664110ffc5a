/* Reads of a device that survives power cuts which wait for nobody: any number of readers, each in a thread of its own, beside the one thread at a time that
 * writes, trims and flushes. A read takes no lock, and waits for no write, collection, erase or sync.
 *
 * What a read answers is what its sector had after a beginning of the list of all writes and trims that were done since the open, in their order: that
 * beginning has all that this reader has seen before. A write or trim that returns 0 or 1 is at the end of the list before it returns, and its page was
 * programmed with success before any read could see it; after 27 or 28 it may be in the list, as mintlintel_durable_write says of its sector. Where what has
 * succeeded is durable, an open after a power cut has every change that a read has returned.
 *
 * It rests on the premises of mintlintel_durable.h, and on two more:
 *  - The chip's `read` may be called from any thread, at any time from the first reader's open to the last one's close, also beside a command. A page that is
 *    being programmed or erased may read as anything then: any bytes, or any of its codes.
 *  - Bytes that a command leaves half done don't fit the check of another page or of a version that they never were.
 * An image has both. It is read by the readers of `&image.device`, which return its codes 46 and 47 too.
 *
 * Which page a read looks at, whether it looks again, and what it answers is proved (`mintlintel_map_..`, at the end), as for the calls of mintlintel.h.
 * Reading pages, and telling the map of what was programmed and copied, is plain C, and not proved. */
#ifndef MINTLINTEL_READER_H
#define MINTLINTEL_READER_H

#include <mintlintel_durable.h>

#ifdef __cplusplus
extern "C" {
#endif

/* A handle of a map, or of a reader's search in it. */
struct mintlintel_map { void *at; uint64_t is_open; };

/* A handle: `struct mintlintel_reader reader = {0};`. It is used by one thread at a time, and by any. `chip` is what the chip's `read` gets: the device's,
 * unless the caller sets another one after the open, as a descriptor of its own for the same flash. */
struct mintlintel_reader { struct mintlintel_map search; struct mintlintel_readers *of; void *chip; };

/* Opens a reader of an open device: 0; 2; 6; 8; 28; 31 if the device's numbers are too great for a map, of which there are 2^64 - 1 by its pages. It counts
 * as a call of the device: there is one at a time. The first one takes 8 bytes for each sector from the allocator, and reads the stamp of each sector's
 * page. It returns what each call of the device returns, if that is refused. */
uint32_t mintlintel_reader_open(struct mintlintel_reader *reader, struct mintlintel_durable *device);

/* Reads a sector into `out`, of page_bytes bytes, beside any call of the device and of other readers, except the device's close: 1 with the page in `out`; 0
 * for an empty sector; 2 if the reader or its device is closed; 3 or 4; 28. 33 if the page can't be read: mintlintel_durable_read tells it for sure. 36 if
 * each page that it read no longer had its version, by 64 looks: read again, or by mintlintel_durable_read. 31 once the device has given a number that the
 * map has no room for, or may give one again that it gave before: no reader of the device answers from then on, and it can be read by
 * mintlintel_durable_read; readers that are opened later answer again, if their open returns 0. With 2, 3 and 4 `out` is as it was, and with any other code
 * but 1 it may have any bytes. */
uint32_t mintlintel_reader_read(struct mintlintel_reader *reader, uint32_t sector, void *out, size_t bytes);

/* Closes a reader. A closed one stays so. It may be closed after its device. */
void mintlintel_reader_close(struct mintlintel_reader *reader);

/* ---- The map, proved: it says which page to read, and whether what was read is the sector's. It reads none ---- */

/* Makes the map of a device whose sectors are empty, in which a word can name `pages` pages: 0; 6 or 8; 105 and 103 if there are none of them. */
uint32_t mintlintel_map_open(struct mintlintel_map *map, uint32_t sectors, uint64_t pages);

/* Makes a reader of a map, which has seen all that was published: 0; 2; 6; 8 if it is open; 9 if `map` is a reader. */
uint32_t mintlintel_map_reader(struct mintlintel_map *map, struct mintlintel_map *reader);

/* The sector has the version with this number from now on. `page`, which was programmed with it, is the number of its block times the pages of a block, and
 * its index there. 0; 2, 3 or 9; 10 if a word can't name the page; 31 unless number + 1 is below (2^64 - 1) / pages. */
uint32_t mintlintel_map_publish(struct mintlintel_map *map, uint32_t sector, uint64_t number, uint64_t page);

/* So many sectors are empty from now on: 0; 2 or 9; 3 if the map lacks one of them. */
uint32_t mintlintel_map_clear(struct mintlintel_map *map, uint32_t first, uint32_t count);

/* The version with this number is on this page too: 1 if it is the sector's, and then the map names the page; 0 if not; 2, 3, 9, 10 or 31. */
uint32_t mintlintel_map_follow(struct mintlintel_map *map, uint32_t sector, uint64_t number, uint64_t page);

/* Begins a read, by so many looks: 37 if `page` is to be read; 0 if the sector is empty; 36 without a look; 2, 3 or 9. */
uint32_t mintlintel_map_search(struct mintlintel_map *reader, uint32_t sector, uint32_t looks, uint64_t *page);

/* Goes on once the page was read: has_version isn't 0 if it has a version of the sector, with this number. 1 if the bytes that were read are the sector's; 37,
 * 0 or 36 as above; 33 if the map names the same page again; 2 or 9; 32 if no page was to be read. */
uint32_t mintlintel_map_answer(struct mintlintel_map *reader, uint32_t has_version, uint64_t number, uint64_t *page);

/* Closes a map or a reader. The memory is freed with the last one. */
void mintlintel_map_close(struct mintlintel_map *map);

#ifdef __cplusplus
}
#endif

#endif
