/* Where the fields of an image stand: docs/FORMATS.md defines them. Plain C, and not proved. */
#ifndef IMAGE_FORMAT_H
#define IMAGE_FORMAT_H

#include "mintlintel_durable.h"
#include <errno.h>
#include <sys/types.h>
#include <sys/uio.h>

/* The version of new images, the one whose checkpoints list nothing, and the one whose blocks have one side. */
enum { VERSION = 3, VERSION_WITHOUT_LISTS = 2, VERSION_OF_ONE_SIDE = 1 };
enum { PART_BYTES = 4096, HEAD_BYTES = 2 * PART_BYTES, SPARE_BYTES = 32, CHECK_BYTES = 4, BOOT_BYTES = 36, ENTRY_BYTES = 16, CHECKPOINTS = 4 };
/* A checkpoint lists so many blocks at most, so that one sector of the disk has all of it. */
enum { MOST_LISTED = 32, LISTED_BYTES = 12, MOST_OF_A_CHECKPOINT = ENTRY_BYTES + MOST_LISTED * LISTED_BYTES };
/* Where the fields of the head's first part stand, of its second part, and of a page's spare bytes. */
enum { AT_VERSION = 8, AT_NUMBERS = 12, AT_STATE = 0, AT_MODE = 4, AT_BOOT = 8, AT_SESSION_CHECK = 44, SESSION_BYTES = AT_SESSION_CHECK + CHECK_BYTES };
enum { AT_SPARE_CHECK = MINTLINTEL_STAMP_BYTES, AT_TAG = 28 };
enum state { IN_USE = 1, CLOSED = 2 };

/* How many sides a block has, whether checkpoints list blocks, the bytes of a block's spares and of a whole side, in whole parts, and where the entries, the
 * checkpoints and the end stand. */
struct image_layout { uint32_t sides, has_lists; uint64_t spare_bytes, block_bytes, entries_at, checkpoints_at, length; };

/* What a checkpoint lists of a block: its side, how many pages it had got, and the CRC-32C of their spare bytes. One without a list is plain. */
struct filled { uint32_t block, side, pages, check; };
struct checkpoint { uint64_t number; uint32_t count; struct filled list[MOST_LISTED]; };

/* The bytes of an image, with room for the spare bytes of a block and the main bytes of a page. */
struct image_bytes { int fd; struct mintlintel_durable_numbers numbers; struct image_layout layout; uint8_t *spares, *page; };

/* The checkpoint that an open takes, the last one that was written, and whether that is a list. */
struct taken { uint64_t number, last; int is_list; };

/* What a page's spare bytes say. */
enum reading { IS_VERSION = 0, IS_ERASED = 1, IS_NEITHER = 2 };

static inline uint32_t mtl_get32(const uint8_t *at)
{
    return at[0] | (uint32_t)at[1] << 8 | (uint32_t)at[2] << 16 | (uint32_t)at[3] << 24;
}

/* Opens a regular file that is there, and waits for nobody: the descriptor, or -1. Of anything else the errno is EINVAL. */
int mtl_open_file(const char *path, int flags);

/* The code of a file that this couldn't open. */
static inline uint32_t mtl_no_file(void)
{
    return errno == EINVAL ? MINTLINTEL_NOT_AN_IMAGE : MINTLINTEL_NO_FILE;
}

/* Reads all of these bytes: 0, or the errno of what failed. The end of the file counts as EIO. */
int mtl_read_all(int fd, void *bytes, size_t count, off_t at);

/* The same for writes. The parts are used up. */
int mtl_write_all(int fd, const void *bytes, size_t count, off_t at);
int mtl_write_all_parts(int fd, struct iovec *parts, uint32_t count, off_t at);

/* Copies a file's data, and leaves its holes: 0, or an errno. */
int mtl_copy_data(int from, int to, off_t length);

struct image_layout mtl_image_layout(uint32_t version, const struct mintlintel_durable_numbers *numbers);

/* Reads the name of this run of the machine: without one all zeros, which no session is in use by. */
void mtl_read_boot(uint8_t *boot);

/* Whether every page has to be read: the session may have lost power, or its record is damaged. */
int mtl_session_has_doubts(const uint8_t *session, const uint8_t *boot);

static inline uint64_t mtl_side_at(const struct mintlintel_durable_numbers *numbers, const struct image_layout *layout, uint32_t block, uint32_t side)
{
    return HEAD_BYTES + ((uint64_t)side * numbers->blocks + block) * layout->block_bytes;
}

/* The bytes of a checkpoint, which are returned. An entry has those of a plain one. */
size_t mtl_checkpoint_into(uint8_t *part, const struct checkpoint *checkpoint);

/* The number of an entry. 0 if it doesn't fit its check. */
int mtl_entry_number(const uint8_t *entry, uint64_t *number);

/* The checkpoint that an open takes: 0, 42 or 46. It is the last one; but if the power may have been cut, and not all is there that the last one lists,
 * the one before. */
uint32_t mtl_take_checkpoint(const struct image_bytes *image, const uint8_t *entries, int has_doubts, struct taken *taken);

/* What a page's spare bytes tell of the last checkpoint before it was programmed; the lowest bit tells whether the page is set aside. */
static inline uint32_t mtl_tag(uint64_t checkpoint)
{
    return (uint32_t)(checkpoint * 2);
}

/* Whether spare bytes fit their check, as those of a page that is set aside may too. */
int mtl_spare_fits(const uint8_t *spare);
enum reading mtl_image_reading(const uint8_t *spare);

#endif
