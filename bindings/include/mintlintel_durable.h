/* Mintlintel's device that survives power cuts, over flash that the caller brings, or over an image file.
 *
 * The promise: after any run of flash commands, with any number of power cuts, each inside a command or between two, an open gives the array
 * after a list of begun calls that contains every acknowledged call, in order. A trim of more than 4096 sectors counts as one call for each 4096 of
 * them, from the first on. It rests on four premises:
 *  - The flash tells a torn page from a version.
 *  - A page reads the same each time.
 *  - What has succeeded is durable.
 *  - A command that is cut or fails harms no page that was programmed before. Chips with several bits in a cell pair their pages, and may break that:
 *    then an acknowledged sector has an older value, or none, and nothing tells.
 * An image in mode `flush` keeps a beginning of the commands, with all that was flushed, in place of the third. So an open gives the array after a
 * beginning of the begun calls that contains each call acknowledged before the last flush. That it keeps such a beginning is tested; what follows from
 * it is proved.
 * An open refuses flash of which pages have become unreadable, as far as it shows that: see mintlintel_durable_open_despite_losses.
 *
 * Which step comes next, also after a command that has failed, and what a mount makes of the stamps, is proved (`mintlintel_core_..` and
 * `mintlintel_driver_..`, at the end). The calls before them are plain C that performs these steps, and not proved. For all of them holds what
 * mintlintel.h says of handles, pointers and the allocator. */
#ifndef MINTLINTEL_DURABLE_H
#define MINTLINTEL_DURABLE_H

#include <mintlintel.h>

#ifdef __cplusplus
extern "C" {
#endif

/* What a call returns beside the codes of mintlintel.h. */
enum mintlintel_durable_code {
    MINTLINTEL_POWER_GONE = 28,    /* the power was cut, or the chip is gone: close the device, and open it again */
    MINTLINTEL_FAILED = 29,        /* the flash failed a sync: close the device, and open it again */
    MINTLINTEL_OTHER_DEVICE = 30,  /* the flash holds another device: other numbers, or another format */
    MINTLINTEL_NO_NUMBER = 31,     /* the numbers of versions have run out */
    MINTLINTEL_OUT_OF_ORDER = 32,  /* a call of the core that does not come next */
    MINTLINTEL_UNREADABLE = 33,    /* the sector's page can't be read, and no older one is given for it */
    MINTLINTEL_NO_ROOM = 34,       /* bad blocks have left too few blocks for the sectors */
    MINTLINTEL_PAGES_LOST = 35,    /* pages have become unreadable, and older versions may stand for them: see ..open_despite_losses */
    MINTLINTEL_UNSETTLED = 36,     /* a reader: each page that it read no longer had the sector's version, and its looks are used up; read again */
    MINTLINTEL_READ_PAGE = 37,     /* a search of a map: a page is to be read */
    MINTLINTEL_NO_FILE = 40,       /* an image: the file can't be opened or made; errno says why */
    MINTLINTEL_IN_USE = 41,        /* an image: another handle has it open */
    MINTLINTEL_NOT_AN_IMAGE = 42,  /* an image: the file is none, or its head is damaged */
    MINTLINTEL_OTHER_VERSION = 43, /* an image: its format has a version that this library doesn't know */
    MINTLINTEL_OTHER_NUMBERS = 44, /* an image: its device has other numbers */
    MINTLINTEL_CUT_SHORT = 45,     /* an image: the file is shorter than its device */
    MINTLINTEL_FILE_FAILED = 46,   /* an image: a read, a write or a sync of the file failed; errno says why */
    MINTLINTEL_OTHER_PROCESS = 47, /* an image: this process is a child of the one that has it open */
    MINTLINTEL_BAD_MODE = 48,      /* there is no such mode of an image, or no such flag of an open */
    MINTLINTEL_BAD_BLOCKS_LISTED = 49 /* an image: a block device has listed bad blocks beside it, and only a block device opens it */
};

/* A code's name, for messages: of these codes and those of mintlintel.h. */
const char *mintlintel_durable_code_name(uint32_t code);

/* ---- Flash that the caller brings ---- */

/* The bytes of a stamp, which are programmed with their page into its spare bytes: docs/FORMATS.md says what they are. */
#define MINTLINTEL_STAMP_BYTES 24

/* The caller's flash. It tells a page whose program or erase was cut from one that has a version, by its own check or by mintlintel_stamp_fits.
 * What a function returns that isn't listed counts as 3. */
struct mintlintel_nand {
    void *chip;
    /* 0 read, 1 erased, 2 unreadable, 3 power gone. `main` may be null: then the stamp alone is read. */
    int (*read)(void *chip, uint32_t block, uint32_t page, void *main, void *stamp);
    /* 0 done, 1 failed, 3 power gone. The page is erased, and the pages of a block are programmed in order. A block that has failed a program, a copy
     * or an erase gets none of them again: the call moves out of it what is needed, and marks it before it returns. Until then the stamp of each page
     * that is programmed names such a block. So the next open knows it once a page is whole behind the failure, and each later one once a new version is,
     * the call's or one that moves: the open reads what the block holds, and the first write or trim moves that and marks the block. An open takes it for a
     * good one if the power has gone before that, if no page was programmed since there was no room (27) or no memory (6), or without both `is_bad` and
     * `mark_bad`. Where several blocks have failed and aren't marked, it may take one for good until as many new versions as there are such blocks have
     * followed the last failure and the last open. */
    int (*program)(void *chip, uint32_t block, uint32_t page, const void *main, const void *stamp);
    /* The same, of a page with its stamp, which was read before and is given: the copy gets these bytes, also if their check doesn't fit the page.
     * Null: the page is read and programmed. */
    int (*copyback)(void *chip, uint32_t from_block, uint32_t from_page, uint32_t block, uint32_t page, const void *stamp);
    /* 0 done, 1 failed, 3 power gone. */
    int (*erase)(void *chip, uint32_t block);
    /* 0 for a good block, 1 for one that must not be used, since it was bad from the factory or was marked, 3 power gone. Null: all are good. */
    int (*is_bad)(void *chip, uint32_t block);
    /* 0 done, 3 power gone. Nothing in the block is needed any more: its pages need not be readable afterwards, and are not read. Null: the mark is kept
     * in memory, and no block is in reserve. */
    int (*mark_bad)(void *chip, uint32_t block);
    /* 0 done, 1 failed, 3 power gone. Null: each command is durable once it has succeeded. */
    int (*sync)(void *chip);
};

/* Whether a stamp is the one that was programmed with this page: 1 if its check fits the page and the stamp, and otherwise 0. With a null page,
 * whether the stamp fits by itself, by the 16 bits of its own check, as one in 65,536 of torn pages may: an open reads whole what may be torn. */
int mintlintel_stamp_fits(const void *stamp, const void *page, size_t page_bytes);

/* ---- A device that survives power cuts ---- */

struct mintlintel_core { void *at; uint64_t is_open; };

/* A handle: `struct mintlintel_durable device = {0};`. */
struct mintlintel_durable { struct mintlintel_core core; struct mintlintel_flash *flash; };

/* The numbers that a device was opened with. */
struct mintlintel_durable_numbers { uint32_t luns, blocks, pages, page_bytes, sectors; };

/* Mounts the device that the flash holds. Flash that was never written is an empty device. The numbers: luns 1 to 8; blocks 3 to 1048576, a
 * multiple of luns; pages of a block 1 to 16384; bytes of a page 1 to 65536; sectors 1 to 268435456, and fewer than (blocks - 1) * pages.
 * On a chip that can mark blocks one block of 50 is in reserve, less one for each bad block, and at least one if the sectors leave room for it:
 * sectors < (blocks - 1 - reserve) * pages. It takes the place of one that fails.
 * 0; 8; the first fault of the numbers, 101 to 105 and 109 (104 is of page_bytes); 6; 7 if no block can be freed, which this library leaves no
 * flash in unless pages have become unreadable; 28, 30 or 34; 35 if there are losses. 30 tells other sectors or page_bytes where a version shows it, but
 * a device of which only the first write was made opens as an empty one with other page_bytes. With any code but 0 the handle is as it was, and nothing
 * was programmed or erased. */
uint32_t mintlintel_durable_open(struct mintlintel_durable *device, const struct mintlintel_nand *nand, uint32_t luns, uint32_t blocks,
                                 uint32_t pages, uint32_t page_bytes, uint32_t sectors);

/* The same, also where there are losses: a page that has become unreadable before one that can be read, in a block that has a newest version which no
 * block without such a page has. A power cut or a failing command leaves none: pages are programmed in order. Which sector a lost page was of
 * isn't known; that sector has an older version then, or is empty. A page that has no readable one behind it in its block is not told. With 0
 * `losses` is their number, and otherwise as it was. They are told until their blocks are erased. Of a page that becomes unreadable while the device is
 * open, and whose block is collected before the next open, the sector is known: it has no older version, and its reads return 33. */
uint32_t mintlintel_durable_open_despite_losses(struct mintlintel_durable *device, const struct mintlintel_nand *nand, uint32_t luns, uint32_t blocks,
                                                uint32_t pages, uint32_t page_bytes, uint32_t sectors, uint64_t *losses);

/* How a device is opened in memory that the caller gives: 0, or a sum of these. */
enum mintlintel_durable_flag {
    MINTLINTEL_DESPITE_LOSSES = 1, /* also where there are losses, which mintlintel_durable_losses tells */
    /* The flash tells torn pages by itself, as ECC does that a read of the stamp alone checks over the whole page: `read` returns 1 or 2 for each page whose
     * program was cut or failed, unless its bytes are as they were to be, and for each one that an erase has changed. Then an open reads each stamp once,
     * and keeps none. Without the flag it takes 12 bytes for a page and 8 for a sector while it opens, and reads whole what may be torn. */
    MINTLINTEL_TELLS_TORN = 2
};

/* How many bytes a device with these numbers takes, from its open to its close: an open in so many succeeds as far as memory goes, and one in fewer is
 * refused. 0 if an open refuses the numbers or the flags. It is the same after each open, and greater where pointers are. */
uint64_t mintlintel_durable_bytes(const struct mintlintel_durable_numbers *numbers, uint32_t flags);

/* Mounts the device as mintlintel_durable_open does, in memory of the caller's that it has up to the close: neither this nor any later call on the handle
 * calls an allocator, and none lacks memory. Memory that isn't aligned to 16 bytes loses those before. 0; 8; the first fault of the numbers; 48 for other
 * flags; 6 if there are fewer bytes than mintlintel_durable_bytes says; otherwise as mintlintel_durable_open. Without an operating system a variable tells
 * the core's allocator of this memory: let no other task open or close a device, write or trim at the same time. */
uint32_t mintlintel_durable_open_in(struct mintlintel_durable *device, const struct mintlintel_nand *nand, const struct mintlintel_durable_numbers *numbers,
                                    uint32_t flags, void *memory, size_t bytes);

/* Frees the memory, or leaves what was given to the caller. It gives the flash no command: an open after it, or after none, finds the same. */
void mintlintel_durable_close(struct mintlintel_durable *device);

/* Reads a sector into `out`, of page_bytes bytes: 1 with the page in `out`; 0 for an empty sector; 2, 3, 4 or 28; 33 if the page can't be read, up to a
 * write or trim of the sector. With 0, 2, 3 and 4 `out` is as it was. */
uint32_t mintlintel_durable_read(struct mintlintel_durable *device, uint32_t sector, void *out, size_t bytes);

/* Writes a page to a sector: 0 or 1 for what the sector was; 2, 3 or 4; 27, 28 or 31. After a block has failed, the call goes on elsewhere; then it moves
 * what is needed out of the block, and marks it. The sectors of pages that can't be read there are lost: their reads return 33. While blocks are in
 * reserve this costs what the block holds. Without one, and once the last one is used, the call mounts the device: it takes as long as an open, and
 * allocates as much for that time; 6 if there is no memory for it, and then each call returns 6 until the device is opened again. Where there
 * is no room without the block, this call or the next one, and each write or trim after it, return 27, and reads go on. After 27 and 28 the sector has
 * this page or what it had before: the next read or open says which. If such a mount finds losses, each call returns 35 until the device is opened again,
 * unless it was opened despite losses. */
uint32_t mintlintel_durable_write(struct mintlintel_durable *device, uint32_t sector, const void *bytes, size_t count);

/* Writes a page to a sector that is empty: 0 if it wrote, 1 if the sector was written and didn't change; otherwise as a write. */
uint32_t mintlintel_durable_write_new(struct mintlintel_durable *device, uint32_t sector, const void *bytes, size_t count);

/* Empties `count` sectors from `first` on: 1 if any of them was written, and 0 if none was; 3 if the device lacks one of them, and nothing changes;
 * otherwise as a write. It is done in parts of 4096 sectors, from the first on, each by one page: after a code above 1 the first parts may be done. */
uint32_t mintlintel_durable_trim(struct mintlintel_durable *device, uint32_t first, uint32_t count);

/* Returns once what was acknowledged is durable: 0; 2 or 28; 29 if the sync failed. */
uint32_t mintlintel_durable_flush(struct mintlintel_durable *device);

/* What was programmed, copied and erased since the open: 0; 2 leaves `totals` as it was. */
uint32_t mintlintel_durable_counts(struct mintlintel_durable *device, struct mintlintel_totals *totals);

/* How many losses the last mount has found, at the open or after a block had failed: 0; 2 leaves `losses` as it was. */
uint32_t mintlintel_durable_losses(struct mintlintel_durable *device, uint64_t *losses);

/* A block: 0; 2 or 10 leave `report` as it was. Its erases are those that the stamps of its pages told at the open, and those since; its live pages
 * are counted over all sectors; it is retired if it is bad. */
uint32_t mintlintel_durable_block(struct mintlintel_durable *device, uint32_t block, struct mintlintel_block *report);

/* The device's numbers: 0; 2 leaves `numbers` as it was. */
uint32_t mintlintel_durable_numbers(struct mintlintel_durable *device, struct mintlintel_durable_numbers *numbers);

/* ---- The core, proved: it says which command comes next, and performs none ---- */

/* A page's block, and its index in the block. */
struct mintlintel_place { uint32_t block, page; };

/* A command: kind 1 programs page `page` of `block` with the new value of the call's sectors, the first of which is `sector`, and a stamp of this
 * number; 2 copies the page of `sector` from (from_block, from_page) to (block, page), with its stamp; 3 erases `block`. What a command doesn't name
 * is 0. */
struct mintlintel_command { uint32_t kind, sector, from_block, from_page, block, page; uint64_t number; };

/* Begins a mount: 0; 6 or 8; 109 unless sectors < (blocks - 1) * pages. */
uint32_t mintlintel_core_open(struct mintlintel_core *core, uint32_t blocks, uint32_t pages, uint32_t sectors);

/* The same, where the blocks from `blocks` to `read_blocks` - 1 are bad or in reserve: a mount reads them, and no command programs or erases them. 109 also
 * if read_blocks < blocks. After a command that failed, retire its block; or give it such a number and mount again: the update may be there or not. */
uint32_t mintlintel_core_open_over(struct mintlintel_core *core, uint32_t read_blocks, uint32_t blocks, uint32_t pages, uint32_t sectors);

/* Notes what the next page holds, block by block: with has_version 0 no version (it is erased or torn), and with 1 or 2 one with its sectors, `count`
 * from `first` on, and its number. 2 tells that it is a trim, which the mount keeps only where some page has a value of its sectors: pass it if each page
 * reads the same at each mount, also one that an erase was cut off in; otherwise pass 1. 0; 2; 9 if the layer is mounted; 30 if the device lacks one of
 * the sectors, if there are none, if it is the last number, or with another has_version; 32 after the last page. */
uint32_t mintlintel_core_note(struct mintlintel_core *core, uint32_t has_version, uint32_t first, uint32_t count, uint64_t number);

/* Mounts the layer once every page was noted: 0; 2; 9 if it is mounted; 32 before the last page. With 6, or with 7 if no block can be freed, the
 * handle is closed. */
uint32_t mintlintel_core_finish(struct mintlintel_core *core);

/* The page that has the sector's newest version, a value or a trim: 1 with its place; 0 if none has, or the mount has kept no trim; 2, 3 or 9. */
uint32_t mintlintel_core_page(struct mintlintel_core *core, uint32_t sector, struct mintlintel_place *place);

/* The command that comes next for a write of a sector, or a trim of `count` from `first` on, for which one page is programmed: 0; 2; 3 also if there
 * are none; 9; 31 if the numbers have run out. It changes nothing. */
uint32_t mintlintel_core_next(struct mintlintel_core *core, uint32_t first, uint32_t count, struct mintlintel_command *command);

/* This command has succeeded: 0, and after a command of kind 1 the write or trim is acknowledged. 2, 3 or 9; 32 if it isn't the one that comes next. */
uint32_t mintlintel_core_done(struct mintlintel_core *core, uint32_t first, uint32_t count, struct mintlintel_command *command);

/* This command, which comes next, has failed, and its block isn't programmed or erased any more: it changes its number with `spare`, a block that isn't in
 * use and has no sector, and that comes in use. Its pages are read still, by the other number. `left` isn't 0 if the page of a program that failed can be
 * read as its version now, which the sectors have then. 0; 2, 3 or 9; 7 if `spare` won't do; 32 if the command isn't the one that comes next. */
uint32_t mintlintel_core_retire(struct mintlintel_core *core, uint32_t first, uint32_t count, struct mintlintel_command *command, uint32_t left,
                                uint32_t spare);

/* `block` was erased so often before the mount, of which more than 65,535 count as so many: 0; 2 or 9. Of a few blocks that are as good the core erases the
 * least erased. */
uint32_t mintlintel_core_erased(struct mintlintel_core *core, uint32_t block, uint32_t erases);

/* From now on a block is open for what hosts write and another one for copies, where blocks are free: sectors that are written often cost fewer copies, and a
 * write waits for few at a time. 0; 2 or 9. It is for flash that keeps each command that is done: after a power cut that loses some, what is left need not
 * be a beginning of the history. */
uint32_t mintlintel_core_keep_apart(struct mintlintel_core *core);

/* What has succeeded since the mount: 0; 2 or 9. */
uint32_t mintlintel_core_counts(struct mintlintel_core *core, struct mintlintel_totals *totals);

/* How many losses the mount has found: pages that were noted with no version, before a version in a block that has a newest version which no block
 * without such a page has: 0; 2 or 9. */
uint32_t mintlintel_core_losses(struct mintlintel_core *core, uint64_t *losses);

/* ---- The driver, proved: it says which step a device does next with its chip, and performs none ---- */

/* A step: kind 1 programs page `page` of `block` with a stamp of `count` sectors, `first` and those behind it, and of this number: with the caller's bytes
 * if `value` is 1, those of (from_block, from_page) if it is 2, a page that a step of this call has read; none of a trim if it is 3; and with 4 none, since
 * they are lost. 2 copies the page of sector `first` from (from_block, from_page) to (block, page), with its stamp. 3 erases `block`. 4 reads a page whole.
 * 5 marks `block` bad, in which nothing is needed. 0 is no step: the call has ended. What a step doesn't name is 0. Blocks are the chip's. */
struct mintlintel_step { uint32_t kind, value, first, count, from_block, from_page, block, page; uint64_t number; };

/* The mounted core becomes a driver. numbers[n] is the chip's block of the core's number n; `good` of them are in use or in reserve, and the others bad. 0; 2
 * or 9; 7 unless `good` is from the number of blocks in use to `count`. With 6 the handle is closed. */
uint32_t mintlintel_driver_open(struct mintlintel_core *driver, const uint32_t *numbers, size_t count, uint32_t good);

/* Begins a write of a sector, or with `trimmed` a trim of `count` from `first` on: 0 with the first step; 2, 3 or 9; 27 if a block has failed and none was in
 * reserve; 28 if the power is gone; 31 if the numbers have run out; 32 while a call is under way. What it refuses changes nothing. */
uint32_t mintlintel_driver_begin(struct mintlintel_core *driver, uint32_t first, uint32_t count, uint32_t trimmed, struct mintlintel_step *step);

/* The step that comes next: 0; 2 or 9. It changes nothing. */
uint32_t mintlintel_driver_next(struct mintlintel_core *driver, struct mintlintel_step *step);

/* The step that came next has ended: `answer` is 0 if it was done, 1 if it has failed, and with another one the power is gone. 0 with the step that comes
 * next now; 2 or 9. */
uint32_t mintlintel_driver_done(struct mintlintel_core *driver, uint32_t answer, struct mintlintel_step *step);

/* The same of a step that reads: with has_version 0 it has found no version, and with 1 or 2 one with its sectors and its number, with 2 that of a trim. */
uint32_t mintlintel_driver_found(struct mintlintel_core *driver, uint32_t has_version, uint32_t first, uint32_t count, uint64_t number,
                                 struct mintlintel_step *step);

/* How the last call has ended: 0 if its sectors have the new version; 27, 28 or 31 as of a begin; 32 while it is under way; 2 or 9. */
uint32_t mintlintel_driver_result(struct mintlintel_core *driver);

/* The chip's page that has the sector's newest version, a value or a trim: 1 with its place; 0 if none has, or the mount has kept no trim; 2, 3 or 9. */
uint32_t mintlintel_driver_page(struct mintlintel_core *driver, uint32_t sector, struct mintlintel_place *place);

/* How many blocks are in reserve: so many may fail before the device is only read. 0; 2 or 9. */
uint32_t mintlintel_driver_reserve(struct mintlintel_core *driver, uint32_t *reserve);

/* Frees the memory. A closed handle stays closed. */
void mintlintel_core_close(struct mintlintel_core *core);

/* The CRC-32C after more bytes; of no bytes it is 0. */
uint32_t mintlintel_crc32c(uint32_t crc, const uint8_t *bytes, size_t count);

#ifdef __cplusplus
}
#endif

#endif
