/* An image file: a chip in one sparse file, under a device that survives power cuts. This file is plain C, and not proved. */
#define _GNU_SOURCE
#define _FILE_OFFSET_BITS 64
#include "mintlintel_image.h"
#include "crc.h"
#include "image_file.h"
#include "stamp.h"
#include <errno.h>
#include <fcntl.h>
#include <libgen.h>
#include <stdio.h>
#include <stdlib.h>
#include <string.h>
#include <sys/file.h>
#include <sys/mman.h>
#include <sys/stat.h>
#include <time.h>
#include <unistd.h>

/* How many blocks a mount asks for ahead of the one that it reads. */
enum { BLOCKS_AHEAD = 16 };
/* Larger images aren't mapped, since the system keeps 8 bytes for each page of 4 KiB. */
#define MOST_MAPPED ((off_t)1 << 32)
/* So much of the image's name is in the one under which it is made. */
enum { MOST_OF_A_NAME = 200 };

static const uint8_t magic[8] = {0x89, 'M', 'N', 'T', 'L', '\r', '\n', 0x1a};

/* ---- Bytes of the file ---- */

static void put32(uint8_t *at, uint32_t value)
{
    for (int i = 0; i < 4; i++)
        at[i] = (uint8_t)(value >> 8 * i);
}

/* Notes a failure of the file: every call returns it from now on. */
int mtl_file_failed(struct mintlintel_image_file *file, int error)
{
    int none = 0;
    __atomic_compare_exchange_n(&file->error, &none, error, 0, __ATOMIC_SEQ_CST, __ATOMIC_SEQ_CST);
    __atomic_store_n(&file->reason, MINTLINTEL_FILE_FAILED, __ATOMIC_SEQ_CST);
    return 3;
}

/* Why each call is refused, or 0. */
static uint32_t refusal(struct mtl_reason *why)
{
    struct mintlintel_image_file *file = (struct mintlintel_image_file *)why;
    if (!is_own(file))
        __atomic_store_n(&file->reason, MINTLINTEL_OTHER_PROCESS, __ATOMIC_SEQ_CST);
    return __atomic_load_n(&file->reason, __ATOMIC_ACQUIRE);
}

int mtl_file_get(struct mintlintel_image_file *file, void *bytes, size_t count, off_t at)
{
    int error = mtl_read_all(file->fd, bytes, count, at);
    return error ? mtl_file_failed(file, error) : 0;
}

int mtl_file_set(struct mintlintel_image_file *file, const void *bytes, size_t count, off_t at)
{
    int error = mtl_write_all(file->fd, bytes, count, at);
    file->is_dirty = 1;
    return error ? mtl_file_failed(file, error) : 0;
}

int mtl_file_set_parts(struct mintlintel_image_file *file, struct iovec *parts, uint32_t count, off_t at)
{
    int error = mtl_write_all_parts(file->fd, parts, count, at);
    file->is_dirty = 1;
    return error ? mtl_file_failed(file, error == EFAULT ? EIO : error) : 0;
}

static int sync_bytes(struct mintlintel_image_file *file)
{
    if (file->is_dirty && fdatasync(file->fd) != 0)
        return mtl_file_failed(file, errno);
    file->is_dirty = file->is_erased = 0;
    return 0;
}

/* If blocks have moved, a list of all that was programmed is synced with it, or else a plain checkpoint behind it. An open and a close leave no list: other
 * modes erase what is listed. */
int mtl_file_sync(struct mintlintel_image_file *file)
{
    int settles = file->is_mounting || file->is_closing, is_due = file->sides.count > 0 || (settles && file->sides.is_list);
    int is_list = !settles && mtl_sides_are_listed(file);
    if ((is_list && mtl_sides_write_checkpoint(file, 1) != 0) || sync_bytes(file) != 0)
        return 3;
    if (is_due && !is_list && (mtl_sides_write_checkpoint(file, 0) != 0 || sync_bytes(file) != 0))
        return 3;
    if (is_due)
        mtl_sides_let_go(file, is_list);
    return 0;
}

/* ---- The chip ---- */

static int is_zero(const uint8_t *bytes, size_t count)
{
    return bytes[0] == 0 && memcmp(bytes, bytes + 1, count - 1) == 0;
}

/* The check of a stamp with the tag of its page. */
static uint32_t spare_check(const uint8_t *stamp, uint32_t tag)
{
    return mtl_crc(tag, stamp, MINTLINTEL_STAMP_BYTES);
}

int mtl_spare_fits(const uint8_t *spare)
{
    return mtl_get32(spare + AT_SPARE_CHECK) == spare_check(spare, mtl_get32(spare + AT_TAG) & ~1u);
}

enum reading mtl_image_reading(const uint8_t *spare)
{
    if (is_zero(spare, SPARE_BYTES))
        return IS_ERASED;
    return mtl_spare_fits(spare) && mtl_get32(spare + AT_TAG) % 2 == 0 ? IS_VERSION : IS_NEITHER;
}

/* The spare bytes of a page that is programmed now. */
static void spare_into(const struct mintlintel_image_file *file, uint8_t *spare, const uint8_t *stamp)
{
    uint32_t tag = file->layout.has_lists ? mtl_tag(file->sides.checkpoint) : 0;
    memcpy(spare, stamp, MINTLINTEL_STAMP_BYTES);
    put32(spare + AT_SPARE_CHECK, spare_check(stamp, tag));
    put32(spare + AT_TAG, tag);
}

/* Whether this place of the file is in a hole, so that all up to the next data reads as zeros. */
static int is_hole(struct mintlintel_image_file *file, off_t from, off_t to)
{
    if (from >= file->data_from && to <= file->data_to)
        return 1;
    off_t data = lseek(file->fd, from, SEEK_DATA);
    file->data_from = from;
    file->data_to = data >= 0 ? data : errno == ENXIO ? (off_t)file->layout.length : from;
    return to <= file->data_to;
}

/* While mounting: lets the system begin to read the spare bytes of a block that comes later. */
static void look_ahead(struct mintlintel_image_file *file, uint32_t block, size_t count)
{
    if (file->is_mounting && block + BLOCKS_AHEAD < file->numbers.blocks)
        posix_fadvise(file->fd, spare_at(file, block + BLOCKS_AHEAD, 0), (off_t)count, POSIX_FADV_WILLNEED);
}

/* The spare bytes of all pages of a block, in `spares`. */
static int load_spares(struct mintlintel_image_file *file, uint32_t block)
{
    size_t count = (size_t)file->numbers.pages * SPARE_BYTES;
    off_t at = spare_at(file, block, 0);
    if (file->cached == block)
        return 0;
    file->cached = UINT32_MAX;
    if (file->is_mounting && is_hole(file, at, at + (off_t)count))
        memset(file->spares, 0, count);
    else {
        look_ahead(file, block, count);
        if (mtl_file_get(file, file->spares, count, at) != 0)
            return 3;
    }
    file->cached = block;
    return 0;
}

/* ---- The commands ---- */

/* Adds a command to those that wait, with a page's spare bytes. In mode `always` each is on the disk before the next one. */
static int give(struct mintlintel_image_file *file, const struct command *command, const uint8_t *spare)
{
    if (mtl_queue_add(file, command, spare) != 0)
        return 3;
    return file->mode == MINTLINTEL_ALWAYS ? mtl_queue_drain(file) : 0;
}

/* Before anything is read of a block: what waits is done, if any of it is of this block. */
static int do_what_waits(struct mintlintel_image_file *file, uint32_t block)
{
    return has_failed(file) || (mtl_queue_has(file, block) && mtl_queue_drain(file) != 0) ? 3 : 0;
}

static int image_read(void *chip, uint32_t block, uint32_t page, void *main, void *stamp)
{
    struct mintlintel_image_file *file = chip;
    uint8_t one[SPARE_BYTES], *spare = one;
    if (do_what_waits(file, block) != 0)
        return 3;
    if (file->is_mounting || file->cached == block) {
        if (load_spares(file, block) != 0)
            return 3;
        spare = file->spares + (size_t)page * SPARE_BYTES;
    } else if (mtl_file_get(file, one, SPARE_BYTES, spare_at(file, block, page)) != 0)
        return 3;
    int reading = mtl_image_reading(spare);
    if (reading == 0 && main && mtl_file_get(file, main, file->numbers.page_bytes, page_at(file, block, page)) != 0)
        return 3;
    if (reading == 0)
        memcpy(stamp, spare, MINTLINTEL_STAMP_BYTES);
    return reading;
}

/* It waits if its caller has asked for that, so that others can be done with it. */
static int image_program(void *chip, uint32_t block, uint32_t page, const void *main, const void *stamp)
{
    struct mintlintel_image_file *file = chip;
    const struct queue *queue = &file->queue;
    const uint8_t *bytes = main;
    uint8_t spare[SPARE_BYTES];
    spare_into(file, spare, stamp);
    if (has_failed(file) || give(file, &(struct command){block, page, bytes, {0, 0}}, spare) != 0)
        return 3;
    int may_wait = queue->kept && bytes >= queue->kept && bytes + file->numbers.page_bytes <= queue->kept_end;
    return may_wait ? 0 : mtl_queue_drain(file);
}

/* A block is collected page by page, so the stamps of its other pages are read now. A copy waits for the program behind it. */
static int image_copyback(void *chip, uint32_t from_block, uint32_t from_page, uint32_t block, uint32_t page, const void *stamp)
{
    struct mintlintel_image_file *file = chip;
    uint8_t spare[SPARE_BYTES];
    if (has_failed(file) || load_spares(file, from_block) != 0)
        return 3;
    spare_into(file, spare, stamp);
    return give(file, &(struct command){block, page, NULL, {from_block, from_page}}, spare);
}

/* So does an erase. */
static int image_erase(void *chip, uint32_t block)
{
    struct mintlintel_image_file *file = chip;
    if (block == file->cached)
        file->cached = UINT32_MAX;
    return has_failed(file) ? 3 : give(file, &(struct command){block, WHOLE_BLOCK, NULL, {0, 0}}, NULL);
}

static int image_sync(void *chip)
{
    struct mintlintel_image_file *file = chip;
    if (has_failed(file) || mtl_queue_drain(file) != 0)
        return 3;
    return file->mode == MINTLINTEL_FLUSH ? mtl_file_sync(file) : 0;
}

void mtl_image_keep(struct mintlintel_image *image, const void *pages, const uint32_t *checks, size_t count)
{
    struct mintlintel_image_file *file = image->file;
    file->queue.kept = pages;
    file->queue.kept_end = file->queue.kept + count * file->numbers.page_bytes;
    mtl_durable_know(&image->device, pages, checks, checks ? count : 0);
}

uint64_t mtl_image_let_go(struct mintlintel_image *image)
{
    image->file->queue.kept = NULL;
    mtl_durable_know(&image->device, NULL, NULL, 0);
    return mtl_queue_let_go(&image->file->queue);
}

uint32_t mtl_image_commit(struct mintlintel_image *image, uint64_t ticket)
{
    return mtl_queue_commit(image->file, ticket) == 0 ? MINTLINTEL_DONE : MINTLINTEL_FILE_FAILED;
}

uint32_t mtl_image_sync(struct mintlintel_image *image)
{
    return image_sync(image->file) == 0 ? MINTLINTEL_DONE : MINTLINTEL_FILE_FAILED;
}

/* ---- What readers ask ---- */

/* A child waits for nobody: the thread that leads may be gone. */
static int drain(struct mtl_reason *why)
{
    return refusal(why) != MINTLINTEL_DONE || mtl_queue_drain((struct mintlintel_image_file *)why) != 0 ? 3 : 0;
}

/* What is erased or programmed meanwhile may be read in parts: then its check doesn't fit. */
static int read_beside(struct mtl_reason *why, uint32_t block, uint32_t page, uint32_t count, void *main, void *stamps)
{
    struct mintlintel_image_file *file = (struct mintlintel_image_file *)why;
    uint8_t spares[MTL_MOST_OF_A_RUN][SPARE_BYTES], (*stamp)[MINTLINTEL_STAMP_BYTES] = stamps;
    if (mtl_file_get(file, spares, count * sizeof *spares, spare_at(file, block, page)) != 0 ||
        mtl_file_get(file, main, count * (size_t)file->numbers.page_bytes, page_at(file, block, page)) != 0)
        return 3;
    for (uint32_t i = 0; i < count; i++)
        if (mtl_image_reading(spares[i]) == IS_VERSION)
            memcpy(stamp[i], spares[i], sizeof stamp[i]);
        else
            memset(stamp[i], 0xff, sizeof stamp[i]);
    return 0;
}

/* ---- The head ---- */

static void head_into(uint8_t *part, const struct mintlintel_durable_numbers *n)
{
    const uint32_t numbers[5] = {n->luns, n->blocks, n->pages, n->page_bytes, n->sectors};
    memset(part, 0, PART_BYTES);
    memcpy(part, magic, sizeof magic);
    put32(part + AT_VERSION, VERSION);
    for (int i = 0; i < 5; i++)
        put32(part + AT_NUMBERS + 4 * i, numbers[i]);
    put32(part + PART_BYTES - CHECK_BYTES, mtl_crc(0, part, PART_BYTES - CHECK_BYTES));
}

/* What a head says: 0, or the code of what is wrong with it. */
static uint32_t head_from(const uint8_t *part, struct mintlintel_image_head *head)
{
    memset(head, 0, sizeof *head);
    if (memcmp(part, magic, sizeof magic) != 0)
        return MINTLINTEL_NOT_AN_IMAGE;
    head->version = mtl_get32(part + AT_VERSION);
    if (head->version < VERSION_OF_ONE_SIDE || head->version > VERSION)
        return MINTLINTEL_OTHER_VERSION;
    if (mtl_get32(part + PART_BYTES - CHECK_BYTES) != mtl_crc(0, part, PART_BYTES - CHECK_BYTES))
        return MINTLINTEL_NOT_AN_IMAGE;
    uint32_t *numbers[5] = {&head->numbers.luns, &head->numbers.blocks, &head->numbers.pages, &head->numbers.page_bytes, &head->numbers.sectors};
    for (int i = 0; i < 5; i++)
        *numbers[i] = mtl_get32(part + AT_NUMBERS + 4 * i);
    return mtl_durable_fault(&head->numbers) == MINTLINTEL_DONE ? MINTLINTEL_DONE : MINTLINTEL_NOT_AN_IMAGE;
}

/* Reads the head of a file: 0; 42, 43 or 46. A file that is too short for one is no image. */
static uint32_t read_head(int fd, struct mintlintel_image_head *head)
{
    uint8_t part[PART_BYTES];
    struct stat about;
    if (fstat(fd, &about) != 0)
        return MINTLINTEL_FILE_FAILED;
    if (about.st_size < HEAD_BYTES)
        return MINTLINTEL_NOT_AN_IMAGE;
    errno = mtl_read_all(fd, part, sizeof part, 0);
    return errno ? MINTLINTEL_FILE_FAILED : head_from(part, head);
}

uint32_t mintlintel_image_look(const char *path, struct mintlintel_image_head *head)
{
    memset(head, 0, sizeof *head);
    int fd = mtl_open_file(path, O_RDONLY);
    if (fd < 0)
        return mtl_no_file();
    uint32_t code = read_head(fd, head);
    close(fd);
    return code == MINTLINTEL_OTHER_VERSION ? MINTLINTEL_DONE : code;
}

void mtl_read_boot(uint8_t *boot)
{
    memset(boot, 0, BOOT_BYTES);
    int fd = open("/proc/sys/kernel/random/boot_id", O_RDONLY | O_CLOEXEC);
    if (fd >= 0) {
        if (mtl_read_all(fd, boot, BOOT_BYTES, 0) != 0)
            memset(boot, 0, BOOT_BYTES);
        close(fd);
    }
}

int mtl_session_has_doubts(const uint8_t *session, const uint8_t *boot)
{
    if (mtl_get32(session + AT_SESSION_CHECK) != mtl_crc(0, session, AT_SESSION_CHECK))
        return 1;
    return mtl_get32(session + AT_STATE) != CLOSED && (boot[0] == 0 || memcmp(boot, session + AT_BOOT, BOOT_BYTES) != 0);
}

/* Says on the disk who uses the image. In mode `never` a record that says it already is left, since a sync would write all pages of earlier sessions; in
 * mode `always` these are synced first, since after a power cut the record says by which rules they are checked. */
static int write_session(struct mintlintel_image_file *file, enum state state)
{
    uint8_t session[SESSION_BYTES], earlier[sizeof session];
    put32(session + AT_STATE, state);
    put32(session + AT_MODE, file->mode);
    memcpy(session + AT_BOOT, file->boot, BOOT_BYTES);
    put32(session + AT_SESSION_CHECK, mtl_crc(0, session, AT_SESSION_CHECK));
    if (mtl_file_get(file, earlier, sizeof earlier, PART_BYTES) != 0)
        return 1;
    if (file->mode == MINTLINTEL_NEVER && memcmp(earlier, session, sizeof session) == 0)
        return 0;
    file->is_dirty |= file->mode == MINTLINTEL_ALWAYS;
    if (file->mode == MINTLINTEL_ALWAYS && mtl_file_sync(file) != 0)
        return 1;
    return mtl_file_set(file, session, sizeof session, PART_BYTES) != 0 || mtl_file_sync(file) != 0;
}

/* Whether every page has to be read. `mode` is the last session's, or `flush` if its record is damaged. */
static int needs_checks(struct mintlintel_image_file *file, uint32_t *mode)
{
    uint8_t session[SESSION_BYTES];
    if (mtl_file_get(file, session, sizeof session, PART_BYTES) != 0)
        return 1;
    int fits = mtl_get32(session + AT_SESSION_CHECK) == mtl_crc(0, session, AT_SESSION_CHECK);
    *mode = fits ? mtl_get32(session + AT_MODE) : MINTLINTEL_FLUSH;
    return mtl_session_has_doubts(session, file->boot);
}

/* ---- After a power cut ---- */

/* Whether the page has a version whose check fits: 1 or 0, or 3. */
static int is_whole(struct mintlintel_image_file *file, uint32_t block, uint32_t page)
{
    const uint8_t *spare = file->spares + (size_t)page * SPARE_BYTES;
    if (mtl_image_reading(spare) != 0)
        return 0;
    if (mtl_file_get(file, file->page, file->numbers.page_bytes, page_at(file, block, page)) != 0)
        return 3;
    return mintlintel_stamp_fits(spare, file->page, file->numbers.page_bytes);
}

/* Sets a version aside, so that it is none from now on. Its bytes stay. */
static int set_aside(struct mintlintel_image_file *file, uint32_t block, uint32_t page)
{
    uint8_t tag[4];
    put32(tag, mtl_get32(file->spares + (size_t)page * SPARE_BYTES + AT_TAG) | 1);
    return mtl_file_set(file, tag, sizeof tag, spare_at(file, block, page) + AT_TAG);
}

/* Reads each page, and sets aside those that were cut. In mode `flush` writes may have reached the disk in any order, so what stands behind such a
 * page of a block is set aside too: then the rest is a beginning of the history. */
static int check_pages(struct mintlintel_image_file *file, uint32_t mode)
{
    for (uint32_t block = 0; block < file->numbers.blocks; block++) {
        int is_behind = 0;
        if (load_spares(file, block) != 0)
            return 3;
        for (uint32_t page = 0; page < file->numbers.pages; page++) {
            int whole = is_whole(file, block, page);
            if (whole == 3)
                return 3;
            is_behind |= mode != MINTLINTEL_ALWAYS && !whole;
            if ((is_behind || !whole) && mtl_image_reading(file->spares + (size_t)page * SPARE_BYTES) == 0 && set_aside(file, block, page) != 0)
                return 3;
        }
    }
    file->cached = UINT32_MAX;
    return mtl_file_sync(file);
}

/* ---- Opening and closing ---- */

/* A child that is left keeps the descriptor open, so the lock is given back by itself; and a child has none to give back. */
static void free_file(struct mintlintel_image_file *file)
{
    if (file) {
        if (file->fd >= 0 && is_own(file))
            flock(file->fd, LOCK_UN);
        if (file->fd >= 0)
            close(file->fd);
        free(file->sides.of_blocks);
        free(file->sides.moved);
        free(file->spares);
        free(file->zeros);
        free(file->page);
        if (file->map)
            munmap(file->map, (size_t)file->layout.length);
        free(file->queue.copies);
        free(file);
    }
}

static int are_zero(const struct mintlintel_durable_numbers *n)
{
    return n->luns == 0 && n->blocks == 0 && n->pages == 0 && n->page_bytes == 0 && n->sectors == 0;
}

static uint64_t in_whole_parts(uint64_t bytes)
{
    return (bytes + PART_BYTES - 1) / PART_BYTES * PART_BYTES;
}

struct image_layout mtl_image_layout(uint32_t version, const struct mintlintel_durable_numbers *numbers)
{
    struct image_layout layout = {.sides = version == VERSION_OF_ONE_SIDE ? 1 : 2, .has_lists = version > VERSION_WITHOUT_LISTS};
    layout.spare_bytes = in_whole_parts((uint64_t)numbers->pages * SPARE_BYTES);
    layout.block_bytes = layout.spare_bytes + in_whole_parts((uint64_t)numbers->pages * numbers->page_bytes);
    layout.length = layout.entries_at = HEAD_BYTES + layout.sides * numbers->blocks * layout.block_bytes;
    if (layout.sides == 2) {
        layout.checkpoints_at = layout.entries_at + in_whole_parts((uint64_t)numbers->blocks * ENTRY_BYTES);
        layout.length = layout.checkpoints_at + CHECKPOINTS * PART_BYTES;
    }
    return layout;
}

static void lay_out(struct mintlintel_image_file *file, uint32_t version, const struct mintlintel_durable_numbers *numbers)
{
    file->numbers = *numbers;
    file->layout = mtl_image_layout(version, numbers);
    file->cached = UINT32_MAX;
}

static uint32_t lock_file(struct mintlintel_image_file *file)
{
    if (file->fd < 0)
        return mtl_no_file();
    if (flock(file->fd, LOCK_EX | LOCK_NB) != 0)
        return errno == EWOULDBLOCK ? MINTLINTEL_IN_USE : MINTLINTEL_NO_FILE;
    return MINTLINTEL_DONE;
}

/* Makes the directory's entry of a file durable. */
static int sync_name(const char *path)
{
    char *copy = strdup(path);
    int fd = copy ? open(dirname(copy), O_RDONLY | O_DIRECTORY | O_CLOEXEC) : -1;
    int code = fd >= 0 ? fsync(fd) : -1;
    if (fd >= 0)
        close(fd);
    free(copy);
    return code;
}

/* Why a name that had no file has one now: another process has made it, or it is a symbolic link that leads nowhere. */
static uint32_t who_has(const char *path)
{
    struct stat about;
    int leads_nowhere = lstat(path, &about) == 0 && S_ISLNK(about.st_mode);
    errno = leads_nowhere ? ENOENT : EEXIST;
    return leads_nowhere ? MINTLINTEL_NO_FILE : MINTLINTEL_IN_USE;
}

/* Makes an image under another name, and gives it its own once it is whole. So a file with this name is an image, whenever the process ends. */
static uint32_t make_image(struct mintlintel_image_file *file, const char *path, const char *other)
{
    uint8_t part[PART_BYTES];
    file->fd = open(other, O_RDWR | O_CREAT | O_EXCL | O_CLOEXEC, 0666);
    uint32_t code = lock_file(file);
    if (code != MINTLINTEL_DONE)
        return code;
    head_into(part, &file->numbers);
    if (ftruncate(file->fd, (off_t)file->layout.length) != 0 || mtl_file_set(file, part, sizeof part, 0) != 0)
        return mtl_file_failed(file, errno), MINTLINTEL_FILE_FAILED;
    code = mtl_sides_make(file);
    if (code != MINTLINTEL_DONE)
        return code;
    if (write_session(file, IN_USE) != 0 || fsync(file->fd) != 0)
        return mtl_file_failed(file, errno), MINTLINTEL_FILE_FAILED;
    if (link(other, path) != 0)
        return errno == EEXIST ? who_has(path) : MINTLINTEL_NO_FILE;
    return sync_name(path) == 0 ? MINTLINTEL_DONE : MINTLINTEL_FILE_FAILED;
}

/* Another name in the folder of a file. A part of the file's own name is in it, as far as a name may be long. */
static char *other_name(const char *path)
{
    const char *slash = strrchr(path, '/'), *name = slash ? slash + 1 : path;
    int length = (int)(name - path + (strlen(name) < MOST_OF_A_NAME ? strlen(name) : MOST_OF_A_NAME));
    struct timespec now;
    char *other = malloc((size_t)length + 64);
    clock_gettime(CLOCK_REALTIME, &now);
    if (other)
        snprintf(other, (size_t)length + 64, "%.*s.new-%ld-%ld", length, path, (long)getpid(), (long)now.tv_nsec);
    return other;
}

/* Opens and locks the file, and makes it if there is none and the numbers say of what kind. */
static uint32_t open_file(struct mintlintel_image_file *file, const char *path, const struct mintlintel_durable_numbers *numbers)
{
    file->fd = mtl_open_file(path, O_RDWR);
    if (file->fd >= 0 || errno != ENOENT || are_zero(numbers))
        return lock_file(file);
    char *other = other_name(path);
    if (!other)
        return MINTLINTEL_NO_MEMORY;
    lay_out(file, VERSION, numbers);
    uint32_t code = make_image(file, path, other);
    unlink(other);
    free(other);
    return code;
}

/* Maps a file, so that copies needn't be read. */
static void map_file(struct mintlintel_image_file *file)
{
    void *map = (off_t)file->layout.length < MOST_MAPPED ? mmap(NULL, (size_t)file->layout.length, PROT_READ, MAP_SHARED, file->fd, 0) : MAP_FAILED;
    file->map = map == MAP_FAILED ? NULL : map;
}

static uint32_t take_image(struct mintlintel_image_file *file, const struct mintlintel_durable_numbers *numbers)
{
    struct mintlintel_image_head head;
    struct stat about;
    uint32_t mode = MINTLINTEL_FLUSH, code = read_head(file->fd, &head);
    if (code == MINTLINTEL_FILE_FAILED)
        mtl_file_failed(file, errno);
    if (code != MINTLINTEL_DONE)
        return code;
    if (!are_zero(numbers) && memcmp(numbers, &head.numbers, sizeof *numbers) != 0)
        return MINTLINTEL_OTHER_NUMBERS;
    lay_out(file, head.version, &head.numbers);
    if (fstat(file->fd, &about) != 0 || about.st_size < (off_t)file->layout.length)
        return MINTLINTEL_CUT_SHORT;
    file->sides.of_blocks = calloc(head.numbers.blocks, 1);
    file->sides.moved = malloc((size_t)head.numbers.blocks * sizeof *file->sides.moved);
    file->spares = malloc((size_t)head.numbers.pages * SPARE_BYTES);
    file->zeros = calloc(head.numbers.pages, SPARE_BYTES);
    file->page = malloc(head.numbers.page_bytes);
    file->queue.copies = malloc((size_t)MOST_TOGETHER * head.numbers.page_bytes);
    if (!file->sides.of_blocks || !file->sides.moved || !file->spares || !file->zeros || !file->page || !file->queue.copies)
        return MINTLINTEL_NO_MEMORY;
    map_file(file);
    int has_doubts = needs_checks(file, &mode);
    code = mtl_sides_read(file, has_doubts);
    if (code == MINTLINTEL_FILE_FAILED)
        mtl_file_failed(file, errno);
    if (code != MINTLINTEL_DONE)
        return code;
    if (has_doubts && (mtl_sides_go_back(file) != 0 || check_pages(file, mode) != 0))
        return MINTLINTEL_FILE_FAILED;
    return write_session(file, IN_USE) == 0 ? MINTLINTEL_DONE : MINTLINTEL_FILE_FAILED;
}

static uint32_t open_image(struct mintlintel_image_file *file, const char *path, const struct mintlintel_durable_numbers *numbers)
{
    uint32_t code = are_zero(numbers) ? MINTLINTEL_DONE : mtl_durable_fault(numbers);
    if (code == MINTLINTEL_DONE)
        code = open_file(file, path, numbers);
    return code == MINTLINTEL_DONE ? take_image(file, numbers) : code;
}

uint32_t mtl_image_open(struct mintlintel_image *image, const char *path, enum mintlintel_image_mode mode, const struct mintlintel_durable_numbers *numbers,
                        uint64_t *losses)
{
    struct mintlintel_image_file *file = image->file ? NULL : calloc(1, sizeof *file);
    if (!file)
        return image->file ? MINTLINTEL_ALREADY_OPEN : MINTLINTEL_NO_MEMORY;
    struct mintlintel_nand nand = {file, image_read, image_program, image_copyback, image_erase, NULL, NULL, image_sync};
    file->why = (struct mtl_reason){refusal, drain, read_beside, NULL};
    file->opener = getpid();
    file->fd = -1;
    file->mode = mode;
    file->is_mounting = 1;
    mtl_read_boot(file->boot);
    uint32_t code = open_image(file, path, numbers);
    if (code == MINTLINTEL_DONE)
        code = mtl_durable_open(&image->device, &nand, &file->numbers, &file->why, losses);
    file->is_mounting = 0;
    file->cached = UINT32_MAX;
    if (code == MINTLINTEL_DONE) {
        image->file = file;
        return code;
    }
    int error = file->error ? file->error : errno;
    free_file(file);
    errno = error;
    return code;
}

void mtl_image_take_over(struct mintlintel_image *image)
{
    image->file->opener = getpid();
}

/* What only the block device knows of, nothing else may open: it would give old pages, and use blocks that aren't read later. */
static uint32_t open_device(struct mintlintel_image *image, const char *path, enum mintlintel_image_mode mode,
                            const struct mintlintel_durable_numbers *numbers, uint64_t *losses)
{
    int is_worn;
    if (mode < MINTLINTEL_ALWAYS || mode > MINTLINTEL_NEVER)
        return MINTLINTEL_BAD_MODE;
    if (!image->file && mtl_bad_blocks(path, 0, NULL, &is_worn) == 1)
        return MINTLINTEL_BAD_BLOCKS_LISTED;
    return mtl_image_open(image, path, mode, numbers, losses);
}

uint32_t mintlintel_image_open(struct mintlintel_image *image, const char *path, enum mintlintel_image_mode mode, uint32_t luns, uint32_t blocks,
                               uint32_t pages, uint32_t page_bytes, uint32_t sectors)
{
    struct mintlintel_durable_numbers numbers = {luns, blocks, pages, page_bytes, sectors};
    return open_device(image, path, mode, &numbers, NULL);
}

uint32_t mintlintel_image_open_despite_losses(struct mintlintel_image *image, const char *path, enum mintlintel_image_mode mode, uint32_t luns,
                                              uint32_t blocks, uint32_t pages, uint32_t page_bytes, uint32_t sectors, uint64_t *losses)
{
    struct mintlintel_durable_numbers numbers = {luns, blocks, pages, page_bytes, sectors};
    return open_device(image, path, mode, &numbers, losses);
}

/* In mode `never` nothing says that the pages are on the disk, so the session stays in use until its machine ends. */
static uint32_t end_session(struct mintlintel_image_file *file)
{
    file->is_closing = 1;
    if (file->mode != MINTLINTEL_NEVER && (mtl_file_sync(file) != 0 || write_session(file, CLOSED) != 0))
        return MINTLINTEL_FILE_FAILED;
    mtl_sides_punch(file);
    return MINTLINTEL_DONE;
}

/* A child that closes its copy of the handle leaves the file as it is. */
uint32_t mintlintel_image_close(struct mintlintel_image *image)
{
    struct mintlintel_image_file *file = image->file;
    mintlintel_durable_close(&image->device);
    image->file = NULL;
    uint32_t code = file && refusal(&file->why) == MINTLINTEL_DONE ? end_session(file) : MINTLINTEL_DONE;
    int error = file ? file->error : 0;
    free_file(file);
    if (code != MINTLINTEL_DONE)
        errno = error;
    return code;
}

int mintlintel_image_errno(const struct mintlintel_image *image)
{
    return image->file ? image->file->error : 0;
}

/* ---- Copies ---- */

uint32_t mintlintel_image_copy(struct mintlintel_image *image, const char *path)
{
    if (!image->file || !is_own(image->file))
        return image->file ? MINTLINTEL_OTHER_PROCESS : MINTLINTEL_CLOSED;
    int to = open(path, O_RDWR | O_CREAT | O_EXCL | O_CLOEXEC, 0666);
    if (to < 0)
        return MINTLINTEL_NO_FILE;
    int is_synced = has_failed(image->file) || image->file->mode != MINTLINTEL_FLUSH || image_sync(image->file) == 0;
    int error = is_synced ? mtl_copy_data(image->file->fd, to, (off_t)image->file->layout.length) : image->file->error;
    if (error == 0 && image->file->mode != MINTLINTEL_NEVER)
        error = fsync(to) == 0 && sync_name(path) == 0 ? 0 : errno;
    close(to);
    if (error == 0)
        return MINTLINTEL_DONE;
    unlink(path);
    errno = error;
    return MINTLINTEL_FILE_FAILED;
}
