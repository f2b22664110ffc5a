/* An open image, and the commands of its chip that wait. Plain C, and not proved. */
#ifndef IMAGE_FILE_H
#define IMAGE_FILE_H

#include "flash.h"
#include "image_format.h"
#include <sys/uio.h>
#include <unistd.h>

/* How many commands wait at most, of how many pages one call of the system writes the main bytes or the spare bytes, and how many turns the threads share
 * that wait for a command. */
enum { MOST_WAITING = 1024, MOST_TOGETHER = MTL_MOST_OF_A_RUN, TURNS = 32 };
/* The page of an erase. */
#define WHOLE_BLOCK UINT32_MAX

/* A program of these main bytes, a copy of a page if they are null, or an erase. */
struct command { uint32_t block, page; const uint8_t *main; struct mintlintel_place from; };

/* The commands that the layer has given and that aren't done. Each has a number: those below `done` are done, and those from there to `told` wait. From
 * `let_go` on they belong to the thread that makes the layer's calls. Those before it are done in their order, by one thread at a time, the leader: so a
 * process that is killed leaves a first part of them done, as if it had been killed between two commands. Pages that stand one behind another in a block
 * are written together: one call of the system writes all main bytes, and one all spare bytes. Nothing is read of a block of which a command waits. */
struct queue {
    struct command commands[MOST_WAITING]; /* under the layer's lock, as `told` and what is kept */
    uint8_t spares[MOST_WAITING][SPARE_BYTES];
    uint64_t told, let_go; /* `let_go` is atomic */
    const uint8_t *kept, *kept_end; /* a page with these main bytes may wait after its call has returned */
    uint8_t *copies; /* the leader's room for the main bytes of copies, if the file isn't mapped */
    /* What follows is atomic. Who waits for a command sleeps at `ended`, in the turn of the command's number. */
    uint64_t done;
    uint32_t is_led, ended, sleepers[TURNS]; /* whether there is a leader; how often one has ended; how many sleep in each turn */
};

/* Each block's side. In mode `flush` an erase moves the block to its other side, and the one before keeps what it had at the last checkpoint, which a sync
 * makes. After a power cut all blocks that have moved since are back in the sides before. */
struct sides {
    uint8_t *of_blocks;      /* 0 or 1, and HAS_MOVED since the last checkpoint. Atomic */
    uint32_t *moved, count;  /* the blocks that have moved */
    uint64_t checkpoint;     /* the number of the last one */
    uint64_t last;           /* the same, or the number of a list that an open hasn't taken */
    int is_list;             /* whether that is a list */
    struct filled list[MOST_LISTED]; /* the blocks that were programmed since the last checkpoint. The last one was erased last */
    uint32_t listed;
    int is_unlisted;         /* others were programmed too */
};
enum { HAS_MOVED = 2 };

struct mintlintel_image_file {
    struct mtl_reason why;   /* first, so that it is found by it */
    pid_t opener;            /* the process that has it: a child by fork has the descriptor, the lock and this memory too */
    int fd, error;           /* the errno of the first failure, or 0 */
    uint32_t reason;         /* MINTLINTEL_FILE_FAILED after one, and MINTLINTEL_OTHER_PROCESS in a child. Atomic */
    enum mintlintel_image_mode mode;
    uint8_t boot[BOOT_BYTES]; /* the name of this run of the machine, or zeros */
    struct mintlintel_durable_numbers numbers;
    struct image_layout layout;
    struct sides sides;
    int is_mounting, is_closing, is_dirty, is_erased; /* stamps or such were written since the last sync; a block was erased since then */
    uint32_t cached;         /* the block whose spare bytes are in `spares`; it isn't programmed before it is erased */
    uint8_t *spares, *zeros, *page;
    uint8_t *map;            /* the bytes of the file, or null. Only the system reads them: where it can't, a write fails */
    off_t data_from, data_to; /* while mounting: no data stands between these places */
    struct queue queue;
};

/* ---- Bytes of the file: 0, or 3 after a failure, which every call returns from then on ---- */

int mtl_file_failed(struct mintlintel_image_file *file, int error);
int mtl_file_get(struct mintlintel_image_file *file, void *bytes, size_t count, off_t at);
int mtl_file_set(struct mintlintel_image_file *file, const void *bytes, size_t count, off_t at);
int mtl_file_set_parts(struct mintlintel_image_file *file, struct iovec *parts, uint32_t count, off_t at);
int mtl_file_sync(struct mintlintel_image_file *file);

static inline int has_failed(const struct mintlintel_image_file *file)
{
    return __atomic_load_n(&file->reason, __ATOMIC_ACQUIRE) != 0;
}

/* Whether this process has the image. A child has not: another process writes to the file, and threads that lead or hold a lock are gone. */
static inline int is_own(const struct mintlintel_image_file *file)
{
    return file->opener == getpid();
}

/* ---- Sides: 0 or 3 ---- */

/* Whether an erase moves its block: in mode `flush`, if a block has two sides, and the next open can tell whether the power was cut. */
int mtl_sides_move(const struct mintlintel_image_file *file);

/* Writes the entries and checkpoints of a new image, so that there is room for them on the disk: 0, 6 or 46. */
uint32_t mtl_sides_make(struct mintlintel_image_file *file);

/* Reads the checkpoint and the sides, of an image that may have lost power: 0, 6, 42 or 46. */
uint32_t mtl_sides_read(struct mintlintel_image_file *file, int has_doubts);

/* After a power cut: blocks that have moved since the last checkpoint are back. A sync makes that durable. */
int mtl_sides_go_back(struct mintlintel_image_file *file);

/* Erases a block: on its other side, unless it has moved already or doesn't move. */
int mtl_sides_erase(struct mintlintel_image_file *file, uint32_t block);

/* Notes that a page was programmed. */
void mtl_sides_fill(struct mintlintel_image_file *file, uint32_t block, uint32_t page, const uint8_t *spare);

/* Whether blocks have moved, and a checkpoint can list all that was programmed. */
int mtl_sides_are_listed(const struct mintlintel_image_file *file);

/* Writes the next checkpoint, a list or a plain one, and once that is durable lets the sides go that blocks have moved from. */
int mtl_sides_write_checkpoint(struct mintlintel_image_file *file, int is_list);
void mtl_sides_let_go(struct mintlintel_image_file *file, int is_list);

/* Gives the disk's room of all sides that no block has back, if the system can. */
void mtl_sides_punch(const struct mintlintel_image_file *file);

static inline uint32_t side_of(const struct mintlintel_image_file *file, uint32_t block)
{
    return __atomic_load_n(&file->sides.of_blocks[block], __ATOMIC_SEQ_CST) & 1;
}

static inline off_t side_at(const struct mintlintel_image_file *file, uint32_t block, uint32_t side)
{
    return (off_t)mtl_side_at(&file->numbers, &file->layout, block, side);
}

/* Where the spare bytes of a page stand, and its main bytes. */
static inline off_t spare_at(const struct mintlintel_image_file *file, uint32_t block, uint32_t page)
{
    return side_at(file, block, side_of(file, block)) + (off_t)page * SPARE_BYTES;
}

static inline off_t page_at(const struct mintlintel_image_file *file, uint32_t block, uint32_t page)
{
    return side_at(file, block, side_of(file, block)) + (off_t)(file->layout.spare_bytes + (uint64_t)page * file->numbers.page_bytes);
}

/* ---- The commands that wait: 0 or 3 ---- */

/* Adds a command, with the spare bytes of a page. */
int mtl_queue_add(struct mintlintel_image_file *file, const struct command *command, const uint8_t *spare);

/* Whether a command of this block waits. */
int mtl_queue_has(const struct mintlintel_image_file *file, uint32_t block);

/* Lets all commands go: the number behind the last of them. Then they are done with mtl_queue_commit, which needs no lock and returns once all before
 * this number are done. */
uint64_t mtl_queue_let_go(struct queue *queue);
int mtl_queue_commit(struct mintlintel_image_file *file, uint64_t end);

/* Does all that waits. */
int mtl_queue_drain(struct mintlintel_image_file *file);

#endif
