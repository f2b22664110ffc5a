/* The commands of an image's chip that wait: they are done together, by several threads. This file is plain C, and not proved. */
#define _GNU_SOURCE
#define _FILE_OFFSET_BITS 64
#include "image_file.h"
#include "readers.h"
#include <fcntl.h>
#include <limits.h>
#include <sched.h>
#include <string.h>
#ifdef __linux__
#include <linux/futex.h>
#include <sys/syscall.h>
#include <unistd.h>
#endif

/* How often a thread lets others run before it sleeps. */
enum { YIELDS = 4 };

static const struct command *command_at(const struct queue *queue, uint64_t number)
{
    return &queue->commands[number % MOST_WAITING];
}

static uint64_t done_of(const struct queue *queue)
{
    return __atomic_load_n(&queue->done, __ATOMIC_SEQ_CST);
}

/* ---- Doing them ---- */

/* How many of these commands are programs and copies of pages that stand one behind another. */
static uint32_t run_from(const struct queue *queue, uint64_t first, uint64_t end)
{
    const struct command *from = command_at(queue, first);
    uint32_t run = 1;
    while (run < MOST_TOGETHER && first + run < end && command_at(queue, first + run)->block == from->block
           && command_at(queue, first + run)->page == from->page + run)
        run++;
    return run;
}

/* Reads the main bytes of the copies among these commands, those that stand one behind another together. */
static int read_copies(struct mintlintel_image_file *file, uint64_t first, uint32_t count)
{
    const struct queue *queue = &file->queue;
    size_t bytes = file->numbers.page_bytes;
    for (uint32_t i = 0, run; i < count; i += run) {
        const struct command *copy = command_at(queue, first + i);
        run = 1;
        if (copy->main)
            continue;
        for (const struct command *next; i + run < count; run++) {
            next = command_at(queue, first + i + run);
            if (next->main || next->from.block != copy->from.block || next->from.page != copy->from.page + run)
                break;
        }
        if (mtl_file_get(file, queue->copies + i * bytes, run * bytes, page_at(file, copy->from.block, copy->from.page)) != 0)
            return 3;
    }
    return 0;
}

/* In mode `flush` an erase of a block that doesn't move has to be on the disk before what comes after it, and behind what came before it. */
static int syncs_erases(const struct mintlintel_image_file *file)
{
    return file->mode == MINTLINTEL_FLUSH && !mtl_sides_move(file);
}

/* The main bytes of a command: those that it was given, or of a copy where its page stands in the map of the file, or where they are read to. */
static void *main_of(const struct mintlintel_image_file *file, const struct command *command, uint8_t *copy)
{
    if (command->main)
        return (void *)command->main;
    return file->map ? file->map + page_at(file, command->from.block, command->from.page) : copy;
}

/* Tells readers of a page that is programmed. The block device has a program fail by a stamp that doesn't fit. */
static void tell(const struct mintlintel_image_file *file, uint64_t number)
{
    const uint8_t *spare = file->queue.spares[number % MOST_WAITING];
    const struct command *command = command_at(&file->queue, number);
    struct stamp stamp = mtl_stamp_from(spare);
    if (mintlintel_stamp_fits(spare, NULL, 0))
        mtl_readers_told(file->why.readers, command->main ? TOLD_NEW : TOLD_COPY, &stamp, command->block, command->page);
}

/* Programs pages that stand one behind another. The main bytes come first, so that a stamp never stands beside less than its page when the process is
 * killed. */
static int program(struct mintlintel_image_file *file, uint64_t first, uint32_t count)
{
    struct queue *queue = &file->queue;
    struct iovec main[MOST_TOGETHER], spares[MOST_TOGETHER];
    const struct command *command = command_at(queue, first);
    size_t bytes = file->numbers.page_bytes;
    for (uint32_t i = 0; i < count; i++) {
        main[i] = (struct iovec){main_of(file, command_at(queue, first + i), queue->copies + i * bytes), bytes};
        spares[i] = (struct iovec){queue->spares[(first + i) % MOST_WAITING], SPARE_BYTES};
    }
    if (syncs_erases(file) && file->is_erased && mtl_file_sync(file) != 0)
        return 3;
    if ((!file->map && read_copies(file, first, count) != 0) ||
        mtl_file_set_parts(file, main, count, page_at(file, command->block, command->page)) != 0 ||
        mtl_file_set_parts(file, spares, count, spare_at(file, command->block, command->page)) != 0)
        return 3;
    for (uint32_t i = 0; i < count; i++)
        mtl_sides_fill(file, command->block, command->page + i, queue->spares[(first + i) % MOST_WAITING]);
    if (file->mode == MINTLINTEL_ALWAYS && mtl_file_sync(file) != 0)
        return 3;
    for (uint32_t i = 0; file->why.readers && i < count; i++)
        tell(file, first + i);
    return 0;
}

static int erase(struct mintlintel_image_file *file, uint32_t block)
{
    if (syncs_erases(file) && mtl_file_sync(file) != 0)
        return 3;
    if (mtl_sides_erase(file, block) != 0)
        return 3;
    file->is_erased = 1;
    return file->mode == MINTLINTEL_ALWAYS ? mtl_file_sync(file) : 0;
}

/* Does these commands. */
static int perform(struct mintlintel_image_file *file, uint64_t first, uint64_t end)
{
    const struct queue *queue = &file->queue;
    int result = 0;
    for (uint32_t run; result == 0 && first < end; first += run) {
        const struct command *command = command_at(queue, first);
        run = command->page == WHOLE_BLOCK ? 1 : run_from(queue, first, end);
        result = command->page == WHOLE_BLOCK ? erase(file, command->block) : program(file, first, run);
    }
    return result;
}

/* ---- Threads ---- */

static uint64_t let_go_of(const struct queue *queue)
{
    return __atomic_load_n(&queue->let_go, __ATOMIC_SEQ_CST);
}

static int is_led(const struct queue *queue)
{
    return __atomic_load_n(&queue->is_led, __ATOMIC_SEQ_CST);
}

/* Sleeps in a turn, unless a leader has ended since the count of these was read. */
static void sleep_in(struct queue *queue, uint32_t turn, uint32_t ended)
{
#ifdef __linux__
    syscall(SYS_futex, &queue->ended, FUTEX_WAIT_BITSET_PRIVATE, ended, NULL, NULL, 1u << turn);
#else
    (void)queue, (void)turn, (void)ended;
    sched_yield();
#endif
}

/* Wakes threads that sleep until one of these commands is done, at most so many. All of them take one call, and nobody who wakes takes a lock: with a
 * condition each would sleep once more, at its mutex. */
static void wake(struct queue *queue, uint64_t first, uint64_t end, int most)
{
    uint32_t turns = 0;
    for (uint64_t number = end - first > TURNS ? end - TURNS : first; number < end; number++)
        turns |= (uint32_t)(__atomic_load_n(&queue->sleepers[number % TURNS], __ATOMIC_SEQ_CST) > 0) << number % TURNS;
#ifdef __linux__
    if (turns)
        syscall(SYS_futex, &queue->ended, FUTEX_WAKE_BITSET_PRIVATE, most, NULL, NULL, turns);
#else
    (void)turns, (void)most;
#endif
}

/* Does the commands that were let go. Then it wakes the threads that wait for these, or after a failure all, and one that does what was let go meanwhile.
 * If none of those sleeps, they come by themselves. */
static void lead(struct mintlintel_image_file *file)
{
    struct queue *queue = &file->queue;
    uint64_t first = done_of(queue), end = let_go_of(queue);
    int result = has_failed(file) ? 3 : perform(file, first, end);
    if (result == 0)
        __atomic_store_n(&queue->done, end, __ATOMIC_SEQ_CST);
    __atomic_store_n(&queue->is_led, 0, __ATOMIC_SEQ_CST);
    __atomic_fetch_add(&queue->ended, 1, __ATOMIC_SEQ_CST);
    wake(queue, first, result == 0 ? end : first + TURNS, INT_MAX);
    wake(queue, end, let_go_of(queue), 1);
}

/* Waits until all before this number is done, or nobody leads, or less. A leader is mostly done before a thread that sleeps would be awake again. */
static void wait_for(struct queue *queue, uint64_t end)
{
    uint32_t turn = (uint32_t)((end - 1) % TURNS);
    for (int i = 0; i < YIELDS; i++) {
        sched_yield();
        if (done_of(queue) >= end || !is_led(queue))
            return;
    }
    __atomic_fetch_add(&queue->sleepers[turn], 1, __ATOMIC_SEQ_CST);
    uint32_t ended = __atomic_load_n(&queue->ended, __ATOMIC_SEQ_CST);
    if (done_of(queue) < end && is_led(queue))
        sleep_in(queue, turn, ended);
    __atomic_fetch_sub(&queue->sleepers[turn], 1, __ATOMIC_SEQ_CST);
}

int mtl_queue_commit(struct mintlintel_image_file *file, uint64_t end)
{
    struct queue *queue = &file->queue;
    while (done_of(queue) < end) {
        if (is_led(queue))
            wait_for(queue, end);
        else if (has_failed(file))
            return 3;
        else if (__atomic_exchange_n(&queue->is_led, 1, __ATOMIC_SEQ_CST) == 0)
            lead(file);
    }
    return 0;
}

/* ---- Under the layer's lock ---- */

uint64_t mtl_queue_let_go(struct queue *queue)
{
    __atomic_store_n(&queue->let_go, queue->told, __ATOMIC_SEQ_CST);
    return queue->told;
}

int mtl_queue_drain(struct mintlintel_image_file *file)
{
    return mtl_queue_commit(file, mtl_queue_let_go(&file->queue));
}

int mtl_queue_has(const struct mintlintel_image_file *file, uint32_t block)
{
    const struct queue *queue = &file->queue;
    for (uint64_t number = done_of(queue); number < queue->told; number++)
        if (command_at(queue, number)->block == block)
            return 1;
    return 0;
}

int mtl_queue_add(struct mintlintel_image_file *file, const struct command *command, const uint8_t *spare)
{
    struct queue *queue = &file->queue;
    if (queue->told - done_of(queue) == MOST_WAITING && mtl_queue_drain(file) != 0)
        return 3;
    queue->commands[queue->told % MOST_WAITING] = *command;
    if (spare)
        memcpy(queue->spares[queue->told % MOST_WAITING], spare, SPARE_BYTES);
    queue->told++;
    return 0;
}
