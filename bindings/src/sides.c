/* The sides of an image's blocks, and its checkpoints: docs/FORMATS.md says how they stand in the file. This file is plain C, and not proved. */
#define _GNU_SOURCE
#define _FILE_OFFSET_BITS 64
#include "crc.h"
#include "image_file.h"
#include <fcntl.h>
#include <stdlib.h>
#include <string.h>

/* ---- Entries and checkpoints ---- */

static off_t entry_at(const struct mintlintel_image_file *file, uint32_t block)
{
    return (off_t)(file->layout.entries_at + (uint64_t)block * ENTRY_BYTES);
}

static off_t checkpoint_at(const struct mintlintel_image_file *file, uint32_t place)
{
    return (off_t)(file->layout.checkpoints_at + (uint64_t)place * PART_BYTES);
}

static int set_number(struct mintlintel_image_file *file, uint64_t number, off_t at)
{
    uint8_t entry[ENTRY_BYTES];
    mtl_checkpoint_into(entry, &(struct checkpoint){.number = number});
    return mtl_file_set(file, entry, sizeof entry, at);
}

uint32_t mtl_sides_make(struct mintlintel_image_file *file)
{
    uint32_t blocks = file->numbers.blocks;
    uint8_t *entries = malloc((size_t)blocks * ENTRY_BYTES);
    if (!entries)
        return MINTLINTEL_NO_MEMORY;
    for (uint32_t block = 0; block < blocks; block++)
        mtl_checkpoint_into(entries + (size_t)block * ENTRY_BYTES, &(struct checkpoint){0});
    int result = mtl_file_set(file, entries, (size_t)blocks * ENTRY_BYTES, entry_at(file, 0));
    for (uint32_t place = 0; result == 0 && place < CHECKPOINTS; place++)
        result = set_number(file, 0, checkpoint_at(file, place));
    free(entries);
    return result == 0 ? MINTLINTEL_DONE : MINTLINTEL_FILE_FAILED;
}

static void note_move(struct sides *sides, uint32_t block, uint32_t side)
{
    __atomic_store_n(&sides->of_blocks[block], (uint8_t)(side | HAS_MOVED), __ATOMIC_SEQ_CST);
    sides->moved[sides->count++] = block;
}

/* An entry has the number of the checkpoint that the block's last move comes before, and its side as the lowest bit. */
static void read_entries(struct sides *sides, const uint8_t *entries, uint32_t blocks)
{
    uint64_t number;
    for (uint32_t block = 0; block < blocks; block++) {
        mtl_entry_number(entries + (size_t)block * ENTRY_BYTES, &number);
        sides->of_blocks[block] = number % 2;
        if (number / 2 > sides->checkpoint)
            note_move(sides, block, number % 2);
    }
}

uint32_t mtl_sides_read(struct mintlintel_image_file *file, int has_doubts)
{
    struct image_bytes image = {file->fd, file->numbers, file->layout, file->spares, file->page};
    size_t bytes = (size_t)file->numbers.blocks * ENTRY_BYTES;
    struct taken taken;
    if (file->layout.sides == 1)
        return MINTLINTEL_DONE;
    uint8_t *entries = malloc(bytes);
    uint32_t code = !entries ? MINTLINTEL_NO_MEMORY : mtl_file_get(file, entries, bytes, entry_at(file, 0)) == 0 ? MINTLINTEL_DONE : MINTLINTEL_FILE_FAILED;
    if (code == MINTLINTEL_DONE)
        code = mtl_take_checkpoint(&image, entries, has_doubts, &taken);
    if (code == MINTLINTEL_DONE) {
        file->sides.checkpoint = taken.number;
        file->sides.last = taken.last;
        file->sides.is_list = taken.is_list;
        read_entries(&file->sides, entries, file->numbers.blocks);
    }
    free(entries);
    return code;
}

/* ---- Moves ---- */

int mtl_sides_go_back(struct mintlintel_image_file *file)
{
    struct sides *sides = &file->sides;
    for (; sides->count > 0; sides->count--) {
        uint32_t block = sides->moved[sides->count - 1], side = !side_of(file, block);
        if (set_number(file, sides->checkpoint * 2 + side, entry_at(file, block)) != 0)
            return 3;
        sides->of_blocks[block] = (uint8_t)side;
    }
    return 0;
}

int mtl_sides_move(const struct mintlintel_image_file *file)
{
    return file->mode == MINTLINTEL_FLUSH && file->layout.sides == 2 && file->boot[0];
}

/* An erased block is the last of the list from now on. */
static void list_erased(struct sides *sides, uint32_t block, uint32_t side)
{
    for (uint32_t i = 0; i < sides->listed; i++)
        if (sides->list[i].block == block)
            sides->list[i] = sides->list[--sides->listed];
    if (sides->listed == MOST_LISTED) {
        sides->is_unlisted = 1;
        sides->listed--;
    }
    sides->list[sides->listed++] = (struct filled){block, side, 0, 0};
}

void mtl_sides_fill(struct mintlintel_image_file *file, uint32_t block, uint32_t page, const uint8_t *spare)
{
    struct sides *sides = &file->sides;
    uint32_t at = sides->listed;
    while (at > 0 && sides->list[at - 1].block != block)
        at--;
    if (at == 0 || sides->list[at - 1].pages != page) {
        sides->is_unlisted = 1;
        return;
    }
    sides->list[at - 1].pages++;
    sides->list[at - 1].check = mtl_crc(sides->list[at - 1].check, spare, SPARE_BYTES);
}

int mtl_sides_are_listed(const struct mintlintel_image_file *file)
{
    return file->layout.has_lists && file->sides.count > 0 && !file->sides.is_unlisted;
}

/* A process that is killed has moved the block, or not. */
int mtl_sides_erase(struct mintlintel_image_file *file, uint32_t block)
{
    struct sides *sides = &file->sides;
    uint32_t side = side_of(file, block);
    int moves = mtl_sides_move(file) && !(sides->of_blocks[block] & HAS_MOVED);
    side ^= (uint32_t)moves;
    list_erased(sides, block, side);
    if (mtl_file_set(file, file->zeros, (size_t)file->numbers.pages * SPARE_BYTES, side_at(file, block, side)) != 0)
        return 3;
    if (!moves)
        return 0;
    if (set_number(file, (sides->checkpoint + 1) * 2 + side, entry_at(file, block)) != 0)
        return 3;
    note_move(sides, block, side);
    return 0;
}

/* Those with even numbers and those with odd ones take turns, so that the last one stays whole; each has a copy, in case that a bit of it is lost. */
int mtl_sides_write_checkpoint(struct mintlintel_image_file *file, int is_list)
{
    const struct sides *sides = &file->sides;
    struct checkpoint next = {.number = sides->last + 1, .count = is_list ? sides->listed : 0};
    uint8_t part[MOST_OF_A_CHECKPOINT];
    uint32_t place = next.number % 2;
    memcpy(next.list, sides->list, next.count * sizeof *next.list);
    size_t bytes = mtl_checkpoint_into(part, &next);
    return mtl_file_set(file, part, bytes, checkpoint_at(file, place)) != 0 ? 3 : mtl_file_set(file, part, bytes, checkpoint_at(file, place + 2));
}

void mtl_sides_let_go(struct mintlintel_image_file *file, int is_list)
{
    struct sides *sides = &file->sides;
    sides->checkpoint = ++sides->last;
    sides->is_list = is_list;
    for (; sides->count > 0; sides->count--) {
        uint32_t block = sides->moved[sides->count - 1];
        __atomic_store_n(&sides->of_blocks[block], (uint8_t)side_of(file, block), __ATOMIC_SEQ_CST);
    }
    if (sides->listed > 1)
        sides->list[0] = sides->list[sides->listed - 1];
    sides->listed = sides->listed > 0;
    sides->is_unlisted = 0;
}

void mtl_sides_punch(const struct mintlintel_image_file *file)
{
#ifdef FALLOC_FL_PUNCH_HOLE
    if (file->layout.sides == 1 || file->sides.count > 0)
        return;
    for (uint32_t block = 0, end; block < file->numbers.blocks; block = end) {
        uint32_t side = side_of(file, block);
        for (end = block + 1; end < file->numbers.blocks && side_of(file, end) == side;)
            end++;
        (void)!fallocate(file->fd, FALLOC_FL_PUNCH_HOLE | FALLOC_FL_KEEP_SIZE, side_at(file, block, !side),
                         (off_t)((end - block) * file->layout.block_bytes));
    }
#else
    (void)file;
#endif
}
