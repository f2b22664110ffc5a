/* answers.c: asks a driver for each answer that struct mintlintel_nand has, on a device whose blocks are all free, and looks at the flash by another handle.
 *
 *   answers DEVICE spare|head [BAD,..]
 *   answers DEVICE lacks TEXT      the driver has to refuse the device, with this text
 *   answers DEVICE fails BLOCK     an erase of BLOCK, and a program of its first pages, have to fail within some tries
 */
#include "array.h"
#include "hurt.h"
#include <stdio.h>
#include <stdlib.h>
#include <string.h>

enum { MOST_BLOCKS = 4096, MOST_PAGE = 65536, MANY = 100 };

static struct flash flash;
static int is_alone; /* a stamp may be read without its page */
static uint8_t bad[MOST_BLOCKS], main_bytes[MOST_PAGE], stamp[MINTLINTEL_STAMP_BYTES], read_bytes[MOST_PAGE], read_stamp[MINTLINTEL_STAMP_BYTES];

static uint32_t good_block(uint32_t nth)
{
    for (uint32_t block = 0;; block++)
        if (!bad[block] && nth-- == 0)
            return block;
}

/* A page with a stamp whose check fits: the library makes stamps, so a small device in memory is asked for one. */
static int note_stamp(void *chip, uint32_t block, uint32_t page, const void *main, const void *its_stamp)
{
    (void)chip, (void)block, (void)page, (void)main;
    memcpy(stamp, its_stamp, sizeof stamp);
    return 0;
}

static int read_erased(void *chip, uint32_t block, uint32_t page, void *main, void *its_stamp)
{
    (void)chip, (void)block, (void)page, (void)main, (void)its_stamp;
    return 1;
}

static int erase_nothing(void *chip, uint32_t block)
{
    (void)chip, (void)block;
    return 0;
}

static void make_page(uint32_t sector, uint32_t version)
{
    struct mintlintel_nand maker = {.read = read_erased, .program = note_stamp, .erase = erase_nothing};
    struct mintlintel_durable device = {0};
    array_fill(main_bytes, flash.page_bytes, sector, version);
    if (mintlintel_durable_open(&device, &maker, 1, 4, 64, flash.page_bytes, 100) != MINTLINTEL_DONE
        || mintlintel_durable_write(&device, sector, main_bytes, flash.page_bytes) != MINTLINTEL_DONE)
        wrong("a device in memory makes no stamp");
    mintlintel_durable_close(&device);
}

/* Reads a page whole, and its stamp alone: both have this answer, and what is read is what make_page made last. Of a page that can't be read the stamp may
 * be read, where it stands alone. */
static void expect(uint32_t block, uint32_t page, int answer, const char *what)
{
    static const char *const names[] = {"read", "erased", "unreadable", "power gone"};
    for (int whole = 1; whole >= 0; whole--) {
        memset(read_bytes, 0, flash.page_bytes);
        memset(read_stamp, 0, sizeof read_stamp);
        int told = flash.nand.read(flash.nand.chip, block, page, whole ? read_bytes : NULL, read_stamp);
        if (told != answer && !(is_alone && !whole && answer == 2 && told == 0))
            wrong("%s is told as %s, and is %s%s", what, names[told & 3], names[answer], whole ? "" : ", where its stamp alone is read");
        if (answer == 0 && whole && memcmp(read_bytes, main_bytes, flash.page_bytes) != 0)
            wrong("%s: other bytes are read", what);
        if (told == 0 && memcmp(read_stamp, stamp, sizeof stamp) != 0)
            wrong("%s: another stamp is read", what);
    }
}

static void do_erase(uint32_t block)
{
    if (flash.nand.erase(flash.nand.chip, block) != 0)
        wrong("an erase of block %u failed", block);
    if (hurt_held(block) != 0)
        wrong("block %u was told as erased before it was", block);
}

static void do_program(uint32_t block, uint32_t page)
{
    if (flash.nand.program(flash.nand.chip, block, page, main_bytes, stamp) != 0)
        wrong("a program of block %u, page %u failed", block, page);
    if (hurt_held(block) != page + 1)
        wrong("block %u doesn't have the page that was told as programmed", block);
}

static void open_again(const char *path, enum flash_place place)
{
    flash_close(&flash);
    const char *fault = flash_open(&flash, path, place);
    if (fault)
        wrong("a second open: %s", fault);
}

static void pages_of_a_block(const char *path, enum flash_place place)
{
    uint32_t block = good_block(0), other = good_block(1);
    do_erase(block);
    do_erase(other);
    make_page(0, 1);
    do_program(other, 0);
    for (uint32_t page = 0; page < flash.pages; page++) {
        expect(block, page, 1, "an erased page");
        make_page(page % 100, page + 1);
        do_program(block, page);
        expect(block, page, 0, "a page");
    }
    open_again(path, place);
    for (uint32_t page = 0; page < flash.pages; page++) {
        make_page(page % 100, page + 1);
        expect(block, page, 0, "a page after a second open");
    }
    do_erase(block);
    do_erase(other);
    expect(block, flash.pages - 1, 1, "a page that was erased");
}

/* Each cut of a program, behind a whole page, as the next open finds it. */
static void torn_pages(const char *path, enum flash_place place)
{
    uint32_t block = good_block(1);
    for (unsigned how = 0; how < PROGRAM_CUTS; how++) {
        char what[40];
        do_erase(block);
        make_page(1, how + 1);
        do_program(block, 0);
        make_page(2, how + 100);
        hurt_program(block, 1, main_bytes, stamp, how);
        open_again(path, place);
        snprintf(what, sizeof what, "a torn page of kind %u", how);
        if (how == CUT_NOTHING)
            expect(block, 1, 1, "a page of a program that was cut before it began");
        else
            expect(block, 1, how == CUT_WHOLE ? 0 : 2, how == CUT_WHOLE ? "a page of a program that was cut at its end" : what);
    }
    do_erase(block);
}

/* Bits that flip in a page. Some more of them than the ECC mends are found, or mended wrongly. */
static void flipped_bits(void)
{
    uint32_t block = good_block(2);
    int mended = hurt_mended();
    for (int bits = 1; mended > 0 && bits <= mended + 2; bits++) {
        char what[100];
        do_erase(block);
        make_page(3, (uint32_t)bits);
        do_program(block, 0);
        hurt_flip(block, bits);
        snprintf(what, sizeof what, "a page with %d wrong bits of which the ECC mends %d", bits, mended);
        expect(block, 0, bits <= mended ? 0 : 2, what);
        do_erase(block);
    }
}

static void bad_blocks(const char *path, enum flash_place place)
{
    for (uint32_t block = 0; block < flash.blocks; block++)
        if (bad[block] != (flash.nand.is_bad && flash.nand.is_bad(flash.nand.chip, block)))
            wrong("block %u is %s, and the driver says that it isn't", block, bad[block] ? "bad" : "good");
    if (!flash.nand.mark_bad)
        return;
    if (flash.nand.is_bad(flash.nand.chip, flash.blocks) != 3)
        wrong("block %u isn't there, and the driver answers for it", flash.blocks);
    uint32_t block = good_block(3);
    if (flash.nand.mark_bad(flash.nand.chip, block) != 0)
        wrong("block %u can't be marked", block);
    open_again(path, place);
    if (flash.nand.is_bad(flash.nand.chip, block) != 1)
        wrong("block %u was marked bad, and isn't", block);
}

static int refused(const char *path, const char *text)
{
    enum flash_place place = FLASH_SPARE;
    const char *fault = flash_open(&flash, path, place);
    if (!fault || !strstr(fault, text))
        wrong("%s: %s; it should say: %s", path, fault ? fault : "opened", text);
    printf("right: refused: %s\n", fault);
    return 0;
}

/* Of a block that wears out: an erase or a program of it has the answer 1 before long. */
static int failing(uint32_t block)
{
    int answer = 0, is_erase = 0;
    for (int i = 0; i < MANY && answer == 0; i++) {
        is_erase = 1;
        answer = flash.nand.erase(flash.nand.chip, block);
        for (uint32_t page = 0; answer == 0 && page < 4; page++) {
            make_page(page, (uint32_t)i + 1);
            is_erase = 0;
            answer = flash.nand.program(flash.nand.chip, block, page, main_bytes, stamp);
        }
    }
    if (answer != 1)
        wrong("a worn block's %s answered %d, and not 1", is_erase ? "erase" : "program", answer);
    printf("right: %s of block %u failed, and was told so\n", is_erase ? "an erase" : "a program", block);
    return 0;
}

int main(int count, char **words)
{
    setvbuf(stdout, NULL, _IOLBF, 0);
    if (count < 3)
        return 2;
    if (count == 4 && strcmp(words[2], "lacks") == 0)
        return refused(words[1], words[3]);
    enum flash_place place = strcmp(words[2], "spare") == 0 || strcmp(words[2], "fails") == 0 ? FLASH_SPARE : FLASH_HEAD;
    is_alone = place == FLASH_SPARE;
    const char *fault = flash_open(&flash, words[1], place);
    if (fault || hurt_open(&flash, words[1], place) != 0)
        wrong("%s: %s", words[1], fault ? fault : "no second handle");
    if (strcmp(words[2], "fails") == 0)
        return failing((uint32_t)atoi(words[3]));
    for (char *word = count > 3 ? strtok(words[3], ",") : NULL; word; word = strtok(NULL, ","))
        bad[atoi(word) % MOST_BLOCKS] = 1;
    bad_blocks(words[1], place);
    bad[good_block(3)] |= flash.nand.mark_bad != NULL;
    pages_of_a_block(words[1], place);
    torn_pages(words[1], place);
    flipped_bits();
    printf("right: %u blocks of %u pages of %u bytes\n", flash.blocks, flash.pages, flash.page_bytes);
    return 0;
}
