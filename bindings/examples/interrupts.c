/* A device by its steps, without a call that waits: a main loop starts a command of the chip, does other work, and goes on once the chip's interrupt has come.
 * The chip is an array, and each command takes some turns of the loop. Some commands fail, and their blocks are given up. */
#include <mintlintel_durable.h>
#include <stdio.h>
#include <string.h>

enum { BLOCKS = 32, RESERVE = 4, PAGES = 16, BYTES = 64, SECTORS = 300, WRITES = 20000 };
enum { NONE, PROGRAM, COPY, ERASE, READ, MARK };
enum { OWN_BYTES = 1, OF_PAGE, TRIMMED, LOST };

/* A page with its spare bytes, in which a stamp has its kind: a value, a trim, or lost. */
struct page { uint32_t is_written, kind, first, count; uint64_t number; unsigned char main[BYTES]; };

static struct page flash[BLOCKS][PAGES], fetched;
static struct mintlintel_core driver;
static struct mintlintel_step step;
static unsigned char buffer[BYTES];
static int turns_left, has_interrupt, answer;
static uint32_t random_state = 1;

static uint32_t drawn(uint32_t below)
{
    random_state = random_state * 1664525 + 1013904223;
    return (random_state >> 8) % below;
}

/* What the chip does while the loop goes on; at the end it raises its interrupt. A command that fails leaves its page as it was. */
static void chip_turn(void)
{
    struct page *page = &flash[step.block][step.page], *from = &flash[step.from_block][step.from_page];
    if (turns_left == 0 || --turns_left > 0)
        return;
    has_interrupt = 1;
    answer = step.kind < READ && drawn(16000) == 0;
    if (answer != 0)
        return;
    if (step.kind == PROGRAM) {
        *page = (struct page){1, step.value == OF_PAGE ? fetched.kind : step.value, step.first, step.count, step.number, {0}};
        memcpy(page->main, step.value == OWN_BYTES ? buffer : fetched.main, BYTES);
    } else if (step.kind == COPY)
        *page = *from;
    else if (step.kind == ERASE || step.kind == MARK)
        memset(flash[step.block], 0, sizeof flash[step.block]);
}

/* Starts the step that comes next, if there is one. */
static void start(void)
{
    turns_left = step.kind == NONE ? 0 : step.kind == ERASE ? 40 : 4;
}

/* Goes on after an interrupt: tells how the step has ended, and starts the next one. */
static void go_on(void)
{
    const struct page *page = &flash[step.block][step.page];
    has_interrupt = 0;
    if (step.kind == READ) {
        int is_version = page->is_written != 0;
        if (is_version)
            fetched = *page;
        mintlintel_driver_found(&driver, !is_version ? 0 : page->kind == TRIMMED ? 2 : 1, page->first, page->count, page->number, &step);
    } else
        mintlintel_driver_done(&driver, (uint32_t)answer, &step);
    start();
}

/* Mounts the chip, which is empty, with its last blocks in reserve. */
static uint32_t mount(void)
{
    uint32_t numbers[BLOCKS], code = mintlintel_core_open_over(&driver, BLOCKS, BLOCKS - RESERVE, PAGES, SECTORS);
    for (uint32_t page = 0; code == MINTLINTEL_DONE && page < BLOCKS * PAGES; page++)
        code = mintlintel_core_note(&driver, 0, 0, 0, 0);
    if (code == MINTLINTEL_DONE)
        code = mintlintel_core_finish(&driver);
    for (uint32_t block = 0; block < BLOCKS; block++)
        numbers[block] = block;
    return code == MINTLINTEL_DONE ? mintlintel_driver_open(&driver, numbers, BLOCKS, BLOCKS) : code;
}

int main(void)
{
    static unsigned char written[SECTORS];
    long writes = 0, other_work = 0;
    uint32_t sector = 0, code = mount();
    for (int is_writing = 0; code == MINTLINTEL_DONE && (writes < WRITES || is_writing); other_work++) {
        if (!is_writing) { /* the last write has ended: begin the next one */
            sector = drawn(SECTORS);
            memset(buffer, (int)(1 + drawn(255)), BYTES);
            code = mintlintel_driver_begin(&driver, sector, 1, 0, &step);
            start();
            is_writing = 1;
        } else if (has_interrupt)
            go_on();
        if (is_writing && step.kind == NONE) {
            code = mintlintel_driver_result(&driver);
            written[sector] = code == MINTLINTEL_DONE ? buffer[0] : written[sector];
            writes += code == MINTLINTEL_DONE;
            is_writing = 0;
        }
        chip_turn();
    }
    for (sector = 0; sector < SECTORS; sector++) {
        struct mintlintel_place at;
        int has_page = mintlintel_driver_page(&driver, sector, &at) == MINTLINTEL_WRITTEN;
        if (has_page != (written[sector] != 0) || (has_page && flash[at.block][at.page].main[0] != written[sector]))
            return 1;
    }
    uint32_t reserve = 0;
    mintlintel_driver_reserve(&driver, &reserve);
    printf("%ld writes in %ld turns of a loop, in which %u blocks failed; %s\n", writes, other_work, RESERVE - reserve, mintlintel_durable_code_name(code));
    mintlintel_core_close(&driver);
    return writes == 0;
}
