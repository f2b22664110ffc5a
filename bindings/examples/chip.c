/* chip.c: a device that survives power cuts, over flash in an array. Its power goes in the middle of a write, and the next open has every write that was
 * acknowledged. */
#include <mintlintel_durable.h>
#include <stdio.h>
#include <string.h>

enum { BLOCKS = 8, PAGES = 16, PAGE = 512, SECTORS = 100 };
enum { ERASED, TORN, VERSION, GONE = 3 };

static struct { int contents; unsigned char main[PAGE], stamp[MINTLINTEL_STAMP_BYTES]; } chip[BLOCKS][PAGES];
static int commands_left = 300; /* the power goes inside the last of them */

static int read(void *unused, uint32_t block, uint32_t page, void *main, void *stamp)
{
    (void)unused;
    if (chip[block][page].contents != VERSION)
        return chip[block][page].contents == ERASED ? 1 : 2;
    if (main)
        memcpy(main, chip[block][page].main, PAGE);
    memcpy(stamp, chip[block][page].stamp, MINTLINTEL_STAMP_BYTES);
    return 0;
}

static int program(void *unused, uint32_t block, uint32_t page, const void *main, const void *stamp)
{
    (void)unused;
    chip[block][page].contents = TORN;
    if (--commands_left <= 0)
        return GONE;
    memcpy(chip[block][page].main, main, PAGE);
    memcpy(chip[block][page].stamp, stamp, MINTLINTEL_STAMP_BYTES);
    chip[block][page].contents = VERSION;
    return 0;
}

static int erase(void *unused, uint32_t block)
{
    (void)unused;
    for (int page = 0; page < PAGES; page++)
        chip[block][page].contents = ERASED;
    return --commands_left <= 0 ? GONE : 0;
}

int main(void)
{
    struct mintlintel_nand nand = {.read = read, .program = program, .erase = erase};
    struct mintlintel_durable device = {0};
    unsigned char page[PAGE] = {0}, held[SECTORS] = {0};
    uint32_t code = mintlintel_durable_open(&device, &nand, 1, BLOCKS, PAGES, PAGE, SECTORS), sector = 0;
    for (int i = 0; code <= MINTLINTEL_WRITTEN; i++) {
        sector = (uint32_t)(i * 7 % SECTORS);
        memset(page, i % 255 + 1, PAGE);
        code = mintlintel_durable_write(&device, sector, page, PAGE);
        if (code <= MINTLINTEL_WRITTEN)
            held[sector] = page[0];
    }
    printf("sector %u: %s\n", sector, mintlintel_durable_code_name(code));
    mintlintel_durable_close(&device);
    commands_left = 300;
    code = mintlintel_durable_open(&device, &nand, 1, BLOCKS, PAGES, PAGE, SECTORS);
    for (uint32_t k = 0; k < SECTORS && code == MINTLINTEL_DONE; k++) {
        memset(page, 0, PAGE);
        if (mintlintel_durable_read(&device, k, page, PAGE) > MINTLINTEL_WRITTEN || (page[0] != held[k] && k != sector))
            code = MINTLINTEL_UNREADABLE;
    }
    mintlintel_durable_close(&device);
    puts(code == MINTLINTEL_DONE ? "every acknowledged write is there" : mintlintel_durable_code_name(code));
    return code != MINTLINTEL_DONE;
}
