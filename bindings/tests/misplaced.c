/* A chip that gives another page than the one that was asked for, whole and with its stamp, as a controller with a wrong address would. A read never
 * answers with what another sector has. Of an older page of the same sector nothing shows that it is old. */
#include "cut_chip.h"

enum { SECTORS = 6 };

struct misplacing { struct cut_chip chip; int is_wrong; uint32_t block, page, instead_block, instead_page; };

static int misplaced_read(void *at, uint32_t block, uint32_t page, void *main, void *stamp)
{
    struct misplacing *flash = at;
    if (flash->is_wrong && block == flash->block && page == flash->page)
        return chip_read(&flash->chip, flash->instead_block, flash->instead_page, main, stamp);
    return chip_read(&flash->chip, block, page, main, stamp);
}

static void write_value(struct mintlintel_durable *device, uint32_t sector, uint8_t value)
{
    uint8_t page[CHIP_PAGE_BYTES];
    memset(page, value, sizeof page);
    CHECK(mintlintel_durable_write(device, sector, page, sizeof page) <= MINTLINTEL_WRITTEN);
}

static struct mintlintel_place place_of(struct mintlintel_durable *device, uint32_t sector)
{
    struct mintlintel_place at;
    CHECK(mintlintel_driver_page(&device->core, sector, &at) == MINTLINTEL_WRITTEN);
    return at;
}

/* Each page of the chip in the place of a sector's page. */
static void read_each(struct misplacing *flash, struct mintlintel_durable *device, uint32_t sector, uint8_t value)
{
    struct mintlintel_place at = place_of(device, sector);
    uint8_t page[CHIP_PAGE_BYTES];
    int own = 0, refused = 0;
    flash->block = at.block, flash->page = at.page;
    for (uint32_t i = 0; i < CHIP_BLOCKS * CHIP_PAGES; i++) {
        flash->instead_block = i / CHIP_PAGES, flash->instead_page = i % CHIP_PAGES, flash->is_wrong = 1;
        memset(page, 0xEE, sizeof page);
        uint32_t code = mintlintel_durable_read(device, sector, page, sizeof page);
        CHECK(code == MINTLINTEL_WRITTEN || code == MINTLINTEL_UNREADABLE);
        CHECK(page[0] == (code == MINTLINTEL_WRITTEN ? value : 0xEE));
        own += code == MINTLINTEL_WRITTEN, refused += code == MINTLINTEL_UNREADABLE;
    }
    flash->is_wrong = 0;
    CHECK(own == 1 && refused == CHIP_BLOCKS * CHIP_PAGES - 1);
}

int main(void)
{
    struct misplacing flash = {0};
    struct mintlintel_nand nand = {&flash, misplaced_read, chip_program, chip_copyback, chip_erase, chip_is_bad, chip_mark_bad, chip_sync};
    struct mintlintel_durable device = {0};
    CHECK(mintlintel_durable_open(&device, &nand, 1, CHIP_BLOCKS, CHIP_PAGES, CHIP_PAGE_BYTES, SECTORS) == MINTLINTEL_DONE);
    for (uint32_t sector = 0; sector < SECTORS; sector++)
        write_value(&device, sector, (uint8_t)(1 + sector));
    for (uint32_t sector = 0; sector < SECTORS; sector++)
        read_each(&flash, &device, sector, (uint8_t)(1 + sector));
    mintlintel_durable_close(&device);
    printf("misplaced: no read gives the page of another sector, among %d pages of %d sectors\n", CHIP_BLOCKS * CHIP_PAGES, SECTORS);
    return 0;
}
