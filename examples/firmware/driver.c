/* The driver of the controller, as an author of firmware writes one: each function starts a command, and sleeps until its interrupt. The layer calls them
 * one at a time. A page that the power left torn is told by the controller's ECC, also where the layer asks for the stamp alone: so the device is opened
 * with MINTLINTEL_TELLS_TORN. Without that flag the layer finds such pages by their stamps' checks, and an open takes more memory. */
#include "driver.h"
#include "board.h"
#include "controller.h"
#include <string.h>

static uint32_t command(uint32_t kind, uint32_t block, uint32_t page, void *main, void *spare)
{
    board_sleep_while(&controller.status, BUSY);
    controller.block = block;
    controller.page = page;
    controller.main = main;
    controller.spare = spare;
    controller.command = kind;
#ifdef ANSWERS_EARLY /* a wrong driver, which the check has to refuse: it keeps the bytes, and says that a program is done before it is */
    static uint8_t bytes[PAGE_BYTES], stamp[MINTLINTEL_STAMP_BYTES];
    if (kind == PROGRAM) {
        controller.main = memcpy(bytes, main, sizeof bytes);
        controller.spare = memcpy(stamp, spare, sizeof stamp);
        controller_start();
        return DONE;
    }
#endif
    controller_start();
    while (kind == READ && controller.status == BUSY) {} /* so short that a sleep isn't worth it */
    board_sleep_while(&controller.status, BUSY);
    return controller.status;
}

static int read(void *chip, uint32_t block, uint32_t page, void *main, void *stamp)
{
    (void)chip;
    uint32_t status = command(READ, block, page, main, stamp);
    return status == DONE ? 0 : status == PAGE_ERASED ? 1 : 2;
}

/* The controller takes the bytes while it programs, and doesn't change them. */
static int program(void *chip, uint32_t block, uint32_t page, const void *main, const void *stamp)
{
    (void)chip;
    return command(PROGRAM, block, page, (void *)(uintptr_t)main, (void *)(uintptr_t)stamp) == FAILED;
}

static int erase(void *chip, uint32_t block)
{
    (void)chip;
    return command(ERASE, block, 0, NULL, NULL) == FAILED;
}

const struct mintlintel_nand driver = {NULL, read, program, NULL, erase, NULL, NULL, NULL};
