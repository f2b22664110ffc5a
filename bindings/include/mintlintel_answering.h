/* Flash whose functions put their answers where they are told, for drivers in a language in which a function may end without a result: where the driver
 * is called by an interpreter, an exception can come before its first statement. The answer is 3, power gone, until it is put there. */
#ifndef MINTLINTEL_ANSWERING_H
#define MINTLINTEL_ANSWERING_H

#include <mintlintel_durable.h>

#ifdef __cplusplus
extern "C" {
#endif

/* The functions of struct mintlintel_nand. Those that may be null there may be null here. */
struct mintlintel_answering {
    void *chip;
    void (*read)(void *chip, uint32_t block, uint32_t page, void *main, void *stamp, int *answer);
    void (*program)(void *chip, uint32_t block, uint32_t page, const void *main, const void *stamp, int *answer);
    void (*copyback)(void *chip, uint32_t from_block, uint32_t from_page, uint32_t block, uint32_t page, const void *stamp, int *answer);
    void (*erase)(void *chip, uint32_t block, int *answer);
    void (*is_bad)(void *chip, uint32_t block, int *answer);
    void (*mark_bad)(void *chip, uint32_t block, int *answer);
    void (*sync)(void *chip, int *answer);
};

/* Fills `nand` for an open with functions that call these. `answering` stays where it is until the device is closed. */
void mintlintel_answering_nand(struct mintlintel_nand *nand, struct mintlintel_answering *answering);

#ifdef __cplusplus
}
#endif

#endif
