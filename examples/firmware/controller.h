/* A modelled NAND controller with its chip: registers that a driver writes, and an interrupt at a command's end. It stands for the controller of a
 * processor, which QEMU's boards don't have. The chip outlives a reset, and a power cut falls inside a command of it. */
#ifndef CONTROLLER_H
#define CONTROLLER_H

#include <mintlintel_durable.h>

/* The device. */
#ifndef BLOCKS
#define BLOCKS 16
#define PAGES 8
#define PAGE_BYTES 256
#define SECTORS 90
#endif

enum { READ = 1, PROGRAM = 2, ERASE = 3 };
enum { DONE = 0, PAGE_ERASED = 1, PAGE_TORN = 2, FAILED = 3, BUSY = 4 };

/* The registers. A write of `command` starts it: `page` of `block` goes to or comes from `main`, which may be null for a read, and `spare`. `status` is
 * BUSY until the interrupt. */
struct controller {
    volatile uint32_t command, status, block, page;
    uint8_t *volatile main, *volatile spare;
};
extern struct controller controller;

/* What the chip has done since it was new, and where the power went. */
struct chip_counts { uint32_t reads, programs, erases, interrupts, cuts, cut_programs, cut_erases, torn, wrong; };

/* Starts what the registers say. */
void controller_start(void);
/* What the processor does at the controller's interrupt: the board's timer has come to the end of the command, or to the moment of the power cut. */
void controller_interrupt(void);
/* After so many more programs or erases the power goes inside one; 0: never. */
void controller_cut(uint32_t commands);
const struct chip_counts *controller_counts(void);

/* Numbers by chance, the same after each start of the chip. */
uint32_t any(uint32_t below);

#endif
