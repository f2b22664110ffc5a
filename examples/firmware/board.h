/* The board: a serial port, a timer, sleep and reset. Each board has a file with its own: cortex_m4.c, riscv32.c and riscv32.S. */
#ifndef BOARD_H
#define BOARD_H

#include <stddef.h>
#include <stdint.h>

/* Memory that a start doesn't clear; and that of the device. */
#define OUTLIVES_RESET __attribute__((section(".outlives_reset")))
#define OF_DEVICE __attribute__((section(".memory"), aligned(16)))

void board_byte(char byte);
/* The timer's interrupt comes once, after so many microseconds, and calls controller_interrupt. */
void board_interrupt_after(uint32_t microseconds);
/* Sleeps until the word has another value, which an interrupt gives it. */
void board_sleep_while(const volatile uint32_t *word, uint32_t value);
void board_reset(void) __attribute__((noreturn));
void board_end(int status) __attribute__((noreturn));
/* How many bytes the stack has had at most since the start, or since it was begun anew; and what the clock shows: under QEMU's -icount a nanosecond is an
 * instruction. */
uint32_t board_stack(void);
void board_stack_anew(void);
uint32_t board_instructions(void);

/* What a start calls. */
void controller_begin(void);
void firmware(void);

#endif
