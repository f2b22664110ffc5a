/* QEMU's virt, a RISC-V of 32 bits in machine mode: a serial port, the machine timer at 10 MHz, and an end and a reset by the test device. */
#include "board.h"
#include "log.h"

/* GCC chooses its libraries by rv32imac, which names the registers of machine mode no more. */
__asm__(".option arch, +zicsr");

#define REGISTER(at) (*(volatile uint32_t *)(at))
#define UART ((volatile uint8_t *)0x10000000)
#define TEST_DEVICE REGISTER(0x00100000)
#define TIME_LOW REGISTER(0x0200bff8)
#define TIME_HIGH REGISTER(0x0200bffc)
#define COMPARE_LOW REGISTER(0x02004000)
#define COMPARE_HIGH REGISTER(0x02004004)

enum { MEGAHERTZ = 10, TIMER_INTERRUPT = 1 << 7, TIMER_CAUSE = 7, NEVER_USED = 0x57ac57ac };
extern uint32_t stack_top[], stack_end[];
void controller_interrupt(void);
void begin(void);
void trapped(uint32_t cause, uint32_t place);

void trapped(uint32_t cause, uint32_t place)
{
    if (cause != (1u << 31 | TIMER_CAUSE)) {
        say("\nFAULT:"), tell("cause", cause), tell("at", place), say("\n");
        board_end(2);
    }
    __asm__ volatile("csrc mie, %0" ::"r"(TIMER_INTERRUPT) : "memory");
    controller_interrupt();
}

void begin(void)
{
    board_stack_anew();
    __asm__ volatile("csrsi mstatus, 8" ::: "memory");
    controller_begin();
    firmware();
    board_end(1);
}

void board_byte(char byte)
{
    while (!(UART[5] & 1 << 5)) {}
    UART[0] = (uint8_t)byte;
}

static uint64_t now(void)
{
    uint32_t high, low;
    do {
        high = TIME_HIGH;
        low = TIME_LOW;
    } while (high != TIME_HIGH);
    return (uint64_t)high << 32 | low;
}

void board_interrupt_after(uint32_t microseconds)
{
    uint64_t at = now() + microseconds * MEGAHERTZ;
    COMPARE_LOW = (uint32_t)at;
    COMPARE_HIGH = (uint32_t)(at >> 32);
    __asm__ volatile("csrs mie, %0" ::"r"(TIMER_INTERRUPT) : "memory");
}

/* An interrupt between the look at the word and the sleep ends the sleep, since both are done with interrupts held back. */
void board_sleep_while(const volatile uint32_t *word, uint32_t value)
{
    __asm__ volatile("csrci mstatus, 8" ::: "memory");
    while (*word == value)
        __asm__ volatile("wfi\n csrsi mstatus, 8\n nop\n csrci mstatus, 8" ::: "memory");
    __asm__ volatile("csrsi mstatus, 8" ::: "memory");
}

void board_reset(void)
{
    TEST_DEVICE = 0x7777;
    for (;;) {}
}

void board_end(int status)
{
    TEST_DEVICE = status ? (uint32_t)status << 16 | 0x3333 : 0x5555;
    for (;;) {}
}

void board_stack_anew(void)
{
    for (uint32_t *at = stack_end, *here = __builtin_frame_address(0); at < here - 16; at++)
        *at = NEVER_USED;
}

uint32_t board_stack(void)
{
    uint32_t *at = stack_end;
    while (at < stack_top && *at == NEVER_USED)
        at++;
    return (uint32_t)((uintptr_t)stack_top - (uintptr_t)at);
}

uint32_t board_instructions(void)
{
    uint32_t count;
    __asm__ volatile("csrr %0, minstret" : "=r"(count));
    return count;
}
