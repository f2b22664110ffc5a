/* QEMU's mps2-an386, a Cortex-M4 at 25 MHz: its vectors, a serial port, SysTick as the timer, and an end by semihosting. */
#include "board.h"
#include "log.h"

#define REGISTER(at) (*(volatile uint32_t *)(at))
#define UART_DATA REGISTER(0x40004000)
#define UART_STATE REGISTER(0x40004004)
#define UART_CONTROL REGISTER(0x40004008)
#define UART_DIVIDER REGISTER(0x40004010)
#define TIMER_CONTROL REGISTER(0x40000000)
#define TIMER_VALUE REGISTER(0x40000004)
#define TIMER_RELOAD REGISTER(0x40000008)
#define TICK_CONTROL REGISTER(0xe000e010)
#define TICK_LOAD REGISTER(0xe000e014)
#define TICK_VALUE REGISTER(0xe000e018)
#define RESET_CONTROL REGISTER(0xe000ed0c)
#define FAULT_STATUS REGISTER(0xe000ed28)

enum { MEGAHERTZ = 25, NEVER_USED = 0x57ac57ac };
extern uint32_t stack_top[], stack_end[], bss_start[], bss_end[];
void controller_interrupt(void);

static void tick(void)
{
    TICK_CONTROL = 0;
    controller_interrupt();
}

static void fault(void)
{
    say("\nFAULT:"), tell("status", FAULT_STATUS), say("\n");
    board_end(2);
}

/* After a reset everything is as after power on, but for the memory that outlives it. */
static void reset(void)
{
    for (uint32_t *at = bss_start; at < bss_end; at++)
        *at = 0;
    board_stack_anew();
    UART_DIVIDER = 16;
    UART_CONTROL = 1;
    TIMER_RELOAD = TIMER_VALUE = 0xffffffff;
    TIMER_CONTROL = 1;
    controller_begin();
    firmware();
    board_end(1);
}

__attribute__((section(".vectors"), used)) static const void *const vectors[16] =
    {stack_top, reset, fault, fault, fault, fault, fault, fault, fault, fault, fault, fault, fault, fault, fault, tick};

void board_byte(char byte)
{
    while (UART_STATE & 1) {}
    UART_DATA = (uint8_t)byte;
}

void board_interrupt_after(uint32_t microseconds)
{
    TICK_LOAD = microseconds * MEGAHERTZ;
    TICK_VALUE = 0;
    TICK_CONTROL = 7;
}

/* An interrupt between the look at the word and the sleep ends the sleep, since both are done with interrupts held back. */
void board_sleep_while(const volatile uint32_t *word, uint32_t value)
{
    __asm__ volatile("cpsid i" ::: "memory");
    while (*word == value)
        __asm__ volatile("wfi\n cpsie i\n isb\n cpsid i" ::: "memory");
    __asm__ volatile("cpsie i" ::: "memory");
}

void board_reset(void)
{
    __asm__ volatile("dsb" ::: "memory");
    RESET_CONTROL = 0x05fa0004;
    for (;;) {}
}

void board_end(int status)
{
    uint32_t block[2] = {0x20026, (uint32_t)status};
    register uint32_t operation __asm__("r0") = 0x20; /* SYS_EXIT_EXTENDED */
    register uint32_t *passed __asm__("r1") = block;
    __asm__ volatile("bkpt 0xab" ::"r"(operation), "r"(passed) : "memory");
    for (;;) {}
}

void board_stack_anew(void)
{
    for (uint32_t *at = stack_end, *here = __builtin_frame_address(0); at < here - 16; at++)
        *at = NEVER_USED;
}

uint32_t board_stack(void)
{
    uint32_t *at = stack_end;
    while (at < stack_top && *at == NEVER_USED)
        at++;
    return (uint32_t)((uintptr_t)stack_top - (uintptr_t)at);
}

uint32_t board_instructions(void)
{
    return (0xffffffff - TIMER_VALUE) * (1000 / MEGAHERTZ);
}
