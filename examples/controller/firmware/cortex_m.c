/* The board is a Cortex-M without an operating system. It writes by semihosting: the debugger, here the emulator, does
   what a breakpoint with the number AB asks for. */
#include <stdint.h>

#include "board.h"

enum { WRITE_TEXT = 0x04, REPORT_EXIT = 0x18, APPLICATION_EXIT = 0x20026 };

int main(void);

/* From firmware.ld: the end of memory, and the variables that begin as 0. */
extern uint32_t stack_top[], zeros_begin[], zeros_end[];

/* Asks the host to do something. */
static void ask_host(uint32_t request, uintptr_t argument)
{
    register uint32_t r0 __asm__("r0") = request;
    register uintptr_t r1 __asm__("r1") = argument;
    __asm__ volatile ("bkpt 0xab" : "+r" (r0) : "r" (r1) : "memory");
}

void put(const char *text)
{
    ask_host(WRITE_TEXT, (uintptr_t)text);
}

/* Runs the driver, and ends the emulation. */
void start(void)
{
    for (volatile uint32_t *at = zeros_begin; at < zeros_end; at++) *at = 0;
    main();
    ask_host(REPORT_EXIT, APPLICATION_EXIT);
    for (;;) { }
}

/* A fault ends the emulation too: the day's lines are too few then. */
static void fail(void)
{
    ask_host(REPORT_EXIT, 0);
    for (;;) { }
}

/* Where the processor begins: the stack, the first instruction, and what handles faults. */
__attribute__((section(".vectors"), used))
static const uintptr_t vectors[4] = {(uintptr_t)stack_top, (uintptr_t)start, (uintptr_t)fail, (uintptr_t)fail};
