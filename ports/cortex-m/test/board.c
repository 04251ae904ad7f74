/* Starts a program on QEMU's boards: the first vectors, memory, semihosting through the C library (rdimon), and the paint on the stack. */
#include "board.h"
#include <stdio.h>
#include <stdlib.h>
#include <string.h>

extern uint32_t data_start[], data_end[], data_kept[], bss_start[], bss_end[], stack_top[], stack_limit[];
extern void initialise_monitor_handles(void);
extern int main(int count, char **words);

#define CPACR (*(volatile uint32_t *)0xE000ED88)
#define CCR (*(volatile uint32_t *)0xE000ED14)

void reset(void) {
    uint32_t *from = data_kept;
    for (uint32_t *to = data_start; to < data_end;) *to++ = *from++;
    for (uint32_t *to = bss_start; to < bss_end;) *to++ = 0;
#ifdef __ARM_FP
    CPACR |= 0xF << 20;
    __asm volatile("dsb\n isb");
#endif
#ifdef TRAP_UNALIGNED
    CCR |= 1 << 3;
    __asm volatile("dsb\n isb");
#endif
    initialise_monitor_handles();
    exit(main(0, 0));
}

#ifdef TRAP_UNALIGNED
/* The C library's copy makes unaligned accesses too. */
void *memcpy(void *to, const void *from, size_t bytes) {
    volatile uint8_t *t = to;
    for (const uint8_t *f = from; bytes--;) *t++ = *f++;
    return to;
}
#endif

static void fault(void) {
    fprintf(stderr, "board: a fault\n");
    _Exit(1);
}

__attribute__((section(".vectors"), used)) static void (*const vectors[16])(void) = {
    (void (*)(void))stack_top, reset, fault, fault, fault, fault, fault, fault, fault, fault, fault, fault, fault, fault, fault, fault};

enum { PAINT = 0xA5A5A5A5 };

void stack_paint(void) {
    volatile uint32_t *here = __builtin_frame_address(0);
    for (volatile uint32_t *at = stack_limit; at < here - 16; at++) *at = PAINT;
}

uint32_t stack_used(uintptr_t from) {
    volatile uint32_t *at = stack_limit;
    while (*at == PAINT) at++;
    return (uintptr_t)at < from ? from - (uintptr_t)at : 0;
}
