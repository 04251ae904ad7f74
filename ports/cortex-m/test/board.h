/* What a program on a board can ask of board.c. */
#ifndef BOARD_H
#define BOARD_H

#include <stdint.h>

/* Paints the stack below the caller. */
void stack_paint(void);

/* The bytes of stack below an address that lost their paint. */
uint32_t stack_used(uintptr_t from);

#endif
