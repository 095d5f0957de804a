/* What a machine gives the programs of tests/cross: the trace's bytes, text, an end, and the stack pointer. Each port_*.c defines these.
 * Assumes gcc's or clang's assembler statements. */
#ifndef PORT_H
#define PORT_H

#include "oatcastle.h"

#define MOST_RUNS_OF_A_CALL 16

/* Reads at most n bytes of the trace; returns how many, 0 at its end. */
unsigned port_read(uint8_t *to, unsigned n);
void port_text(const char *text);
/* Prints a text and ends the program with a status. */
void port_end(const char *text, int status);
/* What a port runs: it ends with port_end. replay.c or arithmetic.c defines it. */
void program(void);

/* The stack pointer. */
static inline volatile uint32_t *port_stack(void)
{
    volatile uint32_t *sp;
#if defined(__arm__)
    __asm__ volatile("mov %0, sp" : "=r"(sp));
#elif defined(__riscv)
    __asm__ volatile("mv %0, sp" : "=r"(sp));
#elif defined(__aarch64__)
    __asm__ volatile("mov %0, sp" : "=r"(sp));
#else
    __asm__ volatile("movq %%rsp, %0" : "=r"(sp));
#endif
    return sp;
}

#endif
