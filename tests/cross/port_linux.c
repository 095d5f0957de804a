/* The port to Linux without a C library, Arm or RISC-V, for qemu-arm, qemu-riscv32 and qemu-aarch64: the trace on standard input.
 * Assumes linux_calls.h of the C examples. */
#include "../../examples/c/bare/linux_calls.h"
#include "port.h"

unsigned port_read(uint8_t *to, unsigned n)
{
    long got = kernel(READ_CALL, 0, (long)to, (long)n);
    return got > 0 ? (unsigned)got : 0;
}

void port_text(const char *text)
{
    long n = 0;
    while (text[n])
        n++;
    kernel(WRITE_CALL, 1, (long)text, n);
}

void port_end(const char *text, int status)
{
    port_text(text);
    for (;;)
        kernel(EXIT_CALL, status, 0, 0);
}

void _start(void)
{
    program();
}
