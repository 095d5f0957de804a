/* The port to x86-64 Linux: the trace on standard input.
 * Assumes a C library. */
#include <stdio.h>
#include <stdlib.h>

#include "port.h"

unsigned port_read(uint8_t *to, unsigned n)
{
    return (unsigned)fread(to, 1, n, stdin);
}

void port_text(const char *text)
{
    fputs(text, stdout);
}

void port_end(const char *text, int status)
{
    fputs(text, stdout);
    exit(status);
}

int main(void)
{
    program();
    return 2;
}
