/* Semihosting: text, files and an end by way of the debugger, here qemu (-semihosting). Assumes a Cortex-M. */
#ifndef SEMIHOSTING_H
#define SEMIHOSTING_H

#include <stdint.h>

enum { HOST_OPEN = 0x01, HOST_WRITE0 = 0x04, HOST_READ = 0x06, HOST_COMMAND_LINE = 0x15, HOST_EXIT = 0x18 };

static inline uint32_t host(uint32_t operation, const void *argument)
{
    register uint32_t r0 __asm__("r0") = operation;
    register const void *r1 __asm__("r1") = argument;
    __asm__ volatile("bkpt 0xab" : "+r"(r0) : "r"(r1) : "memory");
    return r0;
}

static inline void host_text(const char *text)
{
    host(HOST_WRITE0, text);
}

/* Ends qemu, with 0 if all went well, else with 1. */
static inline void host_end(int well)
{
    host(HOST_EXIT, (const void *)(uintptr_t)(well ? 0x20026 : 0x20023));
}

static inline void host_number(const char *before, uint32_t n, const char *behind)
{
    char text[12];
    unsigned i = sizeof text;
    text[--i] = 0;
    do
        text[--i] = (char)('0' + n % 10);
    while ((n /= 10) != 0);
    host_text(before);
    host_text(text + i);
    host_text(behind);
}

/* Bytes as hex in one line. */
static inline void host_hex(const uint8_t *bytes, unsigned n)
{
    static const char digits[] = "0123456789abcdef";
    for (unsigned i = 0; i < n; i++) {
        char text[4] = {digits[bytes[i] >> 4], digits[bytes[i] & 15], i + 1 < n ? ' ' : '\n', 0};
        host_text(text);
    }
}

#endif
