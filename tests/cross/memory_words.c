/* memcpy, memmove and memset by words of 32 bits where they can be: what a firmware's own C library has in place of memory.c.
 * Assumes a processor that reads and writes a word at any address, as the Cortex-M4 does, and the same compiler options as memory.c. */
#include <stddef.h>
#include <stdint.h>

typedef uint32_t __attribute__((may_alias, aligned(1))) word;

void *memmove(void *to, const void *from, size_t n);
void *memcpy(void *to, const void *from, size_t n);
void *memset(void *to, int byte, size_t n);

void *memcpy(void *to, const void *from, size_t n)
{
    unsigned char *a = to;
    const unsigned char *b = from;

    for (; n >= sizeof(word); n -= sizeof(word), a += sizeof(word), b += sizeof(word))
        *(word *)a = *(const word *)b;
    for (; n > 0; n--)
        *a++ = *b++;
    return to;
}

/* Downwards, where the target lies behind the source. */
static void move_down(unsigned char *a, const unsigned char *b, size_t n)
{
    for (; n >= sizeof(word); n -= sizeof(word))
        *(word *)(a + n - sizeof(word)) = *(const word *)(b + n - sizeof(word));
    while (n-- > 0)
        a[n] = b[n];
}

void *memmove(void *to, const void *from, size_t n)
{
    if (to <= from)
        return memcpy(to, from, n);
    move_down(to, from, n);
    return to;
}

void *memset(void *to, int byte, size_t n)
{
    unsigned char *a = to;
    const word value = 0x01010101u * (unsigned char)byte;

    for (; n >= sizeof(word); n -= sizeof(word), a += sizeof(word))
        *(word *)a = value;
    for (; n > 0; n--)
        *a++ = (unsigned char)byte;
    return to;
}
