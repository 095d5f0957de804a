/* The three functions that the archive leaves to the firmware, and that a compiler may call by itself.
 * Assumes that the compiler does not turn these loops into calls of themselves: -fno-builtin, and gcc's -fno-tree-loop-distribute-patterns. */
#include <stddef.h>

void *memmove(void *to, const void *from, size_t n);
void *memcpy(void *to, const void *from, size_t n);
void *memset(void *to, int byte, size_t n);

void *memmove(void *to, const void *from, size_t n)
{
    unsigned char *a = to;
    const unsigned char *b = from;
    if (a <= b)
        for (size_t i = 0; i < n; i++)
            a[i] = b[i];
    else
        while (n-- > 0)
            a[n] = b[n];
    return to;
}

void *memcpy(void *to, const void *from, size_t n)
{
    unsigned char *a = to;
    const unsigned char *b = from;
    for (size_t i = 0; i < n; i++)
        a[i] = b[i];
    return to;
}

void *memset(void *to, int byte, size_t n)
{
    unsigned char *a = to;
    for (size_t i = 0; i < n; i++)
        a[i] = (unsigned char)byte;
    return to;
}
