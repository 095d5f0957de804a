/* The C library of the examples on qemu-arm and qemu-riscv32, for compilers that come without one.
 * Assumes Linux's start of a program, and linux_calls.h. A product has its own. */
#include <limits.h>
#include <stdarg.h>

#include "linux_calls.h"
#include "stdio.h"
#include "stdlib.h"
#include "string.h"

struct bare_file {
    int descriptor;
    size_t held;
    char text[256];
};

static FILE bare_stdout = {.descriptor = 1};
FILE bare_stderr = {.descriptor = 2};

int main(int count, char **words);
void bare_begin(long *stack);

/* Linux leaves the words of the command line on the stack. */
#ifdef __arm__
__asm__(".text\n.syntax unified\n.thumb\n.globl _start\n.thumb_func\n"
        "_start: mov r0, sp\n bl bare_begin\n");
#else
__asm__(".text\n.globl _start\n_start: mv a0, sp\n call bare_begin\n");
#endif

void bare_begin(long *stack)
{
    exit(main((int)stack[0], (char **)(stack + 1)));
}

void exit(int status)
{
    for (;;)
        kernel(EXIT_CALL, status, 0, 0);
}

/* ---- Text */

static void flush(FILE *to)
{
    kernel(WRITE_CALL, to->descriptor, (long)to->text, (long)to->held);
    to->held = 0;
}

static void put(FILE *to, char c)
{
    to->text[to->held++] = c;
    if (to->held == sizeof to->text)
        flush(to);
}

static void put_number(FILE *to, unsigned n, unsigned base, unsigned width)
{
    char digits[12];
    unsigned count = 0;

    do
        digits[count++] = "0123456789abcdef"[n % base];
    while ((n /= base) != 0);
    for (; width > count; width--)
        put(to, '0');
    while (count > 0)
        put(to, digits[--count]);
}

/* The number at a place of the form, or the next argument for a star; the place moves behind it. */
static unsigned number(const char **at, va_list *words)
{
    unsigned n = 0;

    if (**at == '*') {
        (*at)++;
        return (unsigned)va_arg(*words, int);
    }
    for (; **at >= '0' && **at <= '9'; (*at)++)
        n = 10 * n + (unsigned)(**at - '0');
    return n;
}

/* One part behind a %; returns the place behind it. */
static const char *put_part(FILE *to, const char *at, va_list *words)
{
    unsigned width = number(&at, words), most = UINT_MAX;

    if (*at == '.') {
        at++;
        most = number(&at, words);
    }
    if (*at == 's')
        for (const char *text = va_arg(*words, const char *); most > 0 && *text; most--)
            put(to, *text++);
    else
        put_number(to, va_arg(*words, unsigned), *at == 'x' ? 16 : 10, width);
    return at + 1;
}

static void put_all(FILE *to, const char *at, va_list *words)
{
    while (*at)
        if (*at == '%')
            at = put_part(to, at + 1, words);
        else
            put(to, *at++);
    flush(to);
}

int printf(const char *form, ...)
{
    va_list words;
    va_start(words, form);
    put_all(&bare_stdout, form, &words);
    va_end(words);
    return 0;
}

int fprintf(FILE *to, const char *form, ...)
{
    va_list words;
    va_start(words, form);
    put_all(to, form, &words);
    va_end(words);
    return 0;
}

/* ---- Memory, beside memcpy, memmove and memset */

int memcmp(const void *a, const void *b, size_t n)
{
    const unsigned char *x = a, *y = b;

    for (; n > 0 && *x == *y; n--)
        x++, y++;
    return n == 0 ? 0 : *x - *y;
}

int strcmp(const char *a, const char *b)
{
    for (; *a && *a == *b; a++)
        b++;
    return (unsigned char)*a - (unsigned char)*b;
}

size_t strlen(const char *text)
{
    size_t n = 0;

    while (text[n])
        n++;
    return n;
}
