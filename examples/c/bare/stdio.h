/* What the examples want of stdio.h where there is no C library. Assumes bare.c. */
#ifndef BARE_STDIO_H
#define BARE_STDIO_H

typedef struct bare_file FILE;
extern FILE bare_stderr;
#define stderr (&bare_stderr)

/* Knows %s, %u and %x, with a precision of %s and a width that is filled with 0. */
int printf(const char *form, ...) __attribute__((format(printf, 1, 2)));
int fprintf(FILE *to, const char *form, ...) __attribute__((format(printf, 2, 3)));

#endif
