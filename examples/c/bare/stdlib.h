/* What the examples want of stdlib.h where there is no C library. Assumes bare.c. */
#ifndef BARE_STDLIB_H
#define BARE_STDLIB_H

void exit(int status) __attribute__((noreturn));

#endif
