/* The form of a trace of calls, which record.c writes and replay.c reads. All numbers are little-endian.
 *
 *   head    SIGNATURES u64, number of calls u32, then for each slot its longest run in bytes u32
 *   call    its place in the header u8; for each parameter a number u64, or a run: its count u32 where one is passed, and its changes; then the
 *           number returned u32 and, for each run that the function may write, its changes
 *   changes how many u32; of each its offset u32, its length u32 and the bytes
 *
 * A slot stands for all runs lent under one parameter's name. A run's changes are against what its slot held at the end of the last call
 * that was lent it. Behind the call they are against what it held before. A slot is all zeros at first. */
#ifndef TRACE_H
#define TRACE_H

#include "oatcastle.h"

enum { NUMBER, READ, WRITTEN };

/* A parameter: its kind; for a run its slot, its element's size, and its count where none is passed. */
struct parameter {
    uint8_t kind, slot, size;
    uint32_t fixed;
};

struct function {
    const char *name;
    uint32_t (*call)(void);
    unsigned first, parameters;
};

#endif
