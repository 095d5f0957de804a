/* Writes a trace of the calls that a program makes of the library to the file that OATCASTLE_TRACE names (trace.h has its form).
 * Assumes that the program is linked so that its calls reach the recording functions (--wrap), and that it makes them one at a time. */
#include <stdio.h>
#include <stdlib.h>
#include <string.h>

#include "trace.h"
#include "calls.h"
#include "record.h"

/* Two changes with fewer equal bytes than this between them are one. */
#define GAP 8

static FILE *file;
static uint32_t calls;
static int open;    /* a call is being made */
static struct { uint8_t *held; uint32_t size; } slots[SLOTS];

static void put(uint64_t value, unsigned width)
{
    uint8_t bytes[8];
    for (unsigned i = 0; i < width; i++)
        bytes[i] = (uint8_t)(value >> 8 * i);
    if (fwrite(bytes, 1, width, file) != width)
        abort();
}

static void head(void)
{
    put(SIGNATURES, 8);
    put(calls, 4);
    for (unsigned i = 0; i < SLOTS; i++)
        put(slots[i].size, 4);
}

__attribute__((constructor)) static void begin(void)
{
    const char *name = getenv("OATCASTLE_TRACE");
    file = name ? fopen(name, "wb") : NULL;
    if (!file) {
        fprintf(stderr, "record: OATCASTLE_TRACE names no file that can be written\n");
        exit(2);
    }
    head();
}

__attribute__((destructor)) static void end(void)
{
    if (!file)
        return;
    rewind(file);
    head();
    fclose(file);
}

/* The end of the change that begins at a byte that differs. */
static uint32_t change_end(const uint8_t *was, const uint8_t *is, uint32_t from, uint32_t size)
{
    uint32_t last = from;
    for (uint32_t i = from; i < size && i - last <= GAP; i++)
        if (was[i] != is[i])
            last = i;
    return last + 1;
}

/* How many changes there are; with `write` they are written too. */
static uint32_t changes(uint8_t *held, const uint8_t *is, uint32_t size, int write)
{
    uint32_t found = 0, i = 0;
    while (i < size) {
        if (held[i] == is[i]) {
            i++;
            continue;
        }
        uint32_t to = change_end(held, is, i, size);
        found++;
        if (write) {
            put(i, 4);
            put(to - i, 4);
            if (fwrite(is + i, 1, to - i, file) != to - i)
                abort();
        }
        i = to;
    }
    return found;
}

/* Writes the changes of a run, and has its slot hold it. */
static void hold(unsigned slot, const void *at, uint64_t size)
{
    if (size > slots[slot].size) {
        slots[slot].held = realloc(slots[slot].held, size);
        memset(slots[slot].held + slots[slot].size, 0, size - slots[slot].size);
        slots[slot].size = (uint32_t)size;
    }
    if (size == 0) {
        put(0, 4);
        return;
    }
    put(changes(slots[slot].held, at, (uint32_t)size, 0), 4);
    changes(slots[slot].held, at, (uint32_t)size, 1);
    memcpy(slots[slot].held, at, size);
}

void record_call(unsigned place)
{
    if (open) {
        fprintf(stderr, "record: the library calls a function of the header itself, which cannot be told from the program's calls\n");
        abort();
    }
    open = 1;
    calls++;
    put(place, 1);
}

void record_number(uint64_t value)
{
    put(value, 8);
}

void record_lent(unsigned slot, const void *at, uint64_t count, unsigned size, int counted)
{
    if (counted)
        put(count, 4);
    hold(slot, at, count * size);
}

void record_answered(uint32_t number)
{
    open = 0;
    put(number, 4);
}

void record_left(unsigned slot, const void *at, uint64_t size, int read_alone)
{
    if (!read_alone)
        hold(slot, at, size);
    else if (size && memcmp(slots[slot].held, at, size)) {
        fprintf(stderr, "record: a run lent for reading was written\n");
        abort();
    }
}
