/* Makes the calls of a trace again and compares, of each, the number returned and every byte of every run lent, and those behind it; measures the
 * stack of each. Assumes a trace of the same header (trace.h) and a port: port.h says what one gives.
 * PLANTED makes one call differ, so that the comparison can be tried: 1 in its number, 2 in a run's last byte, 3 in the byte behind a run. */
#include "port.h"
#include "trace.h"

#define ROOM (1u << 20)     /* bytes of each arena */
#define BEHIND 16u          /* bytes compared behind a run */
#define DEEPEST 10240u      /* bytes of stack that are painted */
#define PAINT 0xa5a5a5a5u
#define SHOWN 5u            /* differences that are printed */

/* A run as it is lent, and what it must hold after the call. */
struct run {
    uint8_t *at, *wanted;
    uint64_t count;
    uint32_t size;
};

static struct run run[MOST_RUNS_OF_A_CALL];
static uint64_t number[MOST_RUNS_OF_A_CALL];

#define CALLERS
#include "calls.h"

typedef char the_places_are_enough[MOST_RUNS <= MOST_RUNS_OF_A_CALL && MOST_NUMBERS <= MOST_RUNS_OF_A_CALL ? 1 : -1];

static uint8_t lent[ROOM] __attribute__((aligned(16))), wanted[ROOM] __attribute__((aligned(16)));
static uint32_t slot_at[SLOTS];
static struct { uint32_t calls, stack; } met[FUNCTIONS];
static uint8_t input[4096];
static unsigned input_at, input_end;

static uint8_t next(void)
{
    if (input_at == input_end) {
        input_end = port_read(input, sizeof input);
        input_at = 0;
        if (input_end == 0)
            port_end("replay: the trace ends inside a call\n", 2);
    }
    return input[input_at++];
}

static uint64_t value(unsigned width)
{
    uint64_t v = 0;
    for (unsigned i = 0; i < width; i++)
        v |= (uint64_t)next() << 8 * i;
    return v;
}

/* Reads the changes of a run into one or both of its copies. */
static void change(const struct run *r, int also_lent)
{
    for (uint32_t changes = (uint32_t)value(4); changes > 0; changes--) {
        uint32_t from = (uint32_t)value(4), n = (uint32_t)value(4);
        if (from > r->size || n > r->size - from)
            port_end("replay: a change lies outside its run\n", 2);
        for (uint32_t i = from; i < from + n; i++) {
            r->wanted[i] = next();
            if (also_lent)
                r->at[i] = r->wanted[i];
        }
    }
}

/* The places of the slots: lists of numbers at multiples of 16, runs of bytes one behind. */
static void lay_out(void)
{
    uint32_t at = 0, width[SLOTS] = {0};
    for (unsigned i = 0; i < sizeof PARAMETERS / sizeof *PARAMETERS; i++)
        if (PARAMETERS[i].kind != NUMBER && PARAMETERS[i].size > width[PARAMETERS[i].slot])
            width[PARAMETERS[i].slot] = PARAMETERS[i].size;
    for (unsigned i = 0; i < SLOTS; i++) {
        uint32_t size = (uint32_t)value(4);
        if (size > ROOM - 64 || at > ROOM - 64 - size)
            port_end("replay: the trace's runs need more memory\n", 2);
        slot_at[i] = at + (width[i] == 1);
        at = (at + size + 1 + BEHIND + 15) & ~15u;
    }
}

/* Makes the call, and says how deep the stack was used. */
__attribute__((noinline)) static uint32_t measured(uint32_t (*call)(void), uint32_t *depth)
{
    volatile uint32_t *top = port_stack(), *p;
    for (p = top - DEEPEST / 4; p < top; p++)
        *p = PAINT;
    uint32_t answered = call();
    for (p = top - DEEPEST / 4; p < top && *p == PAINT; p++)
        ;
    *depth = (uint32_t)(top - p) * 4;
    return answered;
}

static void say(const char *what, uint32_t n, const char *end)
{
    char text[12];
    unsigned i = sizeof text;
    text[--i] = 0;
    do
        text[--i] = (char)('0' + n % 10);
    while ((n /= 10) != 0);
    port_text(what);
    port_text(text + i);
    port_text(end);
}

/* The first byte at which a run differs; -1 if it is as wanted. A run that differs is made as wanted. */
static int32_t differs(const struct run *r)
{
    int32_t first = -1;
    for (uint32_t i = 0; i < r->size + BEHIND; i++)
        if (r->at[i] != r->wanted[i]) {
            if (first < 0)
                first = (int32_t)i;
            r->at[i] = r->wanted[i];
        }
    return first;
}

static void lend(const struct parameter *p, struct run *r)
{
    r->count = p->fixed ? p->fixed : value(4);
    r->size = (uint32_t)r->count * p->size;
    r->at = lent + slot_at[p->slot];
    r->wanted = wanted + slot_at[p->slot];
    change(r, 1);
}

/* Reads a call's numbers and runs; returns how many runs there are. */
static unsigned lend_all(const struct function *f)
{
    unsigned runs = 0, numbers = 0;
    for (const struct parameter *p = &PARAMETERS[f->first]; p < &PARAMETERS[f->first + f->parameters]; p++)
        if (p->kind == NUMBER)
            number[numbers++] = value(8);
        else
            lend(p, &run[runs++]);
    return runs;
}

/* Reads what the call must leave in each run that it may write. */
static void want_all(const struct function *f)
{
    unsigned runs = 0;
    for (const struct parameter *p = &PARAMETERS[f->first]; p < &PARAMETERS[f->first + f->parameters]; p++) {
        if (p->kind == WRITTEN)
            change(&run[runs], 0);
        runs += p->kind != NUMBER;
    }
}

/* Says of a call what differs: its number, or the first byte of its first run that does. */
static void show(uint32_t call, const struct function *f, uint32_t answered, uint32_t expected, int32_t first)
{
    static uint32_t shown;
    if (shown++ >= SHOWN)
        return;
    say("differs: call ", call, " of ");
    port_text(f->name);
    say(", number ", answered, "");
    say(" where the trace has ", expected, "");
    if (first >= 0)
        say(", a run from byte ", (uint32_t)first, "");
    port_text("\n");
}

/* Makes one call differ. */
static uint32_t spoilt(uint32_t call, uint32_t answered)
{
#ifdef PLANTED
    if (call == 1000) {
        run[0].at[run[0].size - 1] ^= PLANTED == 2;
        run[0].at[run[0].size] ^= PLANTED == 3;
        return answered ^ (PLANTED == 1);
    }
#endif
    (void)call;
    return answered;
}

/* Reads one call, makes it and compares; returns whether it differs. */
static int one(uint32_t call)
{
    unsigned place = next();
    if (place >= FUNCTIONS)
        port_end("replay: no such function\n", 2);
    const struct function *f = &FUNCTION[place];
    unsigned runs = lend_all(f);
    uint32_t expected = (uint32_t)value(4), depth, answered = spoilt(call, measured(f->call, &depth));
    want_all(f);
    met[place].calls++;
    if (depth > met[place].stack)
        met[place].stack = depth;
    int32_t first = -1;
    for (unsigned i = 0; i < runs; i++) {
        int32_t here = differs(&run[i]);
        first = first < 0 ? here : first;
    }
    if (answered == expected && first < 0)
        return 0;
    show(call, f, answered, expected, first);
    return 1;
}

void program(void)
{
    uint32_t different = 0, calls;
    if (value(8) != SIGNATURES)
        port_end("replay: the trace is of another header\n", 2);
    calls = (uint32_t)value(4);
    lay_out();
    for (uint32_t i = 0; i < calls; i++)
        different += (uint32_t)one(i);
    for (unsigned i = 0; i < FUNCTIONS; i++) {
        port_text(FUNCTION[i].name);
        say(": ", met[i].calls, " calls, ");
        say("", met[i].stack, " bytes of stack\n");
        if (met[i].calls == 0 || met[i].stack >= DEEPEST)
            port_end("replay: a function was not called, or the stack went deeper than is measured\n", 1);
    }
    say("calls made again: ", calls, "\n");
    say("differences: ", different, "\n");
    port_end("", different != 0);
}
