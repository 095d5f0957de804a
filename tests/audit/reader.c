/* Reads captures from standard input and gives each to a fresh line reader in the calls that are asked for; prints what it answers.
 * A capture is three u32: its length, a number of calls, and the room's length; then for each call a u32, then the capture's bytes.
 * A call's number is a piece's length; with the top bit set, the call is lent so many bytes of the state, too few, and must be refused.
 * What the calls leave is read at the end. Prints, per capture, a line for each answer but empty and more, the tail, and a line `.`.
 * Assumes the static library of the crate `oatcastle`, and numbers in this machine's byte order. */
#include <stdio.h>
#include <stdlib.h>
#include <string.h>

#include "oatcastle.h"

#define TOO_LITTLE 0x80000000u

static uint8_t capture[65536], state[8192], before[8192], data[OATCASTLE_LONGEST_DATA];

static void fail(const char *what)
{
    fprintf(stderr, "reader: %s\n", what);
    exit(1);
}

static void print_answer(size_t start, const oatcastle_line_read_answer *answer, size_t room)
{
    uint64_t digest = 0;

    if (answer->kind == OATCASTLE_FAILURE) {
        printf("%zu %u", start, (unsigned)answer->reason);
        if (answer->reason == OATCASTLE_REASON_CHECKSUM || answer->reason == OATCASTLE_REASON_MAGIC)
            printf(" %016llx", (unsigned long long)answer->sequence);
        printf("\n");
    } else if (answer->kind == OATCASTLE_MESSAGE) {
        if (oatcastle_line_data(state, room, answer->length, data, sizeof data) != OATCASTLE_DONE)
            fail("the data are refused");
        for (size_t i = 0; i < answer->length; i++)
            digest = (digest * 31 + data[i] + 1) % 65521;
        printf("%zu ok %08llx %016llx %02llx %u %u\n", start, (unsigned long long)answer->version, (unsigned long long)answer->sequence,
               (unsigned long long)answer->command, (unsigned)answer->length, (unsigned)digest);
    }
}

/* Reads a piece by calls until it is used up; the start of the frame that is being read. */
static size_t give(size_t at, size_t end, size_t start, size_t room)
{
    oatcastle_line_read_answer answer;

    do {
        if (oatcastle_line_read(state, room, capture + at, end - at, &answer) != OATCASTLE_DONE)
            fail("a piece is refused");
        at += answer.used;
        print_answer(start, &answer, room);
        if (answer.kind != OATCASTLE_MORE)
            start = at;
    } while (at < end);
    return start;
}

static void refuse(size_t lent)
{
    oatcastle_line_read_answer answer, stays;

    memcpy(before, state, sizeof state);
    memset(&answer, 0xa5, sizeof answer);
    stays = answer;
    if (oatcastle_line_read(state, lent, capture, 1, &answer) != OATCASTLE_BAD_STATE)
        fail("too little of the state is not refused");
    if (memcmp(before, state, sizeof state) != 0 || memcmp(&stays, &answer, sizeof answer) != 0)
        fail("a refused call changed the state or its answer");
}

int main(void)
{
    static uint32_t calls[1 << 18];
    uint32_t head[3];

    while (fread(head, sizeof *head, 3, stdin) == 3) {
        oatcastle_line_tail_answer tail;
        size_t at = 0, start = 0;
        if (head[0] > sizeof capture || head[1] > 1 << 18 || head[2] < OATCASTLE_READER_LENGTH || head[2] > sizeof state)
            fail("a number is out of range");
        if (fread(calls, sizeof *calls, head[1], stdin) != head[1] || fread(capture, 1, head[0], stdin) != head[0])
            fail("the input ends early");
        memset(state, 0xa5, sizeof state);
        if (oatcastle_line_start(state, head[2]) != OATCASTLE_DONE)
            fail("the start is refused");
        for (uint32_t i = 0; i < head[1]; i++) {
            if (calls[i] & TOO_LITTLE) {
                refuse(calls[i] & ~TOO_LITTLE);
                continue;
            }
            if (calls[i] > head[0] - at)
                fail("a piece runs past the capture");
            start = give(at, at + calls[i], start, head[2]);
            at += calls[i];
        }
        if (at != head[0])
            fail("the pieces are not the capture");
        if (oatcastle_line_tail(state, head[2], &tail) != OATCASTLE_DONE)
            fail("the tail is refused");
        if (tail.longer)
            printf("tail longer\n.\n");
        else
            printf("tail %u\n.\n", (unsigned)tail.length);
    }
    return 0;
}
