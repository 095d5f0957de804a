/* Both ends in one program, and the wire between them. Assumes the static library.
 * More than WIRE_ROOM bytes on their way in a direction, or too many turns, end the program. */
#include "ends.h"

#include <stdio.h>
#include <stdlib.h>
#include <string.h>

oatcastle_supervisor supervisor;
oatcastle_main_end main_end;
struct wire to_supervisor, to_main;

#define MOST_TURNS 1000 /* no example takes so many */

static enum { WHOLE, DAMAGED, SPARE } kind;

/* What the factory wrote. */
static const uint8_t start_data[OATCASTLE_START_LENGTH] = {
    [OATCASTLE_START_BSU] = OATCASTLE_BSU_A,
    [OATCASTLE_START_MODEL] = 'o', 'a', 't', '-', '1',
    [OATCASTLE_START_REVISION] = 3,
    [OATCASTLE_START_SERIAL] = 's', 'n', '4', '2',
    [OATCASTLE_START_MAC_BASE] = 0x02, 0x00, 0x5e, 0x10, 0x00, 0x20,
    [OATCASTLE_START_MAC_COUNT] = 4,
    [OATCASTLE_START_MAC_STRIDE] = 1,
};

void must(uint32_t refusal)
{
    if (refusal == OATCASTLE_DONE)
        return;
    printf("refused as %u: %s\n", (unsigned)refusal, oatcastle_refusal_text(refusal));
    exit(1);
}

void fail(const char *why)
{
    printf("%s\n", why);
    exit(1);
}

/* ---- The wire */

static void carry(struct wire *wire, const uint8_t *bytes, size_t length)
{
    if (length > sizeof wire->bytes - wire->length)
        fail("the wire has no room");
    memcpy(wire->bytes + wire->length, bytes, length);
    wire->length += length;
}

/* Puts a frame on the wire, or nothing where it has no byte. Of each third frame a damaged wire
 * changes a byte; a spare wire adds two 00 ahead of a frame, or noise and a 00. */
static void put(struct wire *wire, const uint8_t *bytes, size_t length)
{
    static const uint8_t spare[] = {0x00, 0x00, 0x55, 0x07, 0x00};
    static unsigned frames;

    if (length == 0)
        return;
    frames++;
    if (kind == SPARE)
        carry(wire, spare, frames % 3 == 0 ? sizeof spare : 2);
    carry(wire, bytes, length);
    if (kind == DAMAGED && frames % 3 == 0)
        wire->bytes[wire->length - 1 - length / 2] ^= 1;
}

/* ---- The supervisor */

void supervisor_begin(void)
{
    must(oatcastle_supervisor_start(&supervisor, start_data));
}

void supervisor_turn(void (*stored)(uint64_t key))
{
    static uint8_t room[OATCASTLE_MOST_PENDING];
    static unsigned turns;
    oatcastle_step_answer done;
    oatcastle_take_answer taken;

    if (++turns > MOST_TURNS)
        fail("no answer comes");
    for (size_t at = 0; at < to_supervisor.length; at += done.used) {
        must(oatcastle_supervisor_step(&supervisor, NULL, 0, to_supervisor.bytes + at,
                                       to_supervisor.length - at, &done));
        if (stored && done.command == OATCASTLE_COMMAND_KEY_SET &&
            done.result == OATCASTLE_SET_STORED)
            stored(done.key);
        must(oatcastle_supervisor_take(&supervisor, room, sizeof room, &taken));
        put(&to_main, room, taken.moved);
    }
    to_supervisor.length = 0;
}

/* ---- The main processor's end */

void main_request(uint8_t command, const void *data, size_t length)
{
    static uint8_t out[OATCASTLE_LONGEST_FRAME];
    oatcastle_requester_request_answer made;

    must(oatcastle_main_end_request(&main_end, command, data, length, out, sizeof out, &made));
    put(&to_supervisor, out, made.length);
}

void main_send(void)
{
    static uint8_t out[OATCASTLE_LONGEST_FRAME];
    oatcastle_requester_send_answer sent;

    must(oatcastle_main_end_send(&main_end, out, sizeof out, &sent));
    put(&to_supervisor, out, sent.length);
}

void main_turn(handed *each)
{
    static uint8_t data[OATCASTLE_LONGEST_DATA];
    oatcastle_requester_receive_answer got;

    for (size_t at = 0; at < to_main.length; at += got.used) {
        must(oatcastle_main_end_receive(&main_end, to_main.bytes + at, to_main.length - at, &got));
        must(oatcastle_main_end_data(&main_end, got.length, data, sizeof data));
        if (got.kind != OATCASTLE_NOTHING)
            each(&got, data);
        must(got.ended ? OATCASTLE_NO_NUMBER : OATCASTLE_DONE);
        main_send();
    }
    to_main.length = 0;
}

oatcastle_requester_state_answer outstanding(void)
{
    oatcastle_requester_state_answer state;

    must(oatcastle_main_end_state(&main_end, &state));
    return state;
}

void begin(int count, char **words)
{
    static const char *const kinds[] = {"whole", "damaged", "spare"};

    for (kind = WHOLE; count > 1 && kind <= SPARE && strcmp(words[1], kinds[kind]) != 0;)
        kind++;
    if (count > 2 || kind > SPARE) {
        printf("usage: %s [whole|damaged|spare]\n", words[0]);
        exit(2);
    }
    supervisor_begin();
    must(oatcastle_main_end_start(&main_end));
}
