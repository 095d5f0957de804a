/* A caller's program over both ends. The main processor sets the passphrase, looks key 0 up and asks for the BSU, over a wire that damages
 * a frame and loses another. The supervisor posts an alert meanwhile. Prints what each side learns and does. Assumes the static library.
 * Ends with 1 at the first refusal. */
#include <stdio.h>
#include <stdlib.h>
#include <string.h>

#include "oatcastle_parts.h"

#define DAMAGED 5u  /* the frame, counted from 1, of which a byte is changed on the wire */
#define LOST 23u    /* the frame that does not arrive */

struct wire {
    uint8_t bytes[4 * OATCASTLE_LONGEST_FRAME];
    size_t length;
};

static oatcastle_supervisor supervisor;
static oatcastle_main_end main_end;
static struct wire to_supervisor, to_main;
static const uint8_t start_data[OATCASTLE_START_LENGTH] = {OATCASTLE_BSU_A};

static void must(uint32_t refusal)
{
    if (refusal == OATCASTLE_DONE)
        return;
    printf("refused as %u: %s\n", (unsigned)refusal, oatcastle_refusal_text(refusal));
    exit(1);
}

/* Puts a frame on the wire, or nothing where it has no byte. */
static void put(struct wire *wire, const uint8_t *bytes, size_t length)
{
    static unsigned frames;

    if (length == 0 || ++frames == LOST)
        return;
    memcpy(wire->bytes + wire->length, bytes, length);
    wire->bytes[wire->length + 17] ^= frames == DAMAGED;
    wire->length += length;
}

/* ---- The supervisor: carries each request out, acts on a setting that was stored, and replies */

static void serve(void)
{
    static uint8_t room[OATCASTLE_MOST_PENDING];
    oatcastle_step_answer done;
    oatcastle_take_answer taken;

    for (size_t at = 0; at < to_supervisor.length; at += done.used) {
        must(oatcastle_supervisor_step(&supervisor, NULL, 0, to_supervisor.bytes + at, to_supervisor.length - at, &done));
        if (done.kind == OATCASTLE_FAILURE)
            printf("supervisor: reason %u\n", (unsigned)done.reason);
        if (done.command == OATCASTLE_COMMAND_KEY_SET && done.result == OATCASTLE_SET_STORED)
            printf("supervisor: key %u is set, the passphrase has %u bytes\n", (unsigned)done.key, supervisor.settings[OATCASTLE_PASSPHRASE_LENGTH]);
        must(oatcastle_supervisor_take(&supervisor, room, sizeof room, &taken));
        put(&to_main, room, taken.moved);
    }
    to_supervisor.length = 0;
}

/* ---- The main processor: one request at a time */

static void send(void)
{
    static uint8_t out[OATCASTLE_LONGEST_FRAME];
    oatcastle_requester_send_answer sent;

    must(oatcastle_main_end_send(&main_end, out, sizeof out, &sent));
    put(&to_supervisor, out, sent.length);
}

static void hear(void)
{
    static uint8_t data[OATCASTLE_LONGEST_DATA];
    oatcastle_requester_receive_answer got;

    for (size_t at = 0; at < to_main.length; at += got.used) {
        must(oatcastle_main_end_receive(&main_end, to_main.bytes + at, to_main.length - at, &got));
        must(oatcastle_main_end_data(&main_end, got.length, data, sizeof data));
        if (got.kind == OATCASTLE_STATUS)
            printf("main: status %u, %u bits\n", (unsigned)got.status, (unsigned)got.set_bits);
        else if (got.kind != OATCASTLE_NOTHING)
            printf("main: %s 0x%02x \"%.*s\"\n", got.kind == OATCASTLE_ALERT ? "alert" : "answer", (unsigned)got.command, (int)got.length - 1, data + 1);
        must(got.ended ? OATCASTLE_NO_NUMBER : OATCASTLE_DONE);
        send();
    }
    to_main.length = 0;
}

static oatcastle_requester_state_answer outstanding(void)
{
    oatcastle_requester_state_answer state;

    must(oatcastle_main_end_state(&main_end, &state));
    return state;
}

/* Asks, and waits for the answer. The line signal begins a recovery, and so does an answer that does not come; a recovery that gets none is given up. */
static void ask(uint8_t command, const char *data, size_t length)
{
    static uint8_t out[OATCASTLE_LONGEST_FRAME];
    oatcastle_requester_request_answer request;
    oatcastle_signal_answer signal;

    must(oatcastle_main_end_request(&main_end, command, (const uint8_t *)data, length, out, sizeof out, &request));
    put(&to_supervisor, out, request.length);
    for (oatcastle_requester_state_answer now = outstanding(); now.state != OATCASTLE_IDLE; now = outstanding()) {
        must(oatcastle_supervisor_signal(&supervisor, &signal));
        if (now.state == OATCASTLE_WAITING && (signal.asserted || to_supervisor.length == 0)) {
            printf("main: interrupt at 0x%02x, number %u\n", (unsigned)now.command, (unsigned)now.number);
            must(oatcastle_main_end_interrupt(&main_end));
            send();
        } else if (to_supervisor.length == 0) {
            printf("main: given up at 0x%02x, number %u\n", (unsigned)now.command, (unsigned)now.number);
            exit(1);
        }
        serve();
        hear();
    }
}

int main(void)
{
    must(oatcastle_supervisor_start(&supervisor, start_data));
    must(oatcastle_main_end_start(&main_end));
    ask(OATCASTLE_COMMAND_KEY_SET, "\6oatcastle", 10);
    must(oatcastle_supervisor_post(&supervisor, 7, (const uint8_t *)"fan", 3));
    ask(OATCASTLE_COMMAND_KEY_LOOKUP, "\0\4", 3);
    ask(OATCASTLE_COMMAND_BSU, "", 0);
    return 0;
}
