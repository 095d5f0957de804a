/* The supervisor on a serial port or pty: serves requests, keeps the settings in a file, and raises
 * an interrupt line, which is a second device. Assumes device.c and settings_file.c.
 * usage: supervisor WIRE LINE FILE */
#define _DEFAULT_SOURCE
#include <errno.h>
#include <poll.h>
#include <stdio.h>
#include <string.h>

#include "device.h"
#include "oatcastle_parts.h"
#include "settings_file.h"

#define LINE_MS 200     /* how often the line is raised while nothing comes */
#define RAISED '1'
#define STARTED 1       /* the action of the alert that a start posts */

static oatcastle_supervisor supervisor;
static const uint8_t start_data[OATCASTLE_START_LENGTH] = {OATCASTLE_BSU_A};
static int wire, line;
static const char *file;

static void save(void)
{
    static uint8_t image[OATCASTLE_LONGEST_IMAGE];
    oatcastle_save_answer saved;

    must(oatcastle_supervisor_save(&supervisor, image, sizeof image, &saved));
    settings_write(file, image, saved.length);
}

/* Restores the settings, and says in an alert how that went. Without a good image they stay as a
 * start leaves them: without values. */
static void restore(void)
{
    static uint8_t image[OATCASTLE_LONGEST_IMAGE + 1];
    char text[OATCASTLE_LONGEST_ALERT];
    oatcastle_restore_answer fault = {0};
    long length = settings_read(file, image, sizeof image);
    uint32_t refusal = OATCASTLE_DONE;

    if (length >= 0)
        refusal = oatcastle_supervisor_restore(&supervisor, image, (size_t)length, &fault);
    if (refusal == OATCASTLE_BAD_STATE)
        must(refusal);
    if (refusal != OATCASTLE_DONE)
        snprintf(text, sizeof text, "started; not restored: %u at offset %lu", (unsigned)refusal,
                 (unsigned long)fault.offset);
    else
        snprintf(text, sizeof text, length < 0 ? "started; no file" : "started; restored");
    must(oatcastle_supervisor_post(&supervisor, STARTED, (const uint8_t *)text, strlen(text)));
}

/* Carries out what came. A setting is in the file before its reply goes out: what was acknowledged
 * is never lost. */
static void serve(const uint8_t *piece, size_t length)
{
    static uint8_t room[OATCASTLE_MOST_PENDING];
    oatcastle_step_answer done;
    oatcastle_take_answer taken;

    for (; length > 0; piece += done.used, length -= done.used) {
        must(oatcastle_supervisor_step(&supervisor, NULL, 0, piece, length, &done));
        if (done.command == OATCASTLE_COMMAND_KEY_SET && done.result == OATCASTLE_SET_STORED)
            save();
        must(oatcastle_supervisor_take(&supervisor, room, sizeof room, &taken));
        device_write(wire, room, taken.moved);
    }
}

/* Raises the line when the signal becomes asserted, and again where nothing came since. */
static void raise_line(int quiet)
{
    static int raised;
    oatcastle_signal_answer now;

    must(oatcastle_supervisor_signal(&supervisor, &now));
    if (now.asserted && (quiet || !raised))
        device_hint(line, RAISED);
    raised = now.asserted != 0;
}

int main(int count, char **words)
{
    static const uint8_t end = 0;
    uint8_t piece[256];

    if (count != 4) {
        fprintf(stderr, "usage: %s WIRE LINE FILE\n", words[0]);
        return 2;
    }
    wire = device_open(words[1]);
    line = device_open(words[2]);
    file = words[3];
    must(oatcastle_supervisor_start(&supervisor, start_data));
    restore();
    device_write(wire, &end, 1); /* ends a reply of which a part went out before the start */
    for (int ready = 0;;) {
        struct pollfd from = {.fd = wire, .events = POLLIN};
        raise_line(ready == 0);
        ready = poll(&from, 1, LINE_MS);
        if (ready < 0 && errno != EINTR)
            fail("poll");
        if (ready > 0)
            serve(piece, device_read(wire, piece, sizeof piece));
    }
}
