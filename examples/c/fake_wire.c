/* Feeds the status request of sample L12 to a supervisor, byte by byte, and prints the reply's bytes as hex in one line.
 * Assumes the static library of the crate `oatcastle`. */
#include <stdio.h>

#include "oatcastle_parts.h"

static const uint8_t request[] = {
    0x06, 0xcc, 0x19, 0xde, 0x01, 0x01, 0x01, 0x01, 0x02, 0x01, 0x01,
    0x01, 0x01, 0x01, 0x01, 0x01, 0x04, 0x08, 0xcf, 0x66, 0x00,
};

/* The supervisor's parts: the caller owns them. */
static oatcastle_supervisor supervisor;

/* Start data: the BSU, everything else 0, no items. */
static const uint8_t start_data[OATCASTLE_START_LENGTH] = {OATCASTLE_BSU_A};

/* Prints what is pending; returns a refusal's number, or 0. */
static uint32_t send_pending(const char **gap)
{
    uint8_t room[16];
    oatcastle_take_answer taken;

    do {
        uint32_t no = oatcastle_supervisor_take(&supervisor, room, sizeof room, &taken);
        if (no != OATCASTLE_DONE)
            return no;
        for (size_t i = 0; i < taken.moved; i++) {
            printf("%s%02x", *gap, room[i]);
            *gap = " ";
        }
    } while (taken.moved == sizeof room);
    return OATCASTLE_DONE;
}

int main(void)
{
    const char *gap = "";
    uint32_t no = oatcastle_supervisor_start(&supervisor, start_data);

    for (size_t i = 0; no == OATCASTLE_DONE && i < sizeof request; i++) {
        no = oatcastle_supervisor_receive(&supervisor, NULL, 0, &request[i], 1);
        if (no == OATCASTLE_DONE)
            no = send_pending(&gap);
    }
    printf("\n");
    if (no != OATCASTLE_DONE) {
        fprintf(stderr, "refused as %u: %s\n", (unsigned)no, oatcastle_refusal_text(no));
        return 1;
    }
    return 0;
}
