/* Makes a start, or receives a request whole, so many times: what bench/costs counts the instructions of.
 * Assumes the static library; the image lent is empty. */
#include <stdlib.h>
#include <string.h>
#include "oatcastle_parts.h"

enum what { LINE_START, START, MAIN_START, RECEIVE };
static const struct {
    const char *name;
    enum what what;
    uint8_t command, key;
    uint32_t length;
} costs[] = {
    {"line-start", LINE_START, OATCASTLE_COMMAND_STATUS, 0, 0},
    {"start", START, OATCASTLE_COMMAND_STATUS, 0, 0},
    {"main-start", MAIN_START, OATCASTLE_COMMAND_STATUS, 0, 0},
    {"status", RECEIVE, OATCASTLE_COMMAND_STATUS, 0, 0},
    {"image-block", RECEIVE, OATCASTLE_COMMAND_IMAGE_BLOCK, 0, 40},
    {"set-3-of-63", RECEIVE, OATCASTLE_COMMAND_KEY_SET, OATCASTLE_KEY_ETC_SYSTEM, 64},
    {"set-4-of-4096", RECEIVE, OATCASTLE_COMMAND_KEY_SET, OATCASTLE_KEY_DTRACE_CONF, 4097},
    {"set-6-of-8", RECEIVE, OATCASTLE_COMMAND_KEY_SET, OATCASTLE_KEY_PASSPHRASE, 9},
    {"set-6-of-63", RECEIVE, OATCASTLE_COMMAND_KEY_SET, OATCASTLE_KEY_PASSPHRASE, 64},
};
static oatcastle_supervisor supervisor;
static oatcastle_main_end main_end;
static oatcastle_line_reader reader;
static const uint8_t start_data[OATCASTLE_START_LENGTH] = {OATCASTLE_BSU_A};
static uint8_t data[OATCASTLE_LONGEST_DATA], piece[OATCASTLE_LONGEST_FRAME];

static uint32_t once(enum what what, uint64_t length)
{
    switch (what) {
    case LINE_START: return oatcastle_line_reader_start(&reader);
    case START: return oatcastle_supervisor_start(&supervisor, start_data);
    case MAIN_START: return oatcastle_main_end_start(&main_end);
    default: return oatcastle_supervisor_receive(&supervisor, data, 0, piece, length);
    }
}

/* COST TIMES: ends with 0 if no call is refused. */
int main(int words, char **word)
{
    oatcastle_line_write_answer written;
    uint32_t refused;
    size_t i = 0;

    while (words != 3 || strcmp(costs[i].name, word[1]) != 0)
        if (words != 3 || ++i == sizeof costs / sizeof costs[0])
            return 2;
    for (uint32_t j = 0; j < sizeof data; j++)
        data[j] = (uint8_t)(j * 11 + j / 256);
    data[0] = costs[i].key;
    refused = oatcastle_line_write(1, 1, costs[i].command, data, costs[i].length, data, 0, piece, sizeof piece, &written);
    refused |= oatcastle_supervisor_start(&supervisor, start_data);
    for (int times = atoi(word[2]); times > 0; times--)
        refused |= once(costs[i].what, written.length);
    return refused != 0;
}
