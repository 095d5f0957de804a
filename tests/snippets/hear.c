/* The driver of a snippet's `hear`: for each line of standard input a fresh end asks for key 0. It is interrupted where the line's first
 * word says so, and hears the line's other words, pieces in hex. Prints what was handed out and all that went to the wire. Assumes that it
 * stands behind the snippet in one file. */
#include <stdio.h>
#include <stdlib.h>
#include <string.h>

static char line[1 << 20];
static uint8_t wire[1 << 18], piece[1 << 18];
static size_t wired;

static void print(const uint8_t *bytes, size_t count)
{
    for (size_t at = 0; at < count; at++)
        printf("%02x", bytes[at]);
}

static void keep(const uint8_t *bytes, size_t count)
{
    memcpy(wire + wired, bytes, count);
    wired += count;
}

static void say(const oatcastle_requester_receive_answer *what, const uint8_t *data)
{
    if (what->kind == OATCASTLE_ANSWER)
        printf("answer %02x ", (unsigned)what->command);
    if (what->kind == OATCASTLE_ALERT)
        printf("alert ");
    if (what->kind != OATCASTLE_STATUS) {
        print(data, what->length);
        printf(" ");
    }
}

static uint32_t heard(oatcastle_main_end *end, const char *word)
{
    size_t count = strlen(word) / 2;
    for (size_t at = 0; at < count; at++) {
        char digits[3] = {word[2 * at], word[2 * at + 1], 0};
        piece[at] = (uint8_t)strtoul(digits, NULL, 16);
    }
    return hear(end, piece, count, say, keep);
}

static uint32_t interrupted(oatcastle_main_end *end)
{
    static uint8_t out[OATCASTLE_LONGEST_FRAME];
    oatcastle_requester_send_answer put;
    uint32_t refusal = oatcastle_main_end_interrupt(end);
    if (refusal == OATCASTLE_DONE)
        refusal = oatcastle_main_end_send(end, out, sizeof out, &put);
    if (refusal == OATCASTLE_DONE)
        keep(out, put.length);
    return refusal;
}

static uint32_t asked(oatcastle_main_end *end)
{
    static const uint8_t lookup[] = {OATCASTLE_KEY_PING, 4, 0};
    static uint8_t out[OATCASTLE_LONGEST_FRAME];
    oatcastle_requester_request_answer put;
    uint32_t refusal = oatcastle_main_end_start(end);
    if (refusal == OATCASTLE_DONE)
        refusal = oatcastle_main_end_request(end, OATCASTLE_COMMAND_KEY_LOOKUP, lookup, sizeof lookup, out, sizeof out, &put);
    wired = 0;
    if (refusal == OATCASTLE_DONE)
        keep(out, put.length);
    return refusal;
}

int main(void)
{
    static oatcastle_main_end end;
    while (fgets(line, sizeof line, stdin)) {
        uint32_t refusal = asked(&end);
        for (char *word = strtok(line, " \n"); word && refusal == OATCASTLE_DONE; word = strtok(NULL, " \n"))
            refusal = strcmp(word, "interrupt") == 0 ? interrupted(&end) : heard(&end, word);
        if (refusal != OATCASTLE_DONE)
            return 1;
        printf("sent ");
        print(wire, wired);
        printf("\n");
    }
    return 0;
}
