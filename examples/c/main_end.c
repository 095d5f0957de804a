/* The main processor's end: sets a key, looks keys up and asks who the supervisor is, and prints
 * what each answer says. Assumes ends.c. Prints the same whatever the wire does. */
#include <stdio.h>

#include "ends.h"

static void print_text(const uint8_t *text, size_t length)
{
    printf("\"%.*s\"\n", (int)length, (const char *)text);
}

/* Model, revision and serial: 11, 4 and 11 bytes. */
static void print_identity(const uint8_t *data)
{
    unsigned revision = data[11] | (unsigned)data[12] << 8 | (unsigned)data[13] << 16 |
                        (unsigned)data[14] << 24;

    printf("identity: model \"%.11s\", revision %u, serial \"%.11s\"\n", (const char *)data,
           revision, (const char *)data + 15);
}

/* The first addresses of the plan: base 6, count 2, stride 1 byte. */
static void print_addresses(const uint8_t *data)
{
    static uint8_t rows[OATCASTLE_ADDRESSES_LENGTH];
    uint16_t count = (uint16_t)(data[6] | data[7] << 8);

    must(oatcastle_plan(data, count, data[8]));
    must(oatcastle_addresses(data, count, data[8], rows, sizeof rows));
    for (unsigned row = 0; row < count && row < OATCASTLE_ADDRESS_ROWS; row++) {
        printf("address %u: ", row);
        for (unsigned i = 0; i < OATCASTLE_ADDRESS_LENGTH; i++)
            printf("%s%02x", i == 0 ? "" : ":", rows[row * OATCASTLE_ADDRESS_LENGTH + i]);
        printf("\n");
    }
}

/* Each length is tested before a byte is read: a supervisor of another version may send others. */
static void print_answer(const oatcastle_requester_receive_answer *what, const uint8_t *data)
{
    if (what->kind != OATCASTLE_ANSWER)
        return;
    if (what->command == OATCASTLE_REPLY_KEY_SET && what->length == 1) {
        printf("set: result %u\n", data[0]);
    } else if (what->command == OATCASTLE_REPLY_KEY_LOOKUP && what->length >= 1) {
        printf("lookup: result %u ", data[0]);
        print_text(data + 1, what->length - 1);
    } else if (what->command == OATCASTLE_REPLY_IDENTITY && what->length == 26) {
        print_identity(data);
    } else if (what->command == OATCASTLE_REPLY_MAC && what->length == 9) {
        print_addresses(data);
    } else {
        printf("another reply: 0x%02x\n", (unsigned)what->command);
    }
}

/* Asks, and waits for the answer. Broken frames are asked for again by the library; here nothing is
 * wholly lost, so that no time-out is needed (recovery.c has one). */
static void ask(uint8_t command, const void *data, size_t length)
{
    main_request(command, data, length);
    while (outstanding().state != OATCASTLE_IDLE) {
        supervisor_turn(NULL);
        main_turn(print_answer);
    }
}

int main(int count, char **words)
{
    static const uint8_t set[] = {OATCASTLE_KEY_ETC_SYSTEM, 's', 'e', 't', ' ', 'x', '=', '1'};
    static const uint8_t etc_system[] = {OATCASTLE_KEY_ETC_SYSTEM, 0x00, 0x01}; /* 256 bytes */
    static const uint8_t too_short[] = {OATCASTLE_KEY_ETC_SYSTEM, 0x03, 0x00};
    static const uint8_t passphrase[] = {OATCASTLE_KEY_PASSPHRASE, 0xff, 0xff};

    begin(count, words);
    ask(OATCASTLE_COMMAND_KEY_LOOKUP, etc_system, sizeof etc_system);
    ask(OATCASTLE_COMMAND_KEY_SET, set, sizeof set);
    ask(OATCASTLE_COMMAND_KEY_LOOKUP, etc_system, sizeof etc_system);
    ask(OATCASTLE_COMMAND_KEY_LOOKUP, too_short, sizeof too_short);
    ask(OATCASTLE_COMMAND_KEY_LOOKUP, passphrase, sizeof passphrase);
    ask(OATCASTLE_COMMAND_IDENTITY, NULL, 0);
    ask(OATCASTLE_COMMAND_MAC, NULL, 0);
    return 0;
}
