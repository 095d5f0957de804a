/* Holds the headers' sentences about memory and answers to the library. They are about parts before their first start, NULL with length 0,
 * a further start and collecting. They say what a refused call leaves, what a step tells, where the passphrase lies, and what is
 * outstanding. Assumes the static library. Ends with 1 at the first sentence that does not hold. */
#include <stdio.h>
#include <stdlib.h>
#include <string.h>

#include "oatcastle_parts.h"

#define HOLDS(sentence) ((sentence) ? (void)0 : fails(#sentence, __LINE__))
/* The call is refused so, and leaves its answer as it was. */
#define REFUSED(number, answer, call) (memset(&answer, 0xa5, sizeof answer), HOLDS((call) == (number)), HOLDS(stayed(&answer, sizeof answer)))

static oatcastle_supervisor supervisor;
static oatcastle_main_end main_end;
static const oatcastle_supervisor zeros;
static const oatcastle_main_end main_zeros;
static oatcastle_counters counters;
static const oatcastle_counters none_counted;
static const uint8_t start_data[OATCASTLE_START_LENGTH] = {OATCASTLE_BSU_A};
static uint8_t room[OATCASTLE_MOST_PENDING];
/* key 3 with edition 1 and the value "a" */
static const uint8_t image[] = {0x4b, 0x56, 0x03, 0x01, 0x00, 0x00, 0x00, 0x01, 0x00, 0x61, 0x08, 0x7d, 0x4b, 0x45};
static const uint8_t l12[] = {
    0x06, 0xcc, 0x19, 0xde, 0x01, 0x01, 0x01, 0x01, 0x02, 0x01, 0x01, 0x01, 0x01, 0x01, 0x01, 0x01, 0x04, 0x08, 0xcf, 0x66, 0x00,
};

static oatcastle_collect_answer collected;
static oatcastle_step_answer stepped;
static oatcastle_take_answer taken;
static oatcastle_lookup_answer found;
static oatcastle_edition_answer edition;
static oatcastle_save_answer saved;
static oatcastle_restore_answer restored;
static oatcastle_record_answer record;
static oatcastle_line_write_answer written;
static oatcastle_requester_request_answer requested;
static oatcastle_requester_send_answer sent;
static oatcastle_requester_receive_answer received;
static oatcastle_requester_state_answer state;

static void fails(const char *sentence, int line)
{
    printf("tests/c/statements.c:%d: does not hold: %s\n", line, sentence);
    exit(1);
}

static int stayed(const void *at, size_t length)
{
    const uint8_t *bytes = at;
    while (length > 0 && *bytes == 0xa5)
        bytes++, length--;
    return length == 0;
}

/* Parts that are all 0: 12 where the factory store is lent, else nothing is there. */
static void before_the_first_start(void)
{
    oatcastle_signal_answer signal;
    oatcastle_flags_answer flags;
    HOLDS(oatcastle_supervisor_receive(&supervisor, NULL, 0, l12, sizeof l12) == OATCASTLE_BAD_STATE);
    REFUSED(OATCASTLE_BAD_STATE, stepped, oatcastle_supervisor_step(&supervisor, NULL, 0, l12, sizeof l12, &stepped));
    REFUSED(OATCASTLE_BAD_STATE, stepped, oatcastle_supervisor_step_counted(&supervisor, &counters, NULL, 0, l12, sizeof l12, &stepped));
    HOLDS(oatcastle_supervisor_receive_counted(&supervisor, &counters, NULL, 0, l12, sizeof l12) == OATCASTLE_BAD_STATE);
    HOLDS(memcmp(&counters, &none_counted, sizeof counters) == 0);
    REFUSED(OATCASTLE_BAD_STATE, found, oatcastle_supervisor_lookup(&supervisor, OATCASTLE_KEY_PING, 4, room, sizeof room, &found));
    REFUSED(OATCASTLE_BAD_STATE, edition, oatcastle_supervisor_edition(&supervisor, OATCASTLE_KEY_PING, &edition));
    HOLDS(oatcastle_supervisor_take(&supervisor, room, sizeof room, &taken) == OATCASTLE_DONE && taken.moved == 0);
    HOLDS(oatcastle_supervisor_signal(&supervisor, &signal) == OATCASTLE_DONE && signal.asserted == 0);
    HOLDS(oatcastle_supervisor_flags(&supervisor, &flags) == OATCASTLE_DONE && flags.reboot == 0 && flags.power_off == 0);
    HOLDS(oatcastle_supervisor_boot_failure_record(&supervisor, NULL, 0, &record) == OATCASTLE_DONE && record.present == 0);
    HOLDS(oatcastle_supervisor_panic_record(&supervisor, NULL, 0, &record) == OATCASTLE_DONE && record.present == 0);
    HOLDS(oatcastle_supervisor_save(&supervisor, room, sizeof room, &saved) == OATCASTLE_DONE && saved.length == 2 && memcmp(room, "KE", 2) == 0);
    HOLDS(memcmp(&supervisor, &zeros, sizeof zeros) == 0);
    HOLDS(oatcastle_supervisor_collect(&supervisor, l12, sizeof l12, &collected) == OATCASTLE_DONE && collected.taken == sizeof l12 - 1);
    HOLDS(oatcastle_supervisor_receive(&supervisor, NULL, 0, l12 + collected.taken, 1) == OATCASTLE_BAD_STATE);
}

/* A start forgets what was given before it. */
static void the_first_start(void)
{
    HOLDS(oatcastle_supervisor_restore(&supervisor, image, sizeof image, &restored) == OATCASTLE_DONE);
    HOLDS(oatcastle_supervisor_post(&supervisor, 1, NULL, 0) == OATCASTLE_DONE);
    HOLDS(oatcastle_supervisor_set_options(&supervisor, OATCASTLE_OPTION_VERBOSE) == OATCASTLE_DONE);
    oatcastle_supervisor other;
    memset(&other, 0x5a, sizeof other);
    memcpy(other.reader, supervisor.reader, sizeof other.reader);
    HOLDS(oatcastle_supervisor_start(&supervisor, start_data) == OATCASTLE_DONE);
    HOLDS(oatcastle_supervisor_start(&other, start_data) == OATCASTLE_DONE);
    HOLDS(memcmp(&supervisor, &other, sizeof other) == 0);
}

/* A reader and a requester that are all 0 are as after their start. */
static void zeros_are_started(void)
{
    static oatcastle_line_reader reader;
    HOLDS(oatcastle_main_end_state(&main_end, &state) == OATCASTLE_DONE && state.state == OATCASTLE_IDLE);
    HOLDS(oatcastle_main_end_start(&main_end) == OATCASTLE_DONE);
    HOLDS(memcmp(&main_end, &main_zeros, sizeof main_zeros) == 0);
    HOLDS(oatcastle_line_reader_start(&reader) == OATCASTLE_DONE);
    HOLDS(memcmp(&reader, &main_zeros, sizeof reader) == 0);
}

/* A further start owes no 00, though the last byte taken was another. */
static void further_start(void)
{
    HOLDS(oatcastle_supervisor_receive(&supervisor, NULL, 0, l12, sizeof l12) == OATCASTLE_DONE);
    HOLDS(oatcastle_supervisor_take(&supervisor, room, 5, &taken) == OATCASTLE_DONE && taken.moved == 5 && room[4] != 0);
    oatcastle_supervisor copy = supervisor;
    HOLDS(oatcastle_supervisor_receive(&copy, NULL, 0, l12, sizeof l12) == OATCASTLE_DONE);
    HOLDS(oatcastle_supervisor_take(&copy, room, sizeof room, &taken) == OATCASTLE_DONE && taken.moved == 38 && room[0] == 0);
    HOLDS(oatcastle_supervisor_start(&supervisor, start_data) == OATCASTLE_DONE);
    HOLDS(oatcastle_supervisor_receive(&supervisor, NULL, 0, l12, sizeof l12) == OATCASTLE_DONE);
    HOLDS(oatcastle_supervisor_take(&supervisor, room, sizeof room, &taken) == OATCASTLE_DONE && taken.moved == 37 && room[0] != 0);
}

/* Collecting and then receiving the rest of a piece is receiving the piece, in one piece or in single bytes; a collect looks at the reader's part alone. */
static void collecting(void)
{
    static const uint8_t pieces[][3] = {{7, 8, 9}, {0, 7, 8}, {7, 0, 0}, {0, 0, 7}, {7, 8, 0}};
    oatcastle_supervisor whole = supervisor, parted = supervisor, singly = supervisor, others = supervisor;
    oatcastle_counters of_whole = none_counted, of_parted = none_counted;
    uint64_t at = 0;

    for (size_t i = 0; i < sizeof pieces / sizeof *pieces; i++) {
        HOLDS(oatcastle_supervisor_receive_counted(&whole, &of_whole, NULL, 0, pieces[i], 3) == OATCASTLE_DONE);
        HOLDS(oatcastle_supervisor_collect(&parted, pieces[i], 3, &collected) == OATCASTLE_DONE);
        HOLDS(collected.taken == 3 || pieces[i][collected.taken] == 0);
        HOLDS(oatcastle_supervisor_receive_counted(&parted, &of_parted, NULL, 0, pieces[i] + collected.taken, 3 - collected.taken) == OATCASTLE_DONE);
        HOLDS(memcmp(&whole, &parted, sizeof whole) == 0 && memcmp(&of_whole, &of_parted, sizeof of_whole) == 0);
    }
    HOLDS(oatcastle_supervisor_receive(&supervisor, NULL, 0, l12, sizeof l12) == OATCASTLE_DONE);
    memset(others.outbox, 0xff, sizeof others - sizeof others.reader);
    while (oatcastle_supervisor_collect(&singly, l12 + at, 1, &collected) == OATCASTLE_DONE && collected.taken == 1) {
        HOLDS(oatcastle_supervisor_collect(&others, l12 + at, 1, &collected) == OATCASTLE_DONE && collected.taken == 1);
        at++;
    }
    HOLDS(at == sizeof l12 - 1 && collected.taken == 0 && memcmp(others.reader, singly.reader, sizeof others.reader) == 0);
    HOLDS(oatcastle_supervisor_receive(&singly, NULL, 0, l12 + at, 1) == OATCASTLE_DONE && memcmp(&singly, &supervisor, sizeof singly) == 0);
    HOLDS(oatcastle_supervisor_collect(&singly, NULL, 0, &collected) == OATCASTLE_DONE && collected.taken == 0);
    REFUSED(OATCASTLE_BAD_STATE, collected, oatcastle_collect(supervisor.reader, OATCASTLE_READER_LENGTH - 1, l12, 1, &collected));
    HOLDS(oatcastle_supervisor_take(&supervisor, room, sizeof room, &taken) == OATCASTLE_DONE);
}

/* NULL with length 0 is an empty run of the inline functions; 8 is for a room alone, and leaves the answer. */
static void null_with_length_0(void)
{
    HOLDS(oatcastle_supervisor_receive(&supervisor, NULL, 0, NULL, 0) == OATCASTLE_DONE);
    HOLDS(oatcastle_supervisor_take(&supervisor, NULL, 0, &taken) == OATCASTLE_DONE && taken.moved == 0);
    HOLDS(oatcastle_supervisor_lookup(&supervisor, OATCASTLE_KEY_ETC_SYSTEM, 9, NULL, 0, &found) == OATCASTLE_DONE && found.result == OATCASTLE_LOOKUP_NO_VALUE);
    HOLDS(oatcastle_supervisor_lookup(&supervisor, OATCASTLE_KEY_PASSPHRASE, 9, NULL, 0, &found) == OATCASTLE_DONE && found.result == OATCASTLE_LOOKUP_SET_ONLY);
    REFUSED(OATCASTLE_NO_ROOM, found, oatcastle_supervisor_lookup(&supervisor, OATCASTLE_KEY_PING, 4, NULL, 0, &found));
    REFUSED(OATCASTLE_NO_ROOM, saved, oatcastle_supervisor_save(&supervisor, NULL, 0, &saved));
    REFUSED(OATCASTLE_NO_ROOM, requested, oatcastle_main_end_request(&main_end, OATCASTLE_COMMAND_STATUS, NULL, 0, NULL, 0, &requested));
}

/* Only a restore writes its answer when it refuses: the offset with 30 to 35. */
static void a_restore(void)
{
    memset(&restored, 0xa5, sizeof restored);
    HOLDS(oatcastle_supervisor_restore(&supervisor, NULL, 0, &restored) == OATCASTLE_RESTORE_CUT_SHORT && restored.offset == 0);
    HOLDS(oatcastle_supervisor_restore(&supervisor, image, sizeof image - 1, &restored) == OATCASTLE_RESTORE_CUT_SHORT && restored.offset == sizeof image - 1);
    memcpy(room, image, sizeof image);
    HOLDS(oatcastle_supervisor_restore(&supervisor, room, sizeof image + 1, &restored) == OATCASTLE_RESTORE_BYTES_AFTER && restored.offset == sizeof image);
    REFUSED(OATCASTLE_DONE, restored, oatcastle_supervisor_restore(&supervisor, image, sizeof image, &restored));
    REFUSED(OATCASTLE_BAD_STATE, restored, oatcastle_restore(supervisor.settings, 1, image, sizeof image, &restored));
}

/* Hands in one request by a counted step. */
static void step(uint8_t command, const char *data, size_t length)
{
    static uint8_t frame[OATCASTLE_LONGEST_FRAME];
    HOLDS(oatcastle_line_write(1, 2, command, (const uint8_t *)data, length, frame, 0, frame, sizeof frame, &written) == OATCASTLE_DONE);
    HOLDS(oatcastle_supervisor_step_counted(&supervisor, &counters, NULL, 0, frame, written.length, &stepped) == OATCASTLE_DONE);
    HOLDS(stepped.used == written.length && stepped.kind == OATCASTLE_MESSAGE && stepped.reason == 0 && stepped.command == command);
}

/* A step tells the request that it carried out; of a key set its key and result. */
static void a_step_tells(void)
{
    step(OATCASTLE_COMMAND_KEY_LOOKUP, "\4\0\0", 3);
    HOLDS(stepped.key == 0 && stepped.result == 0);
    step(OATCASTLE_COMMAND_KEY_SET, "\2", 1);
    HOLDS(stepped.key == OATCASTLE_KEY_INVENTORY && stepped.result == OATCASTLE_SET_READ_ONLY);
    step(OATCASTLE_COMMAND_KEY_SET, "\6short", 6);
    HOLDS(stepped.key == OATCASTLE_KEY_PASSPHRASE && stepped.result == OATCASTLE_SET_TOO_LONG);
    step(OATCASTLE_COMMAND_KEY_SET, "\6password", 9);
    HOLDS(stepped.key == OATCASTLE_KEY_PASSPHRASE && stepped.result == OATCASTLE_SET_STORED);
    HOLDS(oatcastle_supervisor_step_counted(&supervisor, &counters, NULL, 0, l12 + 1, sizeof l12 - 1, &stepped) == OATCASTLE_DONE);
    HOLDS(stepped.kind == OATCASTLE_FAILURE && stepped.reason == OATCASTLE_REASON_FORM && stepped.command == 0);
    HOLDS(counters.good == 4 && counters.empty == 0 && counters.reason1 == 1 && counters.reason2 == 0);
}

/* Where the settings store has the passphrase. */
static void the_passphrase(void)
{
    static const uint8_t record_of_6[] = {1, 1, 0, 0, 0, 8, 0, 'p', 'a', 's', 's', 'w', 'o', 'r', 'd'};
    const uint8_t *settings = supervisor.settings;
    HOLDS(memcmp(settings + OATCASTLE_PASSPHRASE_RECORD, record_of_6, sizeof record_of_6) == 0);
    HOLDS(settings[OATCASTLE_PASSPHRASE_EDITION] == 1 && settings[OATCASTLE_PASSPHRASE_LENGTH] == 8 && settings[OATCASTLE_PASSPHRASE_VALUE] == 'p');
    HOLDS(OATCASTLE_PASSPHRASE_VALUE + OATCASTLE_LONGEST_PASSPHRASE == OATCASTLE_SETTINGS_LENGTH);
}

/* A record's reader copies the kept bytes. */
static void records(void)
{
    uint8_t kept[OATCASTLE_MOST_KEPT];
    step(OATCASTLE_COMMAND_BOOT_FAILURE, "\3ram", 4);
    HOLDS(oatcastle_supervisor_boot_failure_record(&supervisor, kept, sizeof kept, &record) == OATCASTLE_DONE);
    HOLDS(record.present == 1 && record.code == 3 && record.length == 3 && record.kept == 3 && memcmp(kept, "ram", 3) == 0);
    REFUSED(OATCASTLE_NO_ROOM, record, oatcastle_supervisor_boot_failure_record(&supervisor, kept, 2, &record));
    HOLDS(oatcastle_supervisor_panic_record(&supervisor, kept, sizeof kept, &record) == OATCASTLE_DONE && record.present == 0);
}

/* The frame in the room goes to the supervisor, and its reply to the main processor's end. */
static void carry(uint64_t length)
{
    HOLDS(oatcastle_supervisor_receive(&supervisor, NULL, 0, room, length) == OATCASTLE_DONE);
    HOLDS(oatcastle_supervisor_take(&supervisor, room, sizeof room, &taken) == OATCASTLE_DONE);
    HOLDS(oatcastle_main_end_receive(&main_end, room, taken.moved, &received) == OATCASTLE_DONE && received.used == taken.moved);
}

static int is(uint64_t what, uint64_t command, uint64_t number, uint64_t unsent, uint64_t original)
{
    HOLDS(oatcastle_main_end_state(&main_end, &state) == OATCASTLE_DONE);
    return state.state == what && state.command == command && state.number == number && state.unsent == unsent && state.original == original;
}

/* What is outstanding at each step of a recovery that cuts a request off; each kind of answer has fields of its own. */
static void what_is_outstanding(void)
{
    static const struct { uint64_t state, command, kind, status, set_bits; } steps[] = {
        {OATCASTLE_RECOVERY_STATUS, OATCASTLE_COMMAND_STATUS, OATCASTLE_STATUS, 3, 2},
        {OATCASTLE_RECOVERY_ACKNOWLEDGE, OATCASTLE_COMMAND_START_ACKNOWLEDGED, OATCASTLE_NOTHING, 0, 0},
        {OATCASTLE_RECOVERY_STATUS, OATCASTLE_COMMAND_STATUS, OATCASTLE_STATUS, 2, 1},
        {OATCASTLE_RECOVERY_ALERT, OATCASTLE_COMMAND_ALERT, OATCASTLE_ALERT, 0, 0},
        {OATCASTLE_RECOVERY_STATUS, OATCASTLE_COMMAND_STATUS, OATCASTLE_STATUS, 0, 0},
    };
    HOLDS(oatcastle_main_end_request(&main_end, OATCASTLE_COMMAND_BSU, NULL, 0, room, sizeof room, &requested) == OATCASTLE_DONE);
    HOLDS(is(OATCASTLE_WAITING, OATCASTLE_COMMAND_BSU, 1, 0, 0));
    REFUSED(OATCASTLE_OUTSTANDING, requested, oatcastle_main_end_request(&main_end, OATCASTLE_COMMAND_BSU, NULL, 0, room, sizeof room, &requested));
    HOLDS(oatcastle_supervisor_post(&supervisor, 9, l12, 1) == OATCASTLE_DONE && oatcastle_main_end_interrupt(&main_end) == OATCASTLE_DONE);
    for (size_t i = 0; i < sizeof steps / sizeof *steps; i++) {
        HOLDS(is(steps[i].state, steps[i].command, i + 2, 1, 1));
        HOLDS(oatcastle_main_end_send(&main_end, room, sizeof room, &sent) == OATCASTLE_DONE && is(steps[i].state, steps[i].command, i + 2, 0, 1));
        carry(sent.length);
        HOLDS(received.kind == steps[i].kind && received.status == steps[i].status && received.set_bits == steps[i].set_bits && received.unsent == 1);
        HOLDS((received.command != 0) == (received.kind == OATCASTLE_ALERT) && (received.length != 0) == (received.kind == OATCASTLE_ALERT));
    }
    HOLDS(is(OATCASTLE_WAITING, OATCASTLE_COMMAND_BSU, 7, 1, 0));
    HOLDS(oatcastle_main_end_send(&main_end, room, sizeof room, &sent) == OATCASTLE_DONE);
    carry(sent.length);
    HOLDS(received.kind == OATCASTLE_ANSWER && received.command == OATCASTLE_REPLY_BSU && received.length == 1 && received.sequence == (1ull << 63 | 7));
    HOLDS(oatcastle_main_end_data(&main_end, received.length, room, sizeof room) == OATCASTLE_DONE && room[0] == OATCASTLE_BSU_A);
    HOLDS(is(OATCASTLE_IDLE, 0, 0, 0, 0));
    REFUSED(OATCASTLE_BAD_STATE, state, oatcastle_requester_state(main_end.requester, 1, &state));
}

/* Each number of a table has words, and no other has. */
static void words(void)
{
    for (uint32_t number = 0; number < 1000; number++) {
        int known = number == 0 || (8 <= number && number <= 17) || (20 <= number && number <= 26) || (30 <= number && number <= 35);
        HOLDS((strcmp(oatcastle_refusal_text(number), "unknown") != 0) == known);
    }
}

int main(void)
{
    before_the_first_start();
    the_first_start();
    zeros_are_started();
    further_start();
    collecting();
    null_with_length_0();
    a_restore();
    a_step_tells();
    the_passphrase();
    records();
    what_is_outstanding();
    words();
    printf("statements of the headers: all hold\n");
    return 0;
}
