/* Says what calls leave of a passphrase on a bare Cortex-M. Any four bytes of the value in a row are looked for after each call:
 *   - below the stack pointer: at how many places such four begin, and how deep the deepest lie;
 *   - in the lent parts, where they must be where docs/STATE.md has them, and nowhere else; it ends with 1 where they are not so.
 * With PLANTED, 1 to 4, a part has four of them where it must have none.
 * Assumes the startup code, the linker script and memory.c of examples/firmware. */
#include "oatcastle_parts.h"
#include "port.h"
#include "semihosting.h"

#ifndef PLANTED
#define PLANTED 0
#endif
#define DEPTH 8192  /* so far below the stack pointer; no call goes so deep */
#define GAP 2048    /* between the caller's frame and the calls': room for the scan's own frames, so that it overwrites nothing it looks at */
#define WINDOW 4
#define LENGTH OATCASTLE_LONGEST_PASSPHRASE
#define LAST_GROUP (1 + 2 + LENGTH + 2)     /* of a set's form: code byte, command, key, value, checksum */
#define CUT_SET (set + set_length - LAST_GROUP - 1)  /* a set whose first bytes were lost, up to that group */

static oatcastle_supervisor supervisor;
static oatcastle_main_end main_end;
static oatcastle_counters counters;
static const uint8_t start_data[OATCASTLE_START_LENGTH] = {OATCASTLE_BSU_A};
static uint8_t value[1 + LENGTH], set[OATCASTLE_LONGEST_FRAME], flipped[OATCASTLE_LONGEST_FRAME], status[64], answer[64], room[OATCASTLE_LONGEST_IMAGE];
static uint32_t set_length, status_length, answer_length, at, bad;
static const uint8_t *stack;

/* Where bytes of the passphrase lie. */
enum { RECORD = 1, READER = 2, OUTBOX = 4, REQUESTER = 8, MAIN_READER = 16 };

/* ---- The scan */

static int is_value(const uint8_t *bytes)
{
    for (uint32_t i = 1; i + WINDOW <= sizeof value; i++) {
        uint32_t n = 0;
        while (n < WINDOW && bytes[n] == value[i + n])
            n++;
        if (n == WINDOW)
            return 1;
    }
    return 0;
}

/* How many places of these bytes begin four of the value; `first` gets the lowest such place, the length where there is none. */
static uint32_t places(const uint8_t *bytes, uint32_t length, uint32_t *first)
{
    uint32_t n = 0;

    *first = length;
    for (uint32_t i = 0; i + WINDOW <= length; i++)
        if (is_value(bytes + i)) {
            if (n++ == 0)
                *first = i;
        }
    return n;
}

static void part(const char *name, const uint8_t *bytes, uint32_t length, int holds, int may)
{
    uint32_t first, n = places(bytes, length, &first);

    if (may || holds == (n > 0))
        return;
    host_text(name);
    host_number(n > 0 ? ": bytes of the passphrase at " : ": no bytes of the passphrase up to ", first, "\n");
    bad = 1;
}

/* All parts: bytes of the passphrase lie in those that `holds` names, may lie in those that `may` names, and in no others. */
static void parts(int holds, int may)
{
    part("reader", supervisor.reader, sizeof supervisor.reader, (holds & READER) != 0, may & READER);
    part("outbox", supervisor.outbox, sizeof supervisor.outbox, (holds & OUTBOX) != 0, 0);
    part("factory", supervisor.factory, sizeof supervisor.factory, 0, 0);
    part("settings ahead of the record", supervisor.settings, OATCASTLE_PASSPHRASE_VALUE, 0, 0);
    part("record", supervisor.settings + OATCASTLE_PASSPHRASE_VALUE, LENGTH, (holds & RECORD) != 0, 0);
    part("registers", supervisor.registers, sizeof supervisor.registers, 0, 0);
    part("main processor's reader", main_end.reader, sizeof main_end.reader, (holds & MAIN_READER) != 0, 0);
    part("main processor's part", main_end.requester, sizeof main_end.requester, (holds & REQUESTER) != 0, 0);
}

static void say(const char *what, uint32_t n, uint32_t deepest)
{
    host_text(what);
    host_number(": ", n, " places below the stack pointer");
    host_number(", the deepest at ", deepest, "\n");
}

/* ---- The calls, each made at the same depth */

enum call {
    PAINT,
    START, RECEIVE, STEP, RECEIVE_COUNTED, STEP_COUNTED, COLLECT, AT_00, SINGLY, HALF, FLIPPED, CUT, STATUS,
    TAKE, POST, OPTIONS, LOOKUP, EDITION, SAVE, RESTORE, SIGNAL, FLAGS, BOOT_FAILURE, PANIC,
    LINE_START, LINE_READ, LINE_CUT, LINE_DATA, LINE_TAIL, LINE_WRITE,
    MAIN_START, REQUEST, MAIN_STATE, DAMAGED, SEND, ANSWER, OTHER, INTERRUPT, REPLY
};

/* Four bytes of the value where none must lie. */
static void plant(int kind, uint8_t *to)
{
    for (uint32_t i = 0; kind == PLANTED && i < WINDOW; i++)
        to[i] = value[7 + i];
}

static void make(enum call call)
{
    static oatcastle_step_answer read;
    static oatcastle_take_answer taken;
    static oatcastle_lookup_answer found;
    static oatcastle_edition_answer edition;
    static oatcastle_save_answer saved;
    static oatcastle_restore_answer restored;
    static oatcastle_signal_answer signal;
    static oatcastle_flags_answer flags;
    static oatcastle_record_answer record;
    static oatcastle_requester_request_answer requested;
    static oatcastle_requester_send_answer sent;
    static oatcastle_requester_receive_answer received;
    static oatcastle_requester_state_answer state;
    static oatcastle_line_read_answer line;
    static oatcastle_collect_answer collected;
    static oatcastle_line_tail_answer tail;
    static oatcastle_line_write_answer written;
    static const uint8_t damaged[] = {2, 0};

    switch (call) {
    case PAINT: break;
    case START:
        bad |= oatcastle_supervisor_start(&supervisor, start_data);
        plant(2, supervisor.settings + OATCASTLE_PASSPHRASE_VALUE);
        break;
    case RECEIVE: bad |= oatcastle_supervisor_receive(&supervisor, 0, 0, set, set_length); break;
    case STEP: bad |= oatcastle_supervisor_step(&supervisor, 0, 0, set, set_length, &read); break;
    case RECEIVE_COUNTED: bad |= oatcastle_supervisor_receive_counted(&supervisor, &counters, 0, 0, set, set_length); break;
    case STEP_COUNTED: bad |= oatcastle_supervisor_step_counted(&supervisor, &counters, 0, 0, set, set_length, &read); break;
    case COLLECT: bad |= oatcastle_supervisor_collect(&supervisor, set, set_length - 1, &collected); break;
    case AT_00: bad |= oatcastle_supervisor_receive(&supervisor, 0, 0, set + set_length - 1, 1); break;
    case SINGLY: bad |= oatcastle_supervisor_receive(&supervisor, 0, 0, set + at, 1); break;
    case HALF: bad |= oatcastle_supervisor_receive(&supervisor, 0, 0, set, set_length / 2); break;
    case FLIPPED: bad |= oatcastle_supervisor_receive(&supervisor, 0, 0, flipped, set_length); break;
    case CUT: bad |= oatcastle_supervisor_receive(&supervisor, 0, 0, CUT_SET, LAST_GROUP + 1); break;
    case STATUS: bad |= oatcastle_supervisor_receive(&supervisor, 0, 0, status, status_length); break;
    case TAKE: bad |= oatcastle_supervisor_take(&supervisor, room, sizeof room, &taken); break;
    case POST: bad |= oatcastle_supervisor_post(&supervisor, 1, start_data, 4); break;
    case OPTIONS: bad |= oatcastle_supervisor_set_options(&supervisor, OATCASTLE_OPTION_KBM); break;
    case LOOKUP: bad |= oatcastle_supervisor_lookup(&supervisor, OATCASTLE_KEY_PASSPHRASE, 63, room, sizeof room, &found); break;
    case EDITION: bad |= oatcastle_supervisor_edition(&supervisor, OATCASTLE_KEY_PASSPHRASE, &edition); break;
    case SAVE: bad |= oatcastle_supervisor_save(&supervisor, room, sizeof room, &saved); break;
    case RESTORE: bad |= oatcastle_supervisor_restore(&supervisor, room, saved.length, &restored); break;
    case SIGNAL: bad |= oatcastle_supervisor_signal(&supervisor, &signal); break;
    case FLAGS: bad |= oatcastle_supervisor_flags(&supervisor, &flags); break;
    case BOOT_FAILURE: bad |= oatcastle_supervisor_boot_failure_record(&supervisor, room, sizeof room, &record); break;
    case PANIC: bad |= oatcastle_supervisor_panic_record(&supervisor, room, sizeof room, &record); break;
    case LINE_START: bad |= oatcastle_line_start(supervisor.reader, sizeof supervisor.reader); break;
    case LINE_READ: bad |= oatcastle_line_read(supervisor.reader, sizeof supervisor.reader, set, set_length, &line); break;
    case LINE_CUT: bad |= oatcastle_line_read(supervisor.reader, sizeof supervisor.reader, CUT_SET, LAST_GROUP + 1, &line); break;
    case LINE_DATA: bad |= oatcastle_line_data(supervisor.reader, sizeof supervisor.reader, sizeof value, room, sizeof room); break;
    case LINE_TAIL: bad |= oatcastle_line_tail(supervisor.reader, sizeof supervisor.reader, &tail); break;
    case LINE_WRITE: bad |= oatcastle_line_write(1, 1, OATCASTLE_COMMAND_KEY_SET, value, sizeof value, value, 0, room, sizeof room, &written); break;
    case MAIN_START:
        bad |= oatcastle_main_end_start(&main_end);
        plant(3, main_end.requester + 1000);
        break;
    case REQUEST: bad |= oatcastle_main_end_request(&main_end, OATCASTLE_COMMAND_KEY_SET, value, sizeof value, room, sizeof room, &requested); break;
    case MAIN_STATE: bad |= oatcastle_main_end_state(&main_end, &state); break;
    case DAMAGED: bad |= oatcastle_main_end_receive(&main_end, damaged, sizeof damaged, &received); break;
    case SEND: bad |= oatcastle_main_end_send(&main_end, room, sizeof room, &sent); break;
    case ANSWER: bad |= oatcastle_main_end_receive(&main_end, answer, answer_length, &received); break;
    case OTHER: bad |= oatcastle_main_end_request(&main_end, OATCASTLE_COMMAND_STATUS, value, 0, room, sizeof room, &requested); break;
    case INTERRUPT: bad |= oatcastle_main_end_interrupt(&main_end); break;
    case REPLY: bad |= oatcastle_main_end_receive(&main_end, room, taken.moved, &received); break;
    }
}

/* Makes a call a gap below its caller's frame, and notes the stack pointer; first the bytes below it are painted, where nothing of before is to stay. */
static __attribute__((noinline)) void deep(enum call call, int paint)
{
    uint8_t gap[GAP];

    __asm__ volatile("" : : "r"(gap) : "memory");
    stack = (const uint8_t *)port_stack();
    if (paint)
        for (volatile uint8_t *byte = (volatile uint8_t *)stack - DEPTH; byte < stack; byte++)
            *byte = 0;
    make(call);
    __asm__ volatile("" : : "r"(gap) : "memory");
}

static void try(const char *what, enum call call, int paint, int holds)
{
    uint32_t first, n;

    deep(call, paint);
    parts(holds, 0);
    n = places(stack - DEPTH, DEPTH, &first);
    say(what, n, DEPTH - first);
}

/* ---- What is tried */

/* Each byte of a set but its 00 in a call of its own, a look after each; says the most places and the deepest. */
static void singly(void)
{
    uint32_t most = 0, deepest = 0;

    deep(PAINT, 1);
    for (at = 0; at + 1 < set_length; at++) {
        uint32_t first, n;
        deep(SINGLY, 0);
        if (at == 40)
            plant(4, supervisor.outbox + 4000);
        parts(0, READER);
        if (at == 40 && PLANTED == 4)
            for (uint32_t i = 0; i < WINDOW; i++)
                supervisor.outbox[4000 + i] = 0;
        n = places(stack - DEPTH, DEPTH, &first);
        most = n > most ? n : most;
        deepest = DEPTH - first > deepest ? DEPTH - first : deepest;
    }
    say("oatcastle_receive, a set byte by byte, after each up to its 00", most, deepest);
    parts(READER, 0);
    try("oatcastle_receive, its 00", SINGLY, 0, RECORD);
}

static void sets(void)
{
    plant(1, supervisor.outbox + 4000);
    try("oatcastle_receive, a set", RECEIVE, 1, RECORD);
    try("oatcastle_receive, a status request behind it", STATUS, 0, RECORD);
    try("oatcastle_start behind it", START, 0, 0);
    try("oatcastle_step, a set", STEP, 1, RECORD);
    try("oatcastle_take behind it", TAKE, 0, RECORD);
    try("oatcastle_lookup of key 6 behind it", LOOKUP, 0, RECORD);
    try("oatcastle_edition of key 6 behind it", EDITION, 0, RECORD);
    try("oatcastle_save behind it", SAVE, 0, RECORD);
    try("oatcastle_restore behind it", RESTORE, 0, RECORD);
    try("oatcastle_post behind it", POST, 0, RECORD);
    try("oatcastle_set_options behind it", OPTIONS, 0, RECORD);
    try("oatcastle_signal behind it", SIGNAL, 0, RECORD);
    try("oatcastle_flags behind it", FLAGS, 0, RECORD);
    try("oatcastle_boot_failure_record behind it", BOOT_FAILURE, 0, RECORD);
    try("oatcastle_panic_record behind it", PANIC, 0, RECORD);
    try("oatcastle_line_data behind it", LINE_DATA, 0, RECORD);
    try("oatcastle_line_tail behind it", LINE_TAIL, 0, RECORD);
    try("oatcastle_receive_counted, a set", RECEIVE_COUNTED, 1, RECORD);
    try("oatcastle_step_counted, a set", STEP_COUNTED, 1, RECORD);
    try("oatcastle_receive, half a set", HALF, 1, RECORD | READER);
    try("oatcastle_line_tail, half a set received", LINE_TAIL, 1, RECORD | READER);
    try("oatcastle_start, half a set received", START, 1, 0);
    try("oatcastle_collect, a set up to its 00", COLLECT, 1, READER);
    try("oatcastle_receive, its 00 behind a collect", AT_00, 0, RECORD);
    try("oatcastle_start behind that", START, 0, 0);
    singly();
    try("oatcastle_start behind it", START, 0, 0);
}

static void lines(void)
{
    try("oatcastle_line_read, a set", LINE_READ, 1, READER);
    try("oatcastle_line_data of it", LINE_DATA, 1, READER);
    try("oatcastle_line_tail behind it", LINE_TAIL, 0, READER);
    try("oatcastle_line_start behind it", LINE_START, 0, 0);
    try("oatcastle_line_write, a set", LINE_WRITE, 1, 0);
}

static void requests(void)
{
    deep(MAIN_START, 1);
    try("oatcastle_requester_request, a set", REQUEST, 1, REQUESTER);
    try("oatcastle_requester_state behind it", MAIN_STATE, 0, REQUESTER);
    try("oatcastle_requester_receive, a damaged reply", DAMAGED, 1, REQUESTER);
    try("oatcastle_requester_send, the set again", SEND, 1, REQUESTER);
    try("oatcastle_requester_receive, its answer behind it", ANSWER, 0, REQUESTER);
    try("oatcastle_requester_request, a status request behind it", OTHER, 0, REQUESTER);
    try("oatcastle_requester_interrupt behind it", INTERRUPT, 0, REQUESTER);
    try("oatcastle_requester_start behind it", MAIN_START, 0, 0);
    deep(REQUEST, 1);
    try("oatcastle_requester_receive, the answer to a set", ANSWER, 1, REQUESTER);
    deep(MAIN_START, 1);
}

/* Damaged sets. Where the first bytes were lost, the eight bytes in the sequence's place are the value's, and go back in the reply. */
static void damages(void)
{
    try("oatcastle_receive, a set with a flipped bit", FLIPPED, 1, READER);
    try("oatcastle_start behind it", START, 0, 0);
    try("oatcastle_line_read, a set whose first bytes were lost", LINE_CUT, 1, READER);
    try("oatcastle_receive, a set whose first bytes were lost", CUT, 1, READER | OUTBOX);
    try("oatcastle_take, the reply to it", TAKE, 1, READER | OUTBOX);
    try("oatcastle_requester_receive, that reply", REPLY, 1, READER | OUTBOX | MAIN_READER);
    try("oatcastle_start behind it", START, 0, MAIN_READER);
    try("oatcastle_requester_start behind it", MAIN_START, 0, 0);
}

static void frame(uint8_t *to, uint32_t room_length, uint64_t sequence, uint8_t command, uint32_t length, uint32_t *written_length)
{
    static oatcastle_line_write_answer written;

    bad |= oatcastle_line_write(1, sequence, command, value, length, value, 0, to, room_length, &written);
    *written_length = (uint32_t)written.length;
}

int main(void)
{
    value[0] = OATCASTLE_KEY_PASSPHRASE;
    for (uint32_t i = 1; i < sizeof value; i++)
        value[i] = (uint8_t)(0xa0 + (i * 37) % 95);
    frame(set, sizeof set, 1, OATCASTLE_COMMAND_KEY_SET, sizeof value, &set_length);
    frame(flipped, sizeof flipped, 1, OATCASTLE_COMMAND_KEY_SET, sizeof value, &set_length);
    flipped[set_length / 2] ^= 1;
    bad |= *CUT_SET != LAST_GROUP;
    frame(status, sizeof status, 2, OATCASTLE_COMMAND_STATUS, 0, &status_length);
    frame(answer, sizeof answer, 1ull << 63 | 1, OATCASTLE_REPLY_KEY_SET, 1, &answer_length);
    deep(START, 1);
    sets();
    lines();
    requests();
    damages();
    if (bad)
        host_text("a call was refused, or bytes of the passphrase are not where they must be\n");
    host_end(!bad);
    return 0;
}
