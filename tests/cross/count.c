/* Counts the instructions of calls on a bare Cortex-M4 under qemu with -icount shift=6. An instruction takes 64 ns of the board's time
 * there, and a tick of SysTick 40 ns. Prints what each takes; memcpy, memmove and memset are counted in. An echo request is answered by
 * oatcastle_rot_read. Assumes the startup code, the linker script and memory.c of examples/firmware, and a processor clock of 25 MHz. */
#include "oatcastle_parts.h"
#include "semihosting.h"

#define SYSTICK ((volatile uint32_t *)0xe000e010)   /* control, reload, current value */
#define TICKS 0xffffffu

#define TOP_BIT (1ull << 63)
/* Counts a call, and says what it was. */
#define COUNT(what, call) (begin(), refused |= (call), tell(what, end()))

static oatcastle_supervisor supervisor;
static oatcastle_main_end main_end;
static oatcastle_line_reader reader;
static oatcastle_counters counters;
static const uint8_t start_data[OATCASTLE_START_LENGTH] = {OATCASTLE_BSU_A};
static uint8_t full_data[OATCASTLE_START_LENGTH] = {OATCASTLE_BSU_A};
static uint8_t image[8192], data[OATCASTLE_LONGEST_DATA], piece[OATCASTLE_LONGEST_FRAME], room[OATCASTLE_LONGEST_IMAGE];
static oatcastle_line_write_answer written;
static oatcastle_take_answer taken;
static uint32_t refused, began;

static void begin(void)
{
    began = SYSTICK[2];
}

/* Instructions since begin, less those of a begin and an end with nothing between. */
static uint32_t end(void)
{
    static uint32_t nothing;
    uint32_t n = (uint32_t)(((began - SYSTICK[2]) & TICKS) * 5ull / 8);
    if (nothing == 0)
        nothing = n;
    return n - nothing;
}

static void tell(const char *what, uint32_t n)
{
    host_text(what);
    host_number(": ", n, " instructions\n");
}

/* A frame with so many bytes of data goes to the piece; returns its length. */
static uint32_t frame(uint64_t sequence, uint8_t command, uint32_t length)
{
    refused |= oatcastle_line_write(1, sequence, command, data, length, data, 0, piece, sizeof piece, &written);
    return (uint32_t)written.length;
}

/* ---- A request's frame, its receipt in one piece and in single bytes, and taking the reply */

static void request(const char *what, uint8_t command, uint32_t length)
{
    uint32_t writing, receiving, singly = 0, taking, n;

    begin();
    n = frame(1, command, length);
    writing = end();
    begin();
    refused |= oatcastle_supervisor_receive(&supervisor, image, sizeof image, piece, n);
    receiving = end();
    begin();
    refused |= oatcastle_supervisor_take(&supervisor, room, sizeof room, &taken);
    taking = end();
    for (uint32_t i = 0; i < n; i++) {
        begin();
        refused |= oatcastle_supervisor_receive(&supervisor, image, sizeof image, &piece[i], 1);
        singly += end();
    }
    refused |= oatcastle_supervisor_take(&supervisor, room, sizeof room, &taken);
    host_text(what);
    host_number(": frame ", n, " bytes, ");
    host_number("reply ", (uint32_t)taken.moved, " bytes; ");
    host_number("written ", writing, ", ");
    host_number("received ", receiving, ", ");
    host_number("received singly ", singly, ", ");
    host_number("taken ", taking, "\n");
}

/* Bytes that are seldom 0. */
static void fill(uint8_t *bytes, uint32_t length)
{
    for (uint32_t i = 0; i < length; i++)
        bytes[i] = (uint8_t)(i * 11 + i / 256);
}

static void requests(void)
{
    for (uint32_t i = 0; i < sizeof image; i++)
        image[i] = (uint8_t)(i * 7 + i / 256);
    refused |= oatcastle_supervisor_start(&supervisor, start_data);
    request("status request", OATCASTLE_COMMAND_STATUS, 0);
    request("image block request", OATCASTLE_COMMAND_IMAGE_BLOCK, 40);
    fill(data, sizeof data);
    data[0] = OATCASTLE_KEY_ETC_SYSTEM;
    request("key set of 8 bytes", OATCASTLE_COMMAND_KEY_SET, 9);
    request("key set of 63 bytes", OATCASTLE_COMMAND_KEY_SET, 64);
    data[0] = OATCASTLE_KEY_PASSPHRASE;
    request("key set of a passphrase of 8 bytes", OATCASTLE_COMMAND_KEY_SET, 9);
    request("key set of a passphrase of 63 bytes", OATCASTLE_COMMAND_KEY_SET, 64);
    data[0] = OATCASTLE_KEY_DTRACE_CONF;
    request("key set of 4,096 bytes", OATCASTLE_COMMAND_KEY_SET, 4097);
    for (uint32_t i = 1; i < sizeof data; i++)
        data[i] = 0;
    request("key set of 4,096 zeros", OATCASTLE_COMMAND_KEY_SET, 4097);
}

/* ---- Each call, with short and with long bytes where it depends on them */

static void line_calls(void)
{
    static oatcastle_line_read_answer read;
    static oatcastle_line_tail_answer tail;
    static oatcastle_line_checksum_answer sum;
    uint32_t n;

    fill(data, sizeof data);
    COUNT("oatcastle_line_start", oatcastle_line_reader_start(&reader));
    COUNT("oatcastle_line_write, no data", oatcastle_line_write(1, 1, 8, data, 0, data, 0, piece, sizeof piece, &written));
    COUNT("oatcastle_line_read, no data", oatcastle_line_reader_read(&reader, piece, written.length, &read));
    COUNT("oatcastle_line_data, no data", oatcastle_line_reader_data(&reader, 0, room, sizeof room));
    COUNT("oatcastle_line_write, 4,104 bytes", oatcastle_line_write(1, 1, 8, data, sizeof data, data, 0, piece, sizeof piece, &written));
    n = (uint32_t)written.length;
    COUNT("oatcastle_line_read, 4,104 bytes", oatcastle_line_reader_read(&reader, piece, n, &read));
    COUNT("oatcastle_line_data, 4,104 bytes", oatcastle_line_reader_data(&reader, read.length, room, sizeof room));
    COUNT("oatcastle_line_tail", oatcastle_line_reader_tail(&reader, &tail));
    COUNT("oatcastle_line_checksum, no byte", oatcastle_line_checksum(data, 0, &sum));
    COUNT("oatcastle_line_checksum, 4,104 bytes", oatcastle_line_checksum(data, sizeof data, &sum));
}

/* The four calls that receive, with a frame. */
static void receipts(const char *const what[4], uint32_t n)
{
    static oatcastle_step_answer read;

    COUNT(what[0], oatcastle_supervisor_receive(&supervisor, image, sizeof image, piece, n));
    COUNT(what[1], oatcastle_supervisor_step(&supervisor, image, sizeof image, piece, n, &read));
    COUNT(what[2], oatcastle_supervisor_receive_counted(&supervisor, &counters, image, sizeof image, piece, n));
    COUNT(what[3], oatcastle_supervisor_step_counted(&supervisor, &counters, image, sizeof image, piece, n, &read));
}

/* Pieces without a 00: one byte, 16 and 64. */
static void collect_calls(void)
{
    static oatcastle_collect_answer collected;

    for (uint32_t i = 0; i < 64; i++)
        piece[i] = (uint8_t)(i + 1);
    COUNT("oatcastle_collect, a byte", oatcastle_supervisor_collect(&supervisor, piece, 1, &collected));
    COUNT("oatcastle_collect, 16 bytes", oatcastle_supervisor_collect(&supervisor, piece, 16, &collected));
    COUNT("oatcastle_collect, 64 bytes", oatcastle_supervisor_collect(&supervisor, piece, 64, &collected));
}

static void receive_calls(void)
{
    static const char *const byte[] = {"oatcastle_receive, a byte", "oatcastle_step, a byte", "oatcastle_receive_counted, a byte", "oatcastle_step_counted, a byte"};
    static const char *const status[] = {
        "oatcastle_receive, a status request", "oatcastle_step, a status request", "oatcastle_receive_counted, a status request", "oatcastle_step_counted, a status request",
    };
    static const char *const passphrase[] = {
        "oatcastle_receive, a set of key 6", "oatcastle_step, a set of key 6", "oatcastle_receive_counted, a set of key 6", "oatcastle_step_counted, a set of key 6",
    };
    static const char *const set[] = {
        "oatcastle_receive, a set of 4,096 bytes", "oatcastle_step, a set of 4,096 bytes", "oatcastle_receive_counted, a set of 4,096 bytes", "oatcastle_step_counted, a set of 4,096 bytes",
    };

    COUNT("oatcastle_start", oatcastle_supervisor_start(&supervisor, start_data));
    COUNT("oatcastle_clear_counters", oatcastle_clear_counters(&counters));
    collect_calls();
    refused |= oatcastle_supervisor_start(&supervisor, start_data);
    frame(1, OATCASTLE_COMMAND_STATUS, 0);
    receipts(byte, 1);
    refused |= oatcastle_supervisor_start(&supervisor, start_data);
    receipts(status, frame(1, OATCASTLE_COMMAND_STATUS, 0));
    COUNT("oatcastle_take, 37 bytes", oatcastle_supervisor_take(&supervisor, room, sizeof room, &taken));
    for (uint32_t i = 0; i < 40; i++)
        data[i] = 0;
    refused |= oatcastle_supervisor_receive(&supervisor, image, sizeof image, piece, frame(2, OATCASTLE_COMMAND_IMAGE_BLOCK, 40));
    COUNT("oatcastle_take, an image block", oatcastle_supervisor_take(&supervisor, room, sizeof room, &taken));
    fill(data, sizeof data);
    data[0] = OATCASTLE_KEY_DTRACE_CONF;
    receipts(set, frame(3, OATCASTLE_COMMAND_KEY_SET, 4097));
    data[0] = OATCASTLE_KEY_PASSPHRASE;
    receipts(passphrase, frame(4, OATCASTLE_COMMAND_KEY_SET, 1 + OATCASTLE_LONGEST_PASSPHRASE));
}

static void register_calls(void)
{
    static oatcastle_signal_answer signal;
    static oatcastle_flags_answer flags;
    static oatcastle_record_answer record;

    COUNT("oatcastle_post, no text", oatcastle_supervisor_post(&supervisor, 1, data, 0));
    COUNT("oatcastle_post, 256 bytes", oatcastle_supervisor_post(&supervisor, 1, data, OATCASTLE_LONGEST_ALERT));
    COUNT("oatcastle_set_options", oatcastle_supervisor_set_options(&supervisor, OATCASTLE_OPTION_VERBOSE));
    COUNT("oatcastle_signal", oatcastle_supervisor_signal(&supervisor, &signal));
    COUNT("oatcastle_flags", oatcastle_supervisor_flags(&supervisor, &flags));
    COUNT("oatcastle_boot_failure_record, none", oatcastle_supervisor_boot_failure_record(&supervisor, room, sizeof room, &record));
    COUNT("oatcastle_panic_record, none", oatcastle_supervisor_panic_record(&supervisor, room, sizeof room, &record));
    refused |= oatcastle_supervisor_receive(&supervisor, image, 0, piece, frame(4, OATCASTLE_COMMAND_BOOT_FAILURE, sizeof data));
    refused |= oatcastle_supervisor_receive(&supervisor, image, 0, piece, frame(5, OATCASTLE_COMMAND_PANIC, sizeof data));
    COUNT("oatcastle_boot_failure_record, 512 bytes", oatcastle_supervisor_boot_failure_record(&supervisor, room, sizeof room, &record));
    COUNT("oatcastle_panic_record, 512 bytes", oatcastle_supervisor_panic_record(&supervisor, room, sizeof room, &record));
}

/* The settings keys at their longest. */
static void set_all(void)
{
    static const uint32_t longest[] = {OATCASTLE_LONGEST_ETC_SYSTEM, OATCASTLE_LONGEST_DTRACE_CONF, OATCASTLE_LONGEST_WITHDRAWN_KEYS};

    for (uint8_t i = 0; i < 3; i++) {
        data[0] = OATCASTLE_KEY_ETC_SYSTEM + i;
        refused |= oatcastle_supervisor_receive(&supervisor, image, 0, piece, frame(6, OATCASTLE_COMMAND_KEY_SET, 1 + longest[i]));
    }
}

static void setting_calls(void)
{
    static oatcastle_lookup_answer found;
    static oatcastle_edition_answer edition;
    static oatcastle_save_answer saved;
    static oatcastle_restore_answer restored;

    refused |= oatcastle_supervisor_start(&supervisor, start_data);
    COUNT("oatcastle_save, no setting", oatcastle_supervisor_save(&supervisor, room, sizeof room, &saved));
    COUNT("oatcastle_restore, no setting", oatcastle_supervisor_restore(&supervisor, room, saved.length, &restored));
    set_all();
    COUNT("oatcastle_save, 8,483 bytes", oatcastle_supervisor_save(&supervisor, room, sizeof room, &saved));
    COUNT("oatcastle_restore, 8,483 bytes", oatcastle_supervisor_restore(&supervisor, room, saved.length, &restored));
    COUNT("oatcastle_lookup, key 0", oatcastle_supervisor_lookup(&supervisor, OATCASTLE_KEY_PING, 4, room, sizeof room, &found));
    COUNT("oatcastle_lookup, 4,096 bytes", oatcastle_supervisor_lookup(&supervisor, OATCASTLE_KEY_WITHDRAWN_KEYS, 4096, room, sizeof room, &found));
    COUNT("oatcastle_edition", oatcastle_supervisor_edition(&supervisor, OATCASTLE_KEY_WITHDRAWN_KEYS, &edition));
}

/* 64 items and an image's name with data, every setting at its longest, 8 alerts, both records. */
static void fill_board(void)
{
    full_data[OATCASTLE_START_IMAGE_ID_LENGTH] = OATCASTLE_LONGEST_IMAGE_ID;
    full_data[OATCASTLE_START_ITEM_COUNT] = OATCASTLE_MOST_ITEMS;
    for (uint32_t i = 0; i < OATCASTLE_MOST_ITEMS; i++)
        full_data[OATCASTLE_START_ITEMS + i * OATCASTLE_ITEM_LENGTH + OATCASTLE_ITEM_DATA_LENGTH] = OATCASTLE_LONGEST_ITEM_DATA;
    refused |= oatcastle_supervisor_start(&supervisor, full_data);
    fill(data, sizeof data);
    refused |= oatcastle_supervisor_receive(&supervisor, image, 0, piece, frame(4, OATCASTLE_COMMAND_BOOT_FAILURE, sizeof data));
    refused |= oatcastle_supervisor_receive(&supervisor, image, 0, piece, frame(5, OATCASTLE_COMMAND_PANIC, sizeof data));
    set_all();
    data[0] = OATCASTLE_KEY_PASSPHRASE;
    refused |= oatcastle_supervisor_receive(&supervisor, image, 0, piece, frame(6, OATCASTLE_COMMAND_KEY_SET, 1 + OATCASTLE_LONGEST_PASSPHRASE));
    for (uint32_t i = 0; i < OATCASTLE_MOST_ALERTS; i++)
        refused |= oatcastle_supervisor_post(&supervisor, 1, data, OATCASTLE_LONGEST_ALERT);
}

/* A lookup of key 5, whole. */
static uint32_t lookup_frame(void)
{
    data[0] = OATCASTLE_KEY_WITHDRAWN_KEYS;
    data[1] = OATCASTLE_LONGEST_WITHDRAWN_KEYS % 256;
    data[2] = OATCASTLE_LONGEST_WITHDRAWN_KEYS / 256;
    return frame(8, OATCASTLE_COMMAND_KEY_LOOKUP, 3);
}

/* Pieces without a 00, of 16 and 64 bytes: received, and received and counted. */
static void piece_calls(const char *const what[4])
{
    for (uint32_t i = 0; i < 64; i++)
        piece[i] = (uint8_t)(i + 1);
    COUNT(what[0], oatcastle_supervisor_receive(&supervisor, image, 0, piece, 16));
    COUNT(what[1], oatcastle_supervisor_receive(&supervisor, image, 0, piece, 64));
    COUNT(what[2], oatcastle_supervisor_receive_counted(&supervisor, &counters, image, 0, piece, 16));
    COUNT(what[3], oatcastle_supervisor_receive_counted(&supervisor, &counters, image, 0, piece, 64));
    refused |= oatcastle_supervisor_receive(&supervisor, image, 0, (const uint8_t[]){0}, 1);
}

/* What a receive takes by the state of the board: as started, with the settings, and full. */
static void board_calls(void)
{
    static const char *const started[] = {"oatcastle_receive, 16 bytes", "oatcastle_receive, 64 bytes", "oatcastle_receive_counted, 16 bytes", "oatcastle_receive_counted, 64 bytes"};
    static const char *const full[] = {"oatcastle_receive, full: 16 bytes", "oatcastle_receive, full: 64 bytes", "oatcastle_receive_counted, full: 16 bytes", "oatcastle_receive_counted, full: 64 bytes"};
    uint32_t n;

    refused |= oatcastle_supervisor_start(&supervisor, start_data);
    COUNT("oatcastle_receive, no byte", oatcastle_supervisor_receive(&supervisor, image, 0, piece, 0));
    piece_calls(started);
    set_all();
    n = lookup_frame();
    COUNT("oatcastle_receive, lookup of 4,096", oatcastle_supervisor_receive(&supervisor, image, 0, piece, n));
    fill_board();
    COUNT("oatcastle_receive, full: no byte", oatcastle_supervisor_receive(&supervisor, image, 0, piece, 0));
    piece_calls(full);
    n = frame(7, OATCASTLE_COMMAND_STATUS, 0);
    COUNT("oatcastle_receive, full: a byte", oatcastle_supervisor_receive(&supervisor, image, 0, piece, 1));
    COUNT("oatcastle_receive_counted, full: a byte", oatcastle_supervisor_receive_counted(&supervisor, &counters, image, 0, &piece[1], 1));
    refused |= oatcastle_supervisor_receive(&supervisor, image, 0, &piece[2], n - 2);
    COUNT("oatcastle_receive, full: status request", oatcastle_supervisor_receive(&supervisor, image, 0, piece, n));
    n = lookup_frame();
    COUNT("oatcastle_receive, full: lookup of 4,096", oatcastle_supervisor_receive(&supervisor, image, 0, piece, n));
    data[0] = OATCASTLE_KEY_DTRACE_CONF;
    n = frame(9, OATCASTLE_COMMAND_KEY_SET, 1 + OATCASTLE_LONGEST_DTRACE_CONF);
    COUNT("oatcastle_receive, full: set of 4,096", oatcastle_supervisor_receive(&supervisor, image, 0, piece, n));
}

static void requester_calls(void)
{
    static const uint8_t damaged[] = {2, 0};
    static oatcastle_requester_request_answer requested;
    static oatcastle_requester_send_answer sent;
    static oatcastle_requester_receive_answer received;
    static oatcastle_requester_state_answer state;
    uint32_t n;

    COUNT("oatcastle_requester_start", oatcastle_main_end_start(&main_end));
    COUNT("oatcastle_requester_request, no data", oatcastle_main_end_request(&main_end, 8, data, 0, room, sizeof room, &requested));
    refused |= oatcastle_main_end_receive(&main_end, damaged, sizeof damaged, &received);
    COUNT("oatcastle_requester_send, no data", oatcastle_main_end_send(&main_end, room, sizeof room, &sent));
    n = frame(TOP_BIT | 1, OATCASTLE_REPLY_STATUS, 16);
    COUNT("oatcastle_requester_receive, 37 bytes", oatcastle_main_end_receive(&main_end, piece, n, &received));
    COUNT("oatcastle_requester_request, 4,104 bytes", oatcastle_main_end_request(&main_end, 16, data, sizeof data, room, sizeof room, &requested));
    refused |= oatcastle_main_end_receive(&main_end, damaged, sizeof damaged, &received);
    COUNT("oatcastle_requester_send, 4,104 bytes", oatcastle_main_end_send(&main_end, room, sizeof room, &sent));
    n = frame(TOP_BIT | 2, OATCASTLE_REPLY_KEY_LOOKUP, sizeof data);
    COUNT("oatcastle_requester_receive, 4,104 bytes", oatcastle_main_end_receive(&main_end, piece, n, &received));
    COUNT("oatcastle_requester_interrupt", oatcastle_main_end_interrupt(&main_end));
    COUNT("oatcastle_requester_state", oatcastle_main_end_state(&main_end, &state));
}

static void other_calls(void)
{
    static const uint8_t base[OATCASTLE_ADDRESS_LENGTH] = {2, 0, 0, 0, 0xff, 0xf0};
    static oatcastle_probe list[64];
    static oatcastle_length indices[64];
    static uint8_t results[64];
    static oatcastle_rot_write_answer put;
    static oatcastle_rot_read_answer read;
    static oatcastle_rot_crc_answer crc;

    for (uint32_t i = 0; i < 64; i++)
        indices[i] = i;
    COUNT("oatcastle_addresses", oatcastle_addresses(base, 8, 3, room, sizeof room));
    COUNT("oatcastle_plan", oatcastle_plan(base, 8, 3));
    COUNT("oatcastle_probe_update, 1 part", oatcastle_probe_update(list, 64, indices, 1, results, 1));
    COUNT("oatcastle_probe_update, 64 parts", oatcastle_probe_update(list, 64, indices, 64, results, 64));
    COUNT("oatcastle_rot_write, no payload", oatcastle_rot_write(OATCASTLE_ROT_ECHO_REQUEST, data, 0, piece, sizeof piece, &put));
    COUNT("oatcastle_rot_read, no payload", oatcastle_rot_read(piece, put.length, room, sizeof room, &read));
    COUNT("oatcastle_rot_write, 512 bytes", oatcastle_rot_write(OATCASTLE_ROT_ECHO_REQUEST, data, 512, piece, sizeof piece, &put));
    COUNT("oatcastle_rot_read, 512 bytes", oatcastle_rot_read(piece, put.length, room, sizeof room, &read));
    refused |= oatcastle_rot_write(OATCASTLE_ROT_SINK_REQUEST, data, 512, piece, sizeof piece, &put);
    COUNT("oatcastle_rot_payload, 512 bytes", oatcastle_rot_payload(piece, put.length, room, sizeof room));
    COUNT("oatcastle_rot_crc, no byte", oatcastle_rot_crc(data, 0, &crc));
    COUNT("oatcastle_rot_crc, 512 bytes", oatcastle_rot_crc(data, 512, &crc));
}

/* 2,000 instructions: 1,000 turns of two. */
static void two_thousand(void)
{
    uint32_t turns = 1000;
    __asm__ volatile("1: subs %0, %0, #1\n bne 1b" : "+r"(turns) : : "cc");
}

int main(void)
{
    uint32_t known;

    SYSTICK[1] = TICKS;
    SYSTICK[2] = 0;
    SYSTICK[0] = 5;
    begin();
    end();
    begin();
    two_thousand();
    known = end();
    if (known < 1990 || known > 2020) {
        host_number("2,000 instructions are counted as ", known, ": run with -icount shift=6\n");
        host_end(0);
    }
    requests();
    line_calls();
    receive_calls();
    register_calls();
    setting_calls();
    board_calls();
    requester_calls();
    other_calls();
    if (refused)
        host_text("a call was refused\n");
    host_end(!refused);
    return 0;
}
