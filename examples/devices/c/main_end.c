/* The main processor's end on a serial port or pty. Sets and looks keys up as lines of standard
 * input ask, and prints a line for each and for each alert. Assumes device.c.
 * usage: main_end WIRE LINE      input: `set KEY HEX` or `get KEY`
 * output: `stored KEY`, `value KEY HEX`, `refused KEY RESULT`, `alert ACTION TEXT` */
#define _DEFAULT_SOURCE
#include <errno.h>
#include <fcntl.h>
#include <poll.h>
#include <stdio.h>
#include <string.h>
#include <unistd.h>

#include "device.h"
#include "oatcastle_parts.h"

#define ANSWER_MS 100   /* how long an answer may take after the last byte that came */
#define LONGEST_LINE (16 + 2 * OATCASTLE_LONGEST_VALUE)

static oatcastle_main_end main_end;
static int wire, line;

/* The data of the last answer. */
static struct {
    uint64_t length;
    uint8_t data[OATCASTLE_LONGEST_DATA];
} answer;

/* ---- The wire */

static void send_unsent(void)
{
    static uint8_t out[OATCASTLE_LONGEST_FRAME];
    oatcastle_requester_send_answer sent;

    must(oatcastle_main_end_send(&main_end, out, sizeof out, &sent));
    device_write(wire, out, sent.length);
}

/* Begins a recovery; adds nothing where one is under way. */
static void interrupt(void)
{
    must(oatcastle_main_end_interrupt(&main_end));
    send_unsent();
}

/* An alert may come behind the answer, in a recovery that the line began: it leaves the answer. */
static void take_over(const oatcastle_requester_receive_answer *what)
{
    static uint8_t alert[OATCASTLE_LONGEST_DATA];

    if (what->kind == OATCASTLE_ANSWER) {
        must(oatcastle_main_end_data(&main_end, what->length, answer.data, sizeof answer.data));
        answer.length = what->length;
    } else if (what->kind == OATCASTLE_ALERT && what->length >= 1) {
        must(oatcastle_main_end_data(&main_end, what->length, alert, sizeof alert));
        printf("alert %u %.*s\n", alert[0], (int)what->length - 1, (const char *)alert + 1);
        fflush(stdout);
    }
}

static void receive(const uint8_t *piece, size_t length)
{
    oatcastle_requester_receive_answer got;

    for (; length > 0; piece += got.used, length -= got.used) {
        must(oatcastle_main_end_receive(&main_end, piece, length, &got));
        take_over(&got);
        must(got.ended ? OATCASTLE_NO_NUMBER : OATCASTLE_DONE);
        send_unsent();
    }
}

/* Waits for the wire, the line and, unless it is -1, the input, at most so long. Serves what came;
 * whether anything did. */
static int serve(int input, int ms)
{
    struct pollfd from[] = {{.fd = wire, .events = POLLIN}, {.fd = line, .events = POLLIN},
                            {.fd = input, .events = POLLIN}};
    uint8_t piece[256];
    int ready = poll(from, 3, ms);

    if (ready < 0 && errno != EINTR)
        fail("poll");
    if (ready <= 0)
        return ready != 0;
    if (from[0].revents)
        receive(piece, device_read(wire, piece, sizeof piece));
    if (from[1].revents && device_read(line, piece, sizeof piece) > 0)
        interrupt();
    return 1;
}

/* ---- A start: numbers begin at 1 again, so that a reply from before must not be taken for an
 * answer. A lookup goes out under a number that nobody had. The wire keeps the order: once its
 * reply is there, nothing older comes. */

static uint64_t random_number(void)
{
    uint64_t number;
    int from = open("/dev/urandom", O_RDONLY);

    if (from < 0 || read(from, &number, sizeof number) != sizeof number)
        fail("/dev/urandom");
    close(from);
    return (number | 1ull << 62) & ~(1ull << 63);
}

/* The 00 ends a frame of which a part went out. */
static void send_marker(uint64_t number)
{
    static const uint8_t ping[] = {OATCASTLE_KEY_PING, 4, 0}, end = 0;
    uint8_t out[64];
    oatcastle_line_write_answer written;

    must(oatcastle_line_write(1, number, OATCASTLE_COMMAND_KEY_LOOKUP, ping, sizeof ping, &end, 0,
                              out, sizeof out, &written));
    device_write(wire, &end, 1);
    device_write(wire, out, written.length);
}

/* Reads until the marker's reply, or until nothing comes for a while; whether it came. */
static int marker_came(oatcastle_line_reader *reader, uint64_t number)
{
    struct pollfd from = {.fd = wire, .events = POLLIN};
    oatcastle_line_read_answer read;
    uint8_t byte;

    while (poll(&from, 1, ANSWER_MS) > 0) {
        if (device_read(wire, &byte, 1) == 0)
            continue;
        must(oatcastle_line_reader_read(reader, &byte, 1, &read));
        if (read.kind == OATCASTLE_MESSAGE && read.sequence == (number | 1ull << 63))
            return 1;
    }
    return 0;
}

static void start(void)
{
    static oatcastle_line_reader reader;
    uint64_t number = random_number();

    must(oatcastle_line_reader_start(&reader));
    do
        send_marker(number);
    while (!marker_came(&reader, number));
    must(oatcastle_main_end_start(&main_end));
}

/* ---- Requests */

/* Waits until nothing is outstanding. An answer that does not come is asked for by a recovery; one
 * in a recovery is given up. Whether it came. */
static int settled(void)
{
    oatcastle_requester_state_answer now;

    for (;;) {
        must(oatcastle_main_end_state(&main_end, &now));
        if (now.state == OATCASTLE_IDLE)
            return 1;
        if (serve(-1, ANSWER_MS))
            continue;
        if (now.state != OATCASTLE_WAITING)
            return 0;
        interrupt();
    }
}

static int asked(uint8_t command, const uint8_t *data, size_t length)
{
    static uint8_t out[OATCASTLE_LONGEST_FRAME];
    oatcastle_requester_request_answer made;

    must(oatcastle_main_end_request(&main_end, command, data, length, out, sizeof out, &made));
    device_write(wire, out, made.length);
    return settled();
}

/* Asks until the answer is there. What was given up may have been carried out: setting a value once
 * more leaves it as it is. */
static void ask(uint8_t command, const uint8_t *data, size_t length)
{
    answer.length = 0;
    while (!asked(command, data, length))
        start();
    if (answer.length == 0) {
        errno = EPROTO;
        fail("an answer without data");
    }
}

/* ---- Lines of input */

static void print_value(unsigned key)
{
    printf("value %u ", key);
    for (size_t i = 1; i < answer.length; i++)
        printf("%02x", answer.data[i]);
    printf("\n");
}

/* What a hex digit counts; 16 for any other character. */
static unsigned digit(char c)
{
    static const char digits[] = "0123456789abcdef";
    const char *at = c == 0 ? NULL : strchr(digits, c);

    return at == NULL ? 16 : (unsigned)(at - digits);
}

/* The bytes of a row of hex digits, as many as there are. */
static size_t bytes_of(const char *hex, uint8_t *room, size_t most)
{
    size_t length = 0;

    for (; length < most && digit(hex[0]) < 16 && digit(hex[1]) < 16; hex += 2)
        room[length++] = (uint8_t)(16 * digit(hex[0]) + digit(hex[1]));
    return length;
}

static void obey(const char *text)
{
    static uint8_t data[1 + OATCASTLE_LONGEST_VALUE];
    unsigned key;
    int at = 0;

    if (sscanf(text, "set %u %n", &key, &at) == 1) {
        data[0] = (uint8_t)key;
        ask(OATCASTLE_COMMAND_KEY_SET, data,
            1 + bytes_of(text + at, data + 1, OATCASTLE_LONGEST_VALUE));
        if (answer.data[0] == OATCASTLE_SET_STORED)
            printf("stored %u\n", key);
    } else if (sscanf(text, "get %u", &key) == 1) {
        const uint8_t lookup[] = {(uint8_t)key, 0xff, 0xff};
        ask(OATCASTLE_COMMAND_KEY_LOOKUP, lookup, sizeof lookup);
        if (answer.data[0] == OATCASTLE_LOOKUP_VALUE)
            print_value(key);
    } else {
        printf("set KEY HEX, or get KEY\n");
        fflush(stdout);
        return;
    }
    if (answer.data[0] != 0)
        printf("refused %u %u\n", key, answer.data[0]);
    fflush(stdout);
}

/* Obeys each line that is whole; the rest stays in the text. */
static void obey_lines(char *text, size_t *length)
{
    char *end;

    while ((end = memchr(text, '\n', *length)) != NULL) {
        *end++ = 0;
        obey(text);
        *length -= (size_t)(end - text);
        memmove(text, end, *length);
    }
}

/* Adds what the input has to the text; 0 where it has ended. */
static int read_input(char *text, size_t *length)
{
    struct pollfd input = {.fd = STDIN_FILENO, .events = POLLIN};
    ssize_t got;

    if (poll(&input, 1, 0) <= 0)
        return 1;
    if (*length == LONGEST_LINE) {
        errno = EMSGSIZE;
        fail("a line of input");
    }
    got = read(STDIN_FILENO, text + *length, LONGEST_LINE - *length);
    *length += got > 0 ? (size_t)got : 0;
    return got > 0;
}

int main(int count, char **words)
{
    static char text[LONGEST_LINE];
    size_t length = 0;

    if (count != 3) {
        fprintf(stderr, "usage: %s WIRE LINE\n", words[0]);
        return 2;
    }
    wire = device_open(words[1]);
    line = device_open(words[2]);
    do
        start();
    while (interrupt(), !settled());
    while (read_input(text, &length)) {
        obey_lines(text, &length);
        serve(STDIN_FILENO, -1);
        while (!settled())
            start();
    }
    return 0;
}
