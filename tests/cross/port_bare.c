/* The port to a bare Cortex-M: text and the trace, the file `trace` of qemu's folder, by semihosting; the program is L12 of document 01, then the replay.
 * With TRAP_UNALIGNED an access that is not aligned ends it with a fault. Assumes the startup code, the linker script and memory.c of examples/firmware. */
#include "oatcastle_parts.h"
#include "port.h"
#include "semihosting.h"

static const uint8_t l12[] = {
    0x06, 0xcc, 0x19, 0xde, 0x01, 0x01, 0x01, 0x01, 0x02, 0x01, 0x01, 0x01, 0x01, 0x01, 0x01, 0x01, 0x04, 0x08, 0xcf, 0x66, 0x00,
};
static const uint8_t reply[] = {
    0x06, 0xcc, 0x19, 0xde, 0x01, 0x01, 0x01, 0x01, 0x02, 0x01, 0x01, 0x01, 0x01, 0x01, 0x01, 0x04, 0x80, 0x06, 0x01, 0x01, 0x01,
    0x01, 0x01, 0x01, 0x01, 0x01, 0x01, 0x01, 0x01, 0x01, 0x01, 0x01, 0x01, 0x03, 0x4f, 0x5a, 0x00,
};
static const uint8_t start_data[OATCASTLE_START_LENGTH] = {OATCASTLE_BSU_A};
static oatcastle_supervisor supervisor;
static uint32_t file;

unsigned port_read(uint8_t *to, unsigned n)
{
    uint32_t arguments[3] = {file, (uint32_t)to, n};
    return n - host(HOST_READ, arguments);
}

void port_text(const char *text)
{
    host_text(text);
}

void port_end(const char *text, int status)
{
    host_text(text);
    host_end(status == 0);
    for (;;)
        ;
}

/* Feeds L12 byte by byte, and compares what is pending after each with the reply's next bytes. */
static int sample(void)
{
    uint8_t room[64];
    oatcastle_take_answer taken = {0};
    uint32_t n = 0;
    int same = oatcastle_supervisor_start(&supervisor, start_data) == OATCASTLE_DONE;

    for (uint32_t i = 0; i < sizeof l12; i++) {
        same &= oatcastle_supervisor_receive(&supervisor, 0, 0, &l12[i], 1) == OATCASTLE_DONE;
        same &= oatcastle_supervisor_take(&supervisor, room, sizeof room, &taken) == OATCASTLE_DONE;
        for (uint32_t j = 0; j < taken.moved; j++, n++)
            same &= n < sizeof reply && room[j] == reply[n];
        host_hex(room, (unsigned)taken.moved);
    }
    return same && n == sizeof reply;
}

int main(void)
{
    static const char name[] = "trace";
    const uint32_t arguments[3] = {(uint32_t)name, 1, sizeof name - 1};

#ifdef TRAP_UNALIGNED
    *(volatile uint32_t *)0xe000ed14 |= 8; /* CCR.UNALIGN_TRP: the fault ends the program with 1 */
#endif
    if (!sample())
        port_end("L12: another reply than document 01 has\n", 1);
    port_text("L12: the reply of document 01\n");
    file = host(HOST_OPEN, arguments);
    if (file == (uint32_t)-1)
        port_end("no file `trace`\n", 2);
    program();
    return 2;
}
