/* A firmware of the supervisor for a bare Cortex-M4: bytes come in and go out one by one at interrupts, the library is called outside of them.
 * Any bytes may come, at any time. Assumes one processor, board.h, board.ld, startup.c, memory.c, and the archive of cross/. */
#include "board.h"
#include "oatcastle_parts.h"
#include "semihosting.h"

/* ---- A queue between an interrupt and the main loop: one side puts and alone writes `put`, the other gets and alone writes `got`.
 * Volatile keeps the compiler from moving a byte past its index; between an interrupt and the loop of one processor nothing more is needed. */

struct queue {
    volatile uint32_t put, got;
    volatile uint8_t bytes[PLACES];
};
typedef char places_are_a_power_of_two[(PLACES & (PLACES - 1)) == 0 ? 1 : -1];

static uint32_t filled(const struct queue *q)
{
    return q->put - q->got;
}

static uint32_t room(const struct queue *q)
{
    return PLACES - filled(q);
}

static void put(struct queue *q, uint8_t byte)
{
    q->bytes[q->put % PLACES] = byte;
    q->put = q->put + 1;
}

static uint8_t get(struct queue *q)
{
    uint8_t byte = q->bytes[q->got % PLACES];
    q->got = q->got + 1;
    return byte;
}

/* ---- The driver: the UART's interrupt moves a byte to one queue and a byte from the other */

static struct queue from_wire, to_wire;
volatile uint32_t uart_lost;

/* Reads a byte that has come even if the queue is full: not read, it would raise the interrupt again and again, and the main loop would not run. The byte is lost
 * then, and its frame comes in damaged, as by a fault of the wire. */
void uart_interrupt(void)
{
    if (uart_has_received()) {
        uint8_t byte = uart_read();
        if (room(&from_wire) > 0)
            put(&from_wire, byte);
        else
            uart_lost = uart_lost + 1;
    }
    if (uart_can_send() && filled(&to_wire) > 0)
        uart_write(get(&to_wire));
    if (filled(&to_wire) == 0)
        uart_want_bytes(0);
}

/* ---- The supervisor */

static oatcastle_supervisor supervisor;
static const uint8_t start_data[OATCASTLE_START_LENGTH] = {OATCASTLE_BSU_A};
static struct guarded piece;
static int pending;     /* whether the library may have more to send than to_wire had room for */

/* Hands to_wire what the library has to send, as much as there is room for. */
static uint32_t send(void)
{
    static uint8_t bytes[PLACES];
    oatcastle_take_answer taken;
    uint32_t most = room(&to_wire), no = oatcastle_supervisor_take(&supervisor, bytes, most, &taken);

    if (no != OATCASTLE_DONE)
        return no;
    for (uint32_t i = 0; i < taken.moved; i++)
        put(&to_wire, bytes[i]);
    if (taken.moved > 0)
        uart_want_bytes(1);
    pending = taken.moved == most;
    return no;
}

/* Acts on a request that the library has carried out: a new passphrase goes to the radio. No call hands it out; the driver reads it where the settings store has it. */
static void act(const oatcastle_step_answer *done)
{
    const uint8_t *length = supervisor.settings + OATCASTLE_PASSPHRASE_LENGTH;

    if (done->command != OATCASTLE_COMMAND_KEY_SET || done->result != OATCASTLE_SET_STORED)
        return;
    if (done->key == OATCASTLE_KEY_PASSPHRASE)
        radio_set(supervisor.settings + OATCASTLE_PASSPHRASE_VALUE, length[0] + 256u * length[1]);
}

/* Hands the library what has come, a piece at most, frame by frame: collects what stands ahead of a 00, and steps at the 00. What a frame's reply has room for goes to
 * to_wire before the next frame is read. */
static uint32_t receive(void)
{
    oatcastle_collect_answer ahead = {0};
    oatcastle_step_answer done = {0};
    uint32_t n = 0, at = 0, no = OATCASTLE_DONE;

    while (n < sizeof piece.bytes && filled(&from_wire) > 0)
        piece.bytes[n++] = get(&from_wire);
    while (no == OATCASTLE_DONE && at < n) {
        no = oatcastle_supervisor_collect(&supervisor, piece.bytes + at, n - at, &ahead);
        at += (uint32_t)ahead.taken;
        if (no != OATCASTLE_DONE || at == n)
            break;
        no = oatcastle_supervisor_step(&supervisor, 0, 0, piece.bytes + at, n - at, &done);
        at += (uint32_t)done.used;
        if (no == OATCASTLE_DONE) {
            act(&done);
            no = send();
        }
    }
    return no;
}

static int work(void)
{
    return filled(&from_wire) > 0 || (pending && room(&to_wire) > 0);
}

/* Sleeps until an interrupt, unless there is work. An interrupt that comes behind the test is held back by the mask and ends wfi at once; without the mask it would
 * be served before wfi, which would then wait for another. What else wakes the main loop is tested here too. */
static void wait_for_work(void)
{
    __asm__ volatile("cpsid i" ::: "memory");
    if (!work())
        __asm__ volatile("dsb\n\twfi" ::: "memory");
    __asm__ volatile("cpsie i" ::: "memory");
}

/* Where the far end does not wait for a reply, its next request discards what is unsent of it. The loop ends only if the library refuses a call, which it does not
 * while nobody else writes its parts. */
int main(void)
{
    uint32_t no = oatcastle_supervisor_start(&supervisor, start_data);

    board_start(&piece);
    while (no == OATCASTLE_DONE) {
        no = receive();
        if (no == OATCASTLE_DONE)
            no = send();
        other_duties();
        wait_for_work();
    }
    host_number("refused as ", no, ": ");
    host_text(oatcastle_refusal_text(no));
    host_text("\n");
    return 1;
}
