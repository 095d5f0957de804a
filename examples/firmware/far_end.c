/* The far end of the wire and a fake of the UART between. At each tick of SysTick, the time of a byte, the far end may send a byte
 * and take one.
 * The command line names one of the far ends below. It does its steps and ends qemu, with 0 if every byte that it took was the one it awaited.
 * Assumes a Cortex-M with semihosting, a clock of 25 MHz, and the stack of board.ld. */
#include "board.h"
#include "semihosting.h"

/* ---- The processor's registers */

#define SYSTICK_CONTROL (*(volatile uint32_t *)0xe000e010)
#define SYSTICK_RELOAD (*(volatile uint32_t *)0xe000e014)
#define SYSTICK_CURRENT (*(volatile uint32_t *)0xe000e018)
#define SYSTICK_PEND (*(volatile uint32_t *)0xe000ed04)
#define SYSTICK_UNPEND (1u << 25)
#define NVIC_ENABLE (*(volatile uint32_t *)0xe000e100)
#define NVIC_PEND (*(volatile uint32_t *)0xe000e200)
#define UART_INTERRUPT 1u   /* interrupt 0 */

/* ---- What the far ends send, and what they get: the samples L10 and L12 of document 01 with its replies, a 00, and two key sets of the passphrase, of which the first is too short */

static const uint8_t l10[] = {0x02, 0x00};
static const uint8_t l12[] = {0x06, 0xcc, 0x19, 0xde, 0x01, 0x01, 0x01, 0x01, 0x02, 0x01, 0x01, 0x01, 0x01, 0x01, 0x01, 0x01, 0x04, 0x08, 0xcf, 0x66, 0x00};
static const uint8_t reason1[] = {0x06, 0xcc, 0x19, 0xde, 0x01, 0x01, 0x01, 0x01, 0x0d, 0xff, 0xff, 0xff, 0xff, 0xff, 0xff, 0xff, 0xff, 0x02, 0x01, 0xc9, 0x21, 0x00};
static const uint8_t status[] = {
    0x06, 0xcc, 0x19, 0xde, 0x01, 0x01, 0x01, 0x01, 0x02, 0x01, 0x01, 0x01, 0x01, 0x01, 0x01, 0x04, 0x80, 0x06, 0x01, 0x01, 0x01,
    0x01, 0x01, 0x01, 0x01, 0x01, 0x01, 0x01, 0x01, 0x01, 0x01, 0x01, 0x01, 0x03, 0x4f, 0x5a, 0x00,
};
static const uint8_t zero[] = {0x00};
static const uint8_t set_short[] = {
    0x06, 0xcc, 0x19, 0xde, 0x01, 0x01, 0x01, 0x01, 0x02, 0x02, 0x01, 0x01, 0x01, 0x01, 0x01, 0x01, 0x09, 0x10, 0x06, 0x6f, 0x61, 0x74, 0x73, 0x97, 0x10, 0x00,
};
static const uint8_t set[] = {
    0x06, 0xcc, 0x19, 0xde, 0x01, 0x01, 0x01, 0x01, 0x02, 0x03, 0x01, 0x01, 0x01, 0x01, 0x01, 0x01, 0x0e, 0x10, 0x06, 0x6f, 0x61, 0x74, 0x63, 0x61, 0x73, 0x74, 0x6c,
    0x65, 0xa3, 0x09, 0x00,
};
static const uint8_t result3[] = {0x06, 0xcc, 0x19, 0xde, 0x01, 0x01, 0x01, 0x01, 0x02, 0x02, 0x01, 0x01, 0x01, 0x01, 0x01, 0x06, 0x80, 0x0c, 0x03, 0x58, 0xcc, 0x00};
static const uint8_t result0[] = {0x06, 0xcc, 0x19, 0xde, 0x01, 0x01, 0x01, 0x01, 0x02, 0x03, 0x01, 0x01, 0x01, 0x01, 0x01, 0x03, 0x80, 0x0c, 0x03, 0x56, 0xd3, 0x00};
static const uint8_t passphrase[] = {'o', 'a', 't', 'c', 'a', 's', 't', 'l', 'e'};

/* ---- The far ends: steps, one after the other, each done so many times, a byte's time each */

enum what {
    SEND,       /* the next of these bytes */
    BABBLE,     /* a random byte */
    FILL,       /* a byte that is not 00 */
    SILENCE,    /* nothing is sent */
    HOLD,       /* from here on no byte is taken */
    TAKE,       /* from here on bytes are taken again */
    AWAIT,      /* the next of these bytes, and no other, has come or comes */
    QUIET,      /* no byte comes; begins anew, and forgets it, where one does */
    RADIO,      /* the radio was set once in each round, the last time to these bytes */
    AGAIN,      /* every step from the first, so many times */
    END,        /* nothing is sent; then the run ends */
};

struct step {
    enum what what;
    uint32_t times;
    const uint8_t *bytes;
};
#define ALL(bytes) sizeof bytes, bytes

static const struct step polite[] = {{SEND, ALL(l10)}, {AWAIT, ALL(reason1)}, {SEND, ALL(l12)}, {AWAIT, ALL(status)}, {END, 500, 0}};

/* Asks, and is silent until the reply is there. */
static const struct step asking[] = {{SEND, ALL(l12)}, {AWAIT, ALL(status)}, {AGAIN, 10000, 0}, {END, 500, 0}};

/* Bytes are lost while it babbles, and a 00 right behind them may be too: it is quiet first. */
static const struct step babbling[] = {
    {BABBLE, 20000, 0}, {QUIET, 500, 0}, {SEND, ALL(zero)}, {QUIET, 500, 0}, {SEND, ALL(l12)}, {AWAIT, ALL(status)}, {AGAIN, 5, 0}, {END, 500, 0},
};

/* Stops in the middle of a request and of a reply, and gives a request up. Then asks three times and takes nothing: the second reply is cut where the queue and the
 * UART are full, and ended by a 00. */
static const struct step stalling[] = {
    {SEND, 10, l12}, {SILENCE, 5000, 0}, {SEND, sizeof l12 - 10, l12 + 10}, {AWAIT, 20, status}, {HOLD, 1, 0}, {SILENCE, 5000, 0}, {TAKE, 1, 0},
    {AWAIT, sizeof status - 20, status + 20}, {SEND, 3, l12}, {SILENCE, 5000, 0}, {SEND, ALL(zero)}, {AWAIT, ALL(reason1)}, {HOLD, 1, 0},
    {SEND, ALL(l12)}, {SILENCE, 500, 0}, {SEND, ALL(l12)}, {SILENCE, 500, 0}, {SEND, ALL(l12)}, {SILENCE, 500, 0}, {TAKE, 1, 0},
    {AWAIT, ALL(status)}, {AWAIT, PLACES + 1 - sizeof status, status}, {AWAIT, ALL(zero)}, {AWAIT, ALL(status)},
    {SEND, ALL(zero)}, {SEND, ALL(l12)}, {AWAIT, ALL(status)}, {AGAIN, 20, 0}, {END, 500, 0},
};

/* 4,141 bytes before a 00 are too many by one: a frame of one fewer of these bytes fails by its length, with reason 3. */
static const struct step overlong[] = {
    {FILL, 4141, 0}, {SEND, ALL(zero)}, {AWAIT, ALL(reason1)}, {FILL, 20000, 0}, {SILENCE, 500, 0}, {SEND, ALL(zero)}, {AWAIT, ALL(reason1)},
    {SEND, ALL(zero)}, {SEND, ALL(l12)}, {AWAIT, ALL(status)}, {END, 500, 0},
};

/* Two requests in one go: the reply to each comes, and the radio gets the passphrase that was stored alone. */
static const struct step setting[] = {
    {SEND, ALL(set_short)}, {SEND, ALL(set)}, {AWAIT, ALL(result3)}, {AWAIT, ALL(result0)}, {RADIO, ALL(passphrase)}, {AGAIN, 50, 0}, {END, 500, 0},
};

static const struct far_end {
    const char *name;
    const struct step *steps;
    uint32_t tick;      /* cycles for a byte: 2,170 at 115,200 baud, 271 at 921,600 */
    uint32_t pause;     /* turns of an empty loop, 4 cycles each, that the firmware's other duties stay below */
    int loses;          /* whether bytes are lost at a full queue */
} far_ends[] = {
    {"polite", polite, 2170, 1, 0}, {"asking", asking, 2170, 500, 0}, {"babbling", babbling, 271, 8000, 1}, {"stalling", stalling, 271, 8000, 0}, {"overlong", overlong, 271, 1000, 0},
    {"setting", setting, 271, 8000, 0},
};

#define PATIENCE 0xffffffu  /* cycles without a byte before the far end gives up: 0.67 s */
#define KEPT 256u

static const struct far_end *far_end;
static const struct step *step;
static uint32_t times, rounds;      /* how often the step was done, how often all */
static uint32_t babble, duty;       /* random numbers */
static uint32_t sent, taken, got, awaited, overruns;
static uint8_t seen[KEPT];
static int holds, waits;
static uint8_t radio[PLACES];
static uint32_t radio_length, radio_sets;
static struct guarded *guarded;
static volatile uint8_t received, sending;
static volatile int received_full, sending_full, wanted;

/* The next of a row of random numbers (xorshift). */
static uint32_t next(uint32_t *number)
{
    *number ^= *number << 13;
    *number ^= *number >> 17;
    *number ^= *number << 5;
    return *number;
}

/* ---- How deep the stack was used: it is painted once, at first */

extern uint32_t stack_low[], stack_top[];
#define PAINT 0xa5a5a5a5u

static void paint(void)
{
    uint32_t *sp;
    __asm__ volatile("mov %0, sp" : "=r"(sp));
    for (volatile uint32_t *p = stack_low; p < sp; p++)
        *p = PAINT;
}

static uint32_t deepest(void)
{
    const uint32_t *p = stack_low;
    while (p < stack_top && *p == PAINT)
        p++;
    return (uint32_t)((const uint8_t *)stack_top - (const uint8_t *)p);
}

/* ---- How a run ends */

static void finish(const char *how, int well)
{
    SYSTICK_CONTROL = 0;
    for (uint32_t i = 0, from = 0; taken <= KEPT && i < got; i++)
        if (seen[i] == 0 || i + 1 == got) {
            host_hex(seen + from, i + 1 - from);
            from = i + 1;
        }
    host_text(far_end->name);
    host_number(": ", sent, " bytes in and ");
    host_number("", taken, " bytes out; ");
    host_number("", uart_lost, " lost at a full queue, ");
    host_number("", overruns, " in the UART; ");
    host_number("stack ", deepest(), " bytes, interrupts and semihosting included; ");
    host_text(how);
    host_text("\n");
    host_end(well);
}

/* The steps are done. */
static void end(void)
{
    if (got != awaited)
        finish("more came than was awaited", 0);
    if (overruns > 0 || (uart_lost > 0) != far_end->loses)
        finish("not as many bytes lost as must be", 0);
    finish("every reply as it must be", 1);
}

/* ---- The steps */

static void send(uint8_t byte)
{
    sent++;
    if (received_full)
        overruns++;
    else
        received = byte;
    received_full = 1;
}

static void take(void)
{
    if (!sending_full || holds)
        return;
    seen[got % KEPT] = sending;
    got++;
    taken++;
    sending_full = 0;
}

/* Does the step once; whether that counts. */
static int done(void)
{
    switch (step->what) {
    case SEND: send(step->bytes[times]); return 1;
    case BABBLE: send((uint8_t)(next(&babble) >> 8)); return 1;
    case FILL: send(0x01); return 1;
    case SILENCE: return 1;
    case HOLD: holds = 1; return 1;
    case TAKE: holds = 0; return 1;
    case AWAIT:
        if (got == awaited)
            return 0;
        if (got - awaited > KEPT || seen[awaited % KEPT] != step->bytes[times])
            finish("a wrong byte came", 0);
        awaited++;
        return 1;
    case QUIET:
        if (got == awaited)
            return 1;
        got = awaited;
        times = 0;
        return 0;
    case RADIO:
        if (radio_sets != rounds + 1 || radio_length != step->times || radio[times] != step->bytes[times])
            finish("the radio has another passphrase", 0);
        return 1;
    case AGAIN: return 1;
    case END:
        if (times + 1 == step->times)
            end();
        return 1;
    }
    return 0;
}

static void far_end_step(void)
{
    if (!done() || ++times < step->times)
        return;
    times = 0;
    step++;
    if (step->what == AGAIN && ++rounds < step->times)
        step = far_end->steps;
}

/* ---- The fake UART */

/* From here on a tick for each byte; or, where nothing moves until the firmware sends, none before the far end's patience ends. */
static void set_ticks(int waiting)
{
    waits = waiting;
    SYSTICK_RELOAD = (waiting ? PATIENCE : far_end->tick) - 1;
    SYSTICK_CURRENT = 0;
    SYSTICK_PEND = SYSTICK_UNPEND;
}

static void raise(void)
{
    if (received_full || (wanted && !sending_full))
        NVIC_PEND = UART_INTERRUPT;
}

/* One byte's time. */
void systick(void)
{
    if (waits)
        finish("no reply came", 0);
    take();
    far_end_step();
    if (step->what == AWAIT && got == awaited && !sending_full && !wanted)
        set_ticks(1);
    raise();
}

/* In a product the firmware's handler stands in the vector table itself: the UART raises the interrupt again by itself. */
void uart(void)
{
    uart_interrupt();
    raise();
}

int uart_has_received(void)
{
    return received_full;
}

uint8_t uart_read(void)
{
    received_full = 0;
    return received;
}

int uart_can_send(void)
{
    return !sending_full;
}

void uart_write(uint8_t byte)
{
    if (sending_full)
        finish("a byte was written over another", 0);
    sending = byte;
    sending_full = 1;
    if (waits)
        set_ticks(0);
}

void uart_want_bytes(int on)
{
    wanted = on;
    raise();
}

/* ---- The rest of the board */

static int same(const char *a, const char *b)
{
    while (*a != 0 && *a == *b)
        a++, b++;
    return *a == *b;
}

static const struct far_end *named(void)
{
    char name[16] = "";
    struct {
        char *text;
        uint32_t length;
    } line = {name, sizeof name};
    host(HOST_COMMAND_LINE, &line);
    for (uint32_t i = 0; i < sizeof far_ends / sizeof *far_ends; i++)
        if (same(name, far_ends[i].name))
            return &far_ends[i];
    host_text("no such far end\n");
    host_end(0);
    return 0;
}

void radio_set(const uint8_t *bytes, uint32_t length)
{
    if (length > sizeof radio)
        finish("a passphrase is too long", 0);
    for (uint32_t i = 0; i < length; i++)
        radio[i] = bytes[i];
    radio_length = length;
    radio_sets++;
}

void board_start(struct guarded *memory)
{
    paint();
    guarded = memory;
    for (uint32_t i = 0; i < GUARD; i++)
        guarded->before[i] = guarded->behind[i] = (uint8_t)PAINT;
    far_end = named();
    step = far_end->steps;
    babble = 1;
    duty = 2;
    NVIC_ENABLE = UART_INTERRUPT;
    set_ticks(0);
    SYSTICK_CONTROL = 7;
}

static void look_at_guards(void)
{
    uint32_t before = 0, behind = 0;

    for (uint32_t i = 0; i < GUARD; i++) {
        before += guarded->before[i] != (uint8_t)PAINT;
        behind += guarded->behind[i] != (uint8_t)PAINT;
    }
    if (before + behind == 0)
        return;
    host_number("guards: written are ", before, " bytes before the piece and ");
    host_number("", behind, " behind it\n");
    finish("a piece was overrun", 0);
}

void other_duties(void)
{
    look_at_guards();
    for (volatile uint32_t i = next(&duty) % far_end->pause; i > 0; i--)
        ;
}
