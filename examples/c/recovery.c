/* Recoveries: a reply that is wholly lost, a supervisor that starts again, and a recovery of which
 * a frame is lost. Assumes ends.c. Prints what the main processor's end does and learns. */
#include <stdio.h>

#include "ends.h"

static void print_handed(const oatcastle_requester_receive_answer *what, const uint8_t *data)
{
    if (what->kind == OATCASTLE_STATUS)
        printf("status %u\n", (unsigned)what->status);
    else
        printf("answer 0x%02x \"%.*s\"\n", (unsigned)what->command,
               what->length > 0 ? (int)what->length - 1 : 0, (const char *)data + 1);
}

/* Only a start gives a recovery up. What is on its way is thrown away, since the numbers begin at 1
 * again; one 00 would end a frame that went out in part, and here all went out. */
static void start_again(void)
{
    supervisor_turn(NULL);
    to_main.length = 0;
    must(oatcastle_main_end_start(&main_end));
}

/* What is done where no answer came in time: whether the request is still to come. */
static int late(void)
{
    oatcastle_requester_state_answer now = outstanding();

    if (now.state == OATCASTLE_WAITING) {
        printf("no answer to 0x%02x under %u: interrupt\n", (unsigned)now.command,
               (unsigned)now.number);
        must(oatcastle_main_end_interrupt(&main_end));
        main_send();
        return 1;
    }
    printf("no answer to 0x%02x under %u in a recovery: start\n", (unsigned)now.command,
           (unsigned)now.number);
    start_again();
    return 0;
}

/* Waits for the answer; of the first replies so many are wholly lost. Whether it came. */
static int wait_for_answer(unsigned lost)
{
    while (outstanding().state != OATCASTLE_IDLE) {
        supervisor_turn(NULL);
        if (lost > 0)
            to_main.length = 0;
        if (to_main.length > 0)
            main_turn(print_handed);
        else if (!late())
            return 0;
        lost -= lost > 0;
    }
    return 1;
}

/* Looks key 0 up until its answer comes. */
static void ping(unsigned lost)
{
    static const uint8_t data[] = {OATCASTLE_KEY_PING, 4, 0};

    main_request(OATCASTLE_COMMAND_KEY_LOOKUP, data, sizeof data);
    while (!wait_for_answer(lost)) {
        main_request(OATCASTLE_COMMAND_KEY_LOOKUP, data, sizeof data);
        lost = 0;
    }
}

/* The line signal begins a recovery, whether or not a request is outstanding. */
static void serve_signal(void)
{
    oatcastle_signal_answer line;

    must(oatcastle_supervisor_signal(&supervisor, &line));
    printf("the line signal is %s\n", line.asserted ? "asserted" : "not asserted");
    if (!line.asserted)
        return;
    must(oatcastle_main_end_interrupt(&main_end));
    main_send();
    if (!wait_for_answer(0))
        fail("the recovery was given up");
}

int main(int count, char **words)
{
    begin(count, words);
    serve_signal(); /* the supervisor's first start */
    serve_signal();
    ping(0);
    ping(1); /* the reply is lost */
    supervisor_begin();
    serve_signal(); /* its second start */
    ping(2); /* the reply is lost, and the first of the recovery */
    return 0;
}
