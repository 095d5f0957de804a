/* Alerts: the supervisor posts them, its line signal tells, and the main processor's end collects
 * them. Assumes ends.c. Prints the same whatever the wire does. */
#include <stdio.h>
#include <string.h>

#include "ends.h"

#define ACTION 7    /* what an alert asks for is a number of the product, 1 to 255 */

static uint32_t post(const char *text)
{
    return oatcastle_supervisor_post(&supervisor, ACTION, (const uint8_t *)text, strlen(text));
}

static void print_handed(const oatcastle_requester_receive_answer *what, const uint8_t *data)
{
    if (what->kind == OATCASTLE_STATUS)
        return;
    if (what->command == OATCASTLE_REPLY_ALERT && what->length >= 1)
        printf("alert %u \"%.*s\"\n", data[0], (int)what->length - 1, (const char *)data + 1);
    else
        printf("answer 0x%02x\n", (unsigned)what->command);
}

/* Serves the wire and the line signal until nothing is outstanding and the line is quiet. */
static void serve(void)
{
    oatcastle_signal_answer line;

    for (;;) {
        must(oatcastle_supervisor_signal(&supervisor, &line));
        if (line.asserted) { /* adds nothing to a recovery that is under way */
            must(oatcastle_main_end_interrupt(&main_end));
            main_send();
        } else if (outstanding().state == OATCASTLE_IDLE) {
            return;
        }
        supervisor_turn(NULL);
        main_turn(print_handed);
    }
}

/* As many alerts as can wait, and one more, which is refused and changes nothing. */
static void post_many(void)
{
    static const char *const texts[OATCASTLE_MOST_ALERTS] = {
        "fan 1 stopped", "fan 2 stopped", "too hot", "door open", "", "battery low", "lid", "dust",
    };

    for (unsigned i = 0; i < OATCASTLE_MOST_ALERTS; i++)
        must(post(texts[i]));
    if (post("one too many") != OATCASTLE_ALERTS_FULL)
        fail("one too many was not refused");
    printf("%u alerts wait; another is refused\n", OATCASTLE_MOST_ALERTS);
}

int main(int count, char **words)
{
    begin(count, words);
    serve();
    post_many();
    serve();
    main_request(OATCASTLE_COMMAND_BSU, NULL, 0); /* an alert comes while this is outstanding */
    must(post("cable out"));
    serve();
    return 0;
}
