/* Saving: each setting that is stored goes to flash ahead of its reply, and is restored after a
 * start. A power cut at any word leaves the settings before or after. Assumes ends.c. */
#include <stdio.h>
#include <string.h>

#include "ends.h"

#define NO_NUMBER 0xffffffffu   /* what erased flash holds */
#define WORD 4u                 /* bytes that flash takes whole or not at all */

/* A slot of flash. The number is written last: a slot that was not finished has none. */
struct slot {
    uint8_t image[OATCASTLE_LONGEST_IMAGE];
    uint32_t length;
    uint32_t number;
};

static struct slot flash[2];
static size_t power = SIZE_MAX; /* how many words flash takes until the power is cut */

/* ---- Flash: a product has its driver here */

static void flash_write(void *to, const void *from, size_t length)
{
    for (size_t at = 0; at < length && power > 0; at += WORD, power--)
        memcpy((uint8_t *)to + at, (const uint8_t *)from + at,
               length - at < WORD ? length - at : WORD);
}

static void flash_erase(struct slot *slot)
{
    if (power > 0)
        memset(slot, 0xff, sizeof *slot);
}

/* ---- Saving and restoring */

static int newest(void)
{
    if (flash[0].number == NO_NUMBER || flash[1].number == NO_NUMBER)
        return flash[0].number == NO_NUMBER;
    return flash[1].number > flash[0].number;
}

/* Writes the slot that is not the newest. */
static void save(uint64_t key)
{
    static uint8_t image[OATCASTLE_LONGEST_IMAGE];
    struct slot *to = &flash[!newest()];
    uint32_t length, number = flash[newest()].number + 1; /* 0 behind NO_NUMBER */
    oatcastle_save_answer saved;

    (void)key;
    must(oatcastle_supervisor_save(&supervisor, image, sizeof image, &saved));
    length = (uint32_t)saved.length;
    flash_erase(to);
    flash_write(to->image, image, length);
    flash_write(&to->length, &length, sizeof length);
    flash_write(&to->number, &number, sizeof number);
}

/* Restores a slot; whether it could. The length is tested, since the slot may have any contents. */
static int restore_slot(const struct slot *from, int print)
{
    oatcastle_restore_answer fault;
    uint32_t refusal;

    if (from->number == NO_NUMBER || from->length > sizeof from->image)
        return 0;
    refusal = oatcastle_supervisor_restore(&supervisor, from->image, from->length, &fault);
    if (refusal == OATCASTLE_BAD_STATE)
        must(refusal);
    if (refusal != OATCASTLE_DONE && print)
        printf("a slot has a fault: %u at offset %u\n", (unsigned)refusal, (unsigned)fault.offset);
    return refusal == OATCASTLE_DONE;
}

/* Starts the supervisor and restores the newest slot, or else the other; whether one was. */
static int start_and_restore(int print)
{
    int first = newest();

    supervisor_begin();
    return restore_slot(&flash[first], print) || restore_slot(&flash[!first], print);
}

/* ---- Settings over the wire */

static void look(const oatcastle_requester_receive_answer *what, const uint8_t *data)
{
    if (what->kind == OATCASTLE_ANSWER && (what->length != 1 || data[0] != OATCASTLE_SET_STORED))
        fail("not stored");
}

/* The main processor sets the dtrace configuration. */
static void set(const char *value)
{
    static uint8_t data[1 + OATCASTLE_LONGEST_DTRACE_CONF] = {OATCASTLE_KEY_DTRACE_CONF};

    memcpy(data + 1, value, strlen(value));
    main_request(OATCASTLE_COMMAND_KEY_SET, data, 1 + strlen(value));
    while (outstanding().state != OATCASTLE_IDLE) {
        supervisor_turn(save);
        main_turn(look);
    }
}

static int has(const char *value)
{
    static uint8_t room[OATCASTLE_LONGEST_VALUE];
    oatcastle_lookup_answer found;

    must(oatcastle_supervisor_lookup(&supervisor, OATCASTLE_KEY_DTRACE_CONF, 0xffff, room,
                                     sizeof room, &found));
    return found.result == OATCASTLE_LOOKUP_VALUE && found.length == strlen(value) &&
           memcmp(room, value, strlen(value)) == 0;
}

/* The supervisor holds a setting that flash does not: cuts the power at each word that its save
 * writes, and counts what a start then restores. */
static void cut_power(const char *before, const char *after)
{
    static struct slot kept[2];
    static oatcastle_supervisor running;
    unsigned places = 0, old = 0, changed = 0;
    int finished = 0;

    memcpy(kept, flash, sizeof flash);
    running = supervisor;
    for (; !finished; places++) {
        memcpy(flash, kept, sizeof flash);
        supervisor = running;
        power = places;
        save(OATCASTLE_KEY_DTRACE_CONF);
        finished = power > 0;
        power = SIZE_MAX;
        if (start_and_restore(0)) {
            old += (unsigned)has(before);
            changed += (unsigned)has(after);
        }
    }
    printf("power cut at %u places: %u times \"%s\", %u times \"%s\", %u times neither\n", places,
           old, before, changed, after, places - old - changed);
}

static void print_restored(void)
{
    int restored = start_and_restore(1);

    printf("%s: %s\n", restored ? "restored" : "not restored",
           has("first") ? "first" : has("second") ? "second" : has("third") ? "third" : "no value");
}

int main(int count, char **words)
{
    static const uint8_t changed[WORD] = {'x', 'x', 'x', 'x'};

    begin(count, words);
    flash_erase(&flash[0]);
    flash_erase(&flash[1]);
    print_restored();
    set("first");
    set("second");
    print_restored();
    power = 0; /* the next set stays in memory alone */
    set("third");
    power = SIZE_MAX;
    cut_power("second", "third");
    print_restored();
    flash_write(flash[newest()].image + 8, changed, sizeof changed); /* a word of flash fails */
    print_restored();
    return 0;
}
