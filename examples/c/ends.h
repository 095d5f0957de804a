/* What the examples share: both ends in one program, and a wire in memory between them that may
 * damage or add bytes. Assumes the static library. A product has one end, and a UART for a wire. */
#ifndef ENDS_H
#define ENDS_H

#include "oatcastle_parts.h"

#define WIRE_ROOM (8 * OATCASTLE_LONGEST_FRAME)

/* One direction: the bytes that are on their way. */
struct wire {
    uint8_t bytes[WIRE_ROOM];
    size_t length;
};

extern oatcastle_supervisor supervisor;
extern oatcastle_main_end main_end;
extern struct wire to_supervisor, to_main;

/* Ends the program where a call was refused. */
void must(uint32_t refusal);

/* Ends the program, and says why. */
void fail(const char *why);

/* Starts both ends. The program's one argument says what the wire does: `whole` (as without one),
 * `damaged` or `spare`. */
void begin(int count, char **words);

/* Starts the supervisor alone, as its power-up does. */
void supervisor_begin(void);

/* The supervisor carries out what has come, and replies to each frame before it reads the next.
 * `stored`, unless it is NULL, is told the key of each set that was stored, ahead of its reply.
 * A program that takes more turns than any example does is ended. */
void supervisor_turn(void (*stored)(uint64_t key));

/* What the main processor's end hands out: an answer, an alert or a status, and a reply's data. */
typedef void handed(const oatcastle_requester_receive_answer *what, const uint8_t *data);

/* Puts a request out. */
void main_request(uint8_t command, const void *data, size_t length);

/* Puts out the frame that is to go out, if there is one. */
void main_send(void);

/* The main processor's end reads what has come. */
void main_turn(handed *each);

/* What is outstanding. */
oatcastle_requester_state_answer outstanding(void);

#endif
