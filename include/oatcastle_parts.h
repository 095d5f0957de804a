/**
 * @file oatcastle_parts.h
 * The lent parts as structs, and each call that takes parts as an inline function that takes such
 * a struct in their place.
 *
 * Made by include/parts.py from oatcastle.h. What a call does and answers stands there, with the
 * plain function. A struct is plain memory: static or on a stack, of any contents, until its start.
 * It may be copied or moved between two calls. Where a length is 0, its pointer is not looked at
 * and may be NULL. An answer overlaps neither the struct nor anything else that is lent.
 *
 * The calls without parts have no other form: oatcastle_line_write, oatcastle_line_checksum,
 * oatcastle_clear_counters, oatcastle_addresses, oatcastle_plan, oatcastle_probe_update and those
 * of the root-of-trust link.
 *
 * The main processor's end, for any bytes: hands in all that the wire brought, gives `handed` each
 * answer, alert and status, and `send` the bytes that are to go out.
 * @code
 * static uint32_t hear(oatcastle_main_end *end, const uint8_t *piece, size_t length,
 *                      void (*handed)(const oatcastle_requester_receive_answer *what,
 *                                     const uint8_t *data),
 *                      void (*send)(const uint8_t *bytes, size_t count))
 * {
 *     static uint8_t data[OATCASTLE_LONGEST_DATA], out[OATCASTLE_LONGEST_FRAME];
 *     oatcastle_requester_receive_answer got;
 *     oatcastle_requester_send_answer put;
 *
 *     while (length > 0) {
 *         uint32_t refusal = oatcastle_main_end_receive(end, piece, length, &got);
 *         if (refusal == OATCASTLE_DONE)      // of a status or nothing the length is 0
 *             refusal = oatcastle_main_end_data(end, got.length, data, sizeof data);
 *         if (refusal == OATCASTLE_DONE && got.kind != OATCASTLE_NOTHING)
 *             handed(&got, data);
 *         if (refusal == OATCASTLE_DONE && got.ended)
 *             refusal = OATCASTLE_NO_NUMBER;  // a recovery's: the request is forgotten
 *         if (refusal == OATCASTLE_DONE)
 *             refusal = oatcastle_main_end_send(end, out, sizeof out, &put);
 *         if (refusal != OATCASTLE_DONE)
 *             return refusal;
 *         send(out, put.length);              // 0 bytes where nothing is to go out
 *         piece += got.used;
 *         length -= got.used;
 *     }
 *     return OATCASTLE_DONE;
 * }
 * @endcode
 */
#ifndef OATCASTLE_PARTS_H
#define OATCASTLE_PARTS_H

#include "oatcastle.h"

#ifdef __cplusplus
extern "C" {
#endif

/** The pointer, or where the length is 0 a place that is neither read nor written. */
static inline const uint8_t *oatcastle_some(const uint8_t *at, oatcastle_length length)
{
    static const uint8_t none[1] = {0};
    return length == 0 ? none : at;
}

/** The same for a run that is written. */
static inline uint8_t *oatcastle_some_room(uint8_t *at, oatcastle_length length)
{
    static uint8_t none[1];
    return length == 0 ? none : at;
}

/** The supervisor: its lent parts, which the caller owns and only these calls write. */
typedef struct oatcastle_supervisor {
    uint8_t reader[OATCASTLE_READER_LENGTH];
    uint8_t outbox[OATCASTLE_OUTBOX_LENGTH];
    uint8_t factory[OATCASTLE_FACTORY_LENGTH];
    uint8_t settings[OATCASTLE_SETTINGS_LENGTH];
    uint8_t registers[OATCASTLE_REGISTERS_LENGTH];
} oatcastle_supervisor;

/** oatcastle_start on these parts. */
static inline uint32_t oatcastle_supervisor_start(oatcastle_supervisor *parts,
                                                  const uint8_t data[OATCASTLE_START_LENGTH])
{
    return oatcastle_start(data, parts->reader, sizeof parts->reader,
                           parts->outbox, sizeof parts->outbox,
                           parts->factory, sizeof parts->factory,
                           parts->settings, sizeof parts->settings,
                           parts->registers, sizeof parts->registers);
}

/** oatcastle_receive on these parts. */
static inline uint32_t oatcastle_supervisor_receive(
    oatcastle_supervisor *parts, const uint8_t *image, oatcastle_length image_length,
    const uint8_t *piece, oatcastle_length piece_length)
{
    return oatcastle_receive(oatcastle_some(image, image_length), image_length,
                             oatcastle_some(piece, piece_length), piece_length,
                             parts->reader, sizeof parts->reader,
                             parts->outbox, sizeof parts->outbox,
                             parts->factory, sizeof parts->factory,
                             parts->settings, sizeof parts->settings,
                             parts->registers, sizeof parts->registers);
}

/** oatcastle_step on these parts. */
static inline uint32_t oatcastle_supervisor_step(
    oatcastle_supervisor *parts, const uint8_t *image, oatcastle_length image_length,
    const uint8_t *piece, oatcastle_length piece_length, oatcastle_step_answer *answer)
{
    return oatcastle_step(oatcastle_some(image, image_length), image_length,
                          oatcastle_some(piece, piece_length), piece_length,
                          parts->reader, sizeof parts->reader, parts->outbox, sizeof parts->outbox,
                          parts->factory, sizeof parts->factory,
                          parts->settings, sizeof parts->settings,
                          parts->registers, sizeof parts->registers, answer);
}

/** oatcastle_receive_counted on these parts. */
static inline uint32_t oatcastle_supervisor_receive_counted(
    oatcastle_supervisor *parts, oatcastle_counters *counters,
    const uint8_t *image, oatcastle_length image_length,
    const uint8_t *piece, oatcastle_length piece_length)
{
    return oatcastle_receive_counted(counters, oatcastle_some(image, image_length), image_length,
                                     oatcastle_some(piece, piece_length), piece_length,
                                     parts->reader, sizeof parts->reader,
                                     parts->outbox, sizeof parts->outbox,
                                     parts->factory, sizeof parts->factory,
                                     parts->settings, sizeof parts->settings,
                                     parts->registers, sizeof parts->registers);
}

/** oatcastle_step_counted on these parts. */
static inline uint32_t oatcastle_supervisor_step_counted(
    oatcastle_supervisor *parts, oatcastle_counters *counters,
    const uint8_t *image, oatcastle_length image_length,
    const uint8_t *piece, oatcastle_length piece_length, oatcastle_step_answer *answer)
{
    return oatcastle_step_counted(counters, oatcastle_some(image, image_length), image_length,
                                  oatcastle_some(piece, piece_length), piece_length,
                                  parts->reader, sizeof parts->reader,
                                  parts->outbox, sizeof parts->outbox,
                                  parts->factory, sizeof parts->factory,
                                  parts->settings, sizeof parts->settings,
                                  parts->registers, sizeof parts->registers, answer);
}

/** oatcastle_take on these parts. */
static inline uint32_t oatcastle_supervisor_take(oatcastle_supervisor *parts,
                                                 uint8_t *room, oatcastle_length room_length,
                                                 oatcastle_take_answer *answer)
{
    return oatcastle_take(parts->outbox, sizeof parts->outbox,
                          oatcastle_some_room(room, room_length), room_length, answer);
}

/** oatcastle_post on these parts. */
static inline uint32_t oatcastle_supervisor_post(oatcastle_supervisor *parts, uint8_t action,
                                                 const uint8_t *text, oatcastle_length text_length)
{
    return oatcastle_post(parts->registers, sizeof parts->registers, action,
                          oatcastle_some(text, text_length), text_length);
}

/** oatcastle_set_options on these parts. */
static inline uint32_t oatcastle_supervisor_set_options(oatcastle_supervisor *parts,
                                                        uint64_t options)
{
    return oatcastle_set_options(parts->registers, sizeof parts->registers, options);
}

/** oatcastle_lookup on these parts. */
static inline uint32_t oatcastle_supervisor_lookup(const oatcastle_supervisor *parts, uint8_t key,
                                                   uint16_t maxresponse,
                                                   uint8_t *room, oatcastle_length room_length,
                                                   oatcastle_lookup_answer *answer)
{
    return oatcastle_lookup(parts->factory, sizeof parts->factory,
                            parts->settings, sizeof parts->settings, key, maxresponse,
                            oatcastle_some_room(room, room_length), room_length, answer);
}

/** oatcastle_edition on these parts. */
static inline uint32_t oatcastle_supervisor_edition(const oatcastle_supervisor *parts, uint8_t key,
                                                    oatcastle_edition_answer *answer)
{
    return oatcastle_edition(parts->factory, sizeof parts->factory,
                             parts->settings, sizeof parts->settings, key, answer);
}

/** oatcastle_save on these parts. */
static inline uint32_t oatcastle_supervisor_save(const oatcastle_supervisor *parts,
                                                 uint8_t *out, oatcastle_length out_length,
                                                 oatcastle_save_answer *answer)
{
    return oatcastle_save(parts->settings, sizeof parts->settings,
                          oatcastle_some_room(out, out_length), out_length, answer);
}

/** oatcastle_restore on these parts. */
static inline uint32_t oatcastle_supervisor_restore(
    oatcastle_supervisor *parts, const uint8_t *image, oatcastle_length image_length,
    oatcastle_restore_answer *answer)
{
    return oatcastle_restore(parts->settings, sizeof parts->settings,
                             oatcastle_some(image, image_length), image_length, answer);
}

/** oatcastle_signal on these parts. */
static inline uint32_t oatcastle_supervisor_signal(const oatcastle_supervisor *parts,
                                                   oatcastle_signal_answer *answer)
{
    return oatcastle_signal(parts->registers, sizeof parts->registers, answer);
}

/** oatcastle_flags on these parts. */
static inline uint32_t oatcastle_supervisor_flags(const oatcastle_supervisor *parts,
                                                  oatcastle_flags_answer *answer)
{
    return oatcastle_flags(parts->registers, sizeof parts->registers, answer);
}

/** oatcastle_boot_failure_record on these parts. */
static inline uint32_t oatcastle_supervisor_boot_failure_record(
    const oatcastle_supervisor *parts, uint8_t *room, oatcastle_length room_length,
    oatcastle_record_answer *answer)
{
    return oatcastle_boot_failure_record(parts->registers, sizeof parts->registers,
                                         oatcastle_some_room(room, room_length), room_length,
                                         answer);
}

/** oatcastle_panic_record on these parts. */
static inline uint32_t oatcastle_supervisor_panic_record(
    const oatcastle_supervisor *parts, uint8_t *room, oatcastle_length room_length,
    oatcastle_record_answer *answer)
{
    return oatcastle_panic_record(parts->registers, sizeof parts->registers,
                                  oatcastle_some_room(room, room_length), room_length, answer);
}

/** oatcastle_collect on these parts. */
static inline uint32_t oatcastle_supervisor_collect(
    oatcastle_supervisor *parts, const uint8_t *piece, oatcastle_length piece_length,
    oatcastle_collect_answer *answer)
{
    return oatcastle_collect(parts->reader, sizeof parts->reader,
                             oatcastle_some(piece, piece_length), piece_length, answer);
}

/** The main processor's end: its lent parts, which the caller owns and only these calls write. */
typedef struct oatcastle_main_end {
    uint8_t reader[OATCASTLE_READER_LENGTH];
    uint8_t requester[OATCASTLE_REQUESTER_LENGTH];
} oatcastle_main_end;

/** oatcastle_requester_start on these parts. */
static inline uint32_t oatcastle_main_end_start(oatcastle_main_end *parts)
{
    return oatcastle_requester_start(parts->reader, sizeof parts->reader,
                                     parts->requester, sizeof parts->requester);
}

/** oatcastle_requester_request on these parts. */
static inline uint32_t oatcastle_main_end_request(oatcastle_main_end *parts, uint8_t command,
                                                  const uint8_t *data, oatcastle_length data_length,
                                                  uint8_t *out, oatcastle_length out_length,
                                                  oatcastle_requester_request_answer *answer)
{
    return oatcastle_requester_request(parts->requester, sizeof parts->requester, command,
                                       oatcastle_some(data, data_length), data_length,
                                       oatcastle_some_room(out, out_length), out_length, answer);
}

/** oatcastle_requester_interrupt on these parts. */
static inline uint32_t oatcastle_main_end_interrupt(oatcastle_main_end *parts)
{
    return oatcastle_requester_interrupt(parts->requester, sizeof parts->requester);
}

/** oatcastle_requester_send on these parts. */
static inline uint32_t oatcastle_main_end_send(oatcastle_main_end *parts,
                                               uint8_t *out, oatcastle_length out_length,
                                               oatcastle_requester_send_answer *answer)
{
    return oatcastle_requester_send(parts->requester, sizeof parts->requester,
                                    oatcastle_some_room(out, out_length), out_length, answer);
}

/** oatcastle_requester_receive on these parts. */
static inline uint32_t oatcastle_main_end_receive(
    oatcastle_main_end *parts, const uint8_t *piece, oatcastle_length piece_length,
    oatcastle_requester_receive_answer *answer)
{
    return oatcastle_requester_receive(oatcastle_some(piece, piece_length), piece_length,
                                       parts->reader, sizeof parts->reader,
                                       parts->requester, sizeof parts->requester, answer);
}

/** oatcastle_requester_state on these parts. */
static inline uint32_t oatcastle_main_end_state(const oatcastle_main_end *parts,
                                                oatcastle_requester_state_answer *answer)
{
    return oatcastle_requester_state(parts->requester, sizeof parts->requester, answer);
}

/** oatcastle_line_data on these parts: the data of the message that oatcastle_main_end_receive
 * handed out last. */
static inline uint32_t oatcastle_main_end_data(const oatcastle_main_end *parts, uint64_t length,
                                               uint8_t *room, oatcastle_length room_length)
{
    return oatcastle_line_data(parts->reader, sizeof parts->reader, length,
                               oatcastle_some_room(room, room_length), room_length);
}

/** A line reader alone: its lent part, which the caller owns and only these calls write. */
typedef struct oatcastle_line_reader {
    uint8_t reader[OATCASTLE_READER_LENGTH];
} oatcastle_line_reader;

/** oatcastle_line_start on these parts. */
static inline uint32_t oatcastle_line_reader_start(oatcastle_line_reader *parts)
{
    return oatcastle_line_start(parts->reader, sizeof parts->reader);
}

/** oatcastle_line_read on these parts. */
static inline uint32_t oatcastle_line_reader_read(
    oatcastle_line_reader *parts, const uint8_t *piece, oatcastle_length piece_length,
    oatcastle_line_read_answer *answer)
{
    return oatcastle_line_read(parts->reader, sizeof parts->reader,
                               oatcastle_some(piece, piece_length), piece_length, answer);
}

/** oatcastle_line_data on these parts. */
static inline uint32_t oatcastle_line_reader_data(const oatcastle_line_reader *parts,
                                                  uint64_t length,
                                                  uint8_t *room, oatcastle_length room_length)
{
    return oatcastle_line_data(parts->reader, sizeof parts->reader, length,
                               oatcastle_some_room(room, room_length), room_length);
}

/** oatcastle_line_tail on these parts. */
static inline uint32_t oatcastle_line_reader_tail(const oatcastle_line_reader *parts,
                                                  oatcastle_line_tail_answer *answer)
{
    return oatcastle_line_tail(parts->reader, sizeof parts->reader, answer);
}

/** oatcastle_collect on these parts. */
static inline uint32_t oatcastle_line_reader_collect(
    oatcastle_line_reader *parts, const uint8_t *piece, oatcastle_length piece_length,
    oatcastle_collect_answer *answer)
{
    return oatcastle_collect(parts->reader, sizeof parts->reader,
                             oatcastle_some(piece, piece_length), piece_length, answer);
}

#ifdef __cplusplus
}
#endif

#endif
