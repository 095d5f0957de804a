/**
 * @file oatcastle.h
 * Oatcastle: the wire code of a home router's supervisor, as a C library (liboatcastle.a;
 * `rt lib --cpu x86-64` in crates/oatcastle makes it).
 *
 * Plain C99; usable from C++. For x86-64 Linux, and for the processors of cross/ (Cortex-M,
 * riscv32): the header is the same one. oatcastle_parts.h has the lent parts as structs, and each
 * call that takes parts with such a struct in their place.
 *
 * @par Result
 * 0: the call was carried out. Any other number is a refusal, one of OATCASTLE_NO_ROOM to
 * OATCASTLE_RESTORE_BYTES_AFTER below. Each call says which numbers it can return, and
 * oatcastle_refusal_text has words for each. Where several apply, the first of these is returned:
 * - 12, 13, 9, 17, 11, 10, 14, 8, of most calls
 * - an order of their own, which stands with them, of the oatcastle_rot_ calls
 * - 12, then the image's 30 to 35, of oatcastle_restore
 *
 * A refused call leaves every byte and every number that it was lent as it was. Only
 * oatcastle_restore writes its answer when it refuses: a fault's offset.
 * @par Memory
 * The caller owns all memory. The library allocates nothing, keeps no pointer after a call and has
 * no state of its own. All state lies in the parts that the caller lends:
 * - for a supervisor a reader, an outbox, a factory store, a settings store and registers
 * - for the main processor's end a reader and a requester
 * - for the line layer a reader alone
 *
 * Nobody but these calls writes a part between its start and its last use.
 * @par Slices
 * A lent run of bytes is a pointer and a length. The pointer is valid for the length, and not NULL
 * even where the length is 0. NULL with length 0 is no run of these functions; those of
 * oatcastle_parts.h take it for an empty one. A part may be longer than its published length:
 * bytes past it are neither read nor written.
 * @par Overlap
 * No two runs that are lent to one call overlap, unless the call writes neither of them. An answer
 * and a block of counters are such runs, which calls write: they overlap no part, no room and
 * nothing that is read.
 * @par Before the first start
 * Parts of any contents may be lent to a start. Parts that are all 0, as static memory is, are no
 * started supervisor:
 * - The calls that are lent the factory store answer 12: receive, step, receive_counted,
 *   step_counted, lookup, edition.
 * - The others find nothing pending, no signal, no flag, no record and no setting.
 * - An alert, options or settings given then are lost at the start.
 *
 * A reader and a requester that are all 0 are as after their start. So a struct of zeros takes an
 * oatcastle_collect where an oatcastle_receive answers 12. Parts of other contents answer 12, or by
 * whatever their bytes mean.
 * @par Threads
 * Calls that are lent a common part are made one at a time. Calls with no part in common may run at
 * once. An interrupt counts as a thread.
 * @par answer
 * A lent struct of 64-bit numbers, of a type of its own for each call. A call that is carried out
 * writes every field; one that it has no use for is 0. A refused call leaves the struct as it was.
 * oatcastle_restore is the other way round: it writes the struct with 30 to 35, and leaves it
 * with 0.
 * @par room
 * A lent run for bytes that are copied out, also under the name `out`. They stand at its start;
 * those past them stay. A room that is shorter than the bytes is refused as 8; the limits below say
 * how much room is always enough.
 *
 * Numbers inside the lent parts and the start data are little-endian.
 */
#ifndef OATCASTLE_H
#define OATCASTLE_H

#include <stddef.h>
#include <stdint.h>

#ifdef __cplusplus
extern "C" {
#endif

/* ---- The version of this interface, as the file VERSION has it */

#define OATCASTLE_VERSION_MAJOR 0
#define OATCASTLE_VERSION_MINOR 3
#define OATCASTLE_VERSION_PATCH 0

/* ---- Lengths */

/** A length, a count or an index. The library counts in 64 bits on every processor, also where
 * size_t has 32. A size_t, or sizeof, as an argument is widened by the compiler. A list of indices
 * is made of oatcastle_length: a list of a 32-bit size_t is another type. */
typedef uint64_t oatcastle_length;

/* What the library was not made for does not compile this header: numbers are little-endian, and
 * those of 64 bits aligned to 8 bytes. */
#if defined(__BYTE_ORDER__) && __BYTE_ORDER__ != __ORDER_LITTLE_ENDIAN__
#error "oatcastle: the library is for little-endian processors"
#endif
struct oatcastle_aligned {
    uint8_t byte;
    uint64_t number;
};
typedef char oatcastle_length_has_64_bits[sizeof(oatcastle_length) == 8 ? 1 : -1];
typedef char oatcastle_numbers_are_aligned_to_8
    [offsetof(struct oatcastle_aligned, number) == 8 ? 1 : -1];

/* ---- Refusals; oatcastle_refusal_text has words for each */

#define OATCASTLE_DONE 0u           /**< done */
#define OATCASTLE_NO_ROOM 8u        /**< the room is too short for the whole output */
#define OATCASTLE_TOO_LONG 9u       /**< a message's data or an alert's text are too long */
#define OATCASTLE_ALERTS_FULL 10u   /**< as many alerts wait as can */
#define OATCASTLE_BAD_START 11u     /**< start data with too many items, or with an item's data or
                                         an image ID that are too long, or with a result or a BSU
                                         that is not allowed */
#define OATCASTLE_BAD_STATE 12u     /**< a part is below its published length, or a field of it
                                         holds a value that docs/STATE.md does not allow */
#define OATCASTLE_BAD_VALUE 13u     /**< an option bit above the highest, or alert action 0 */
#define OATCASTLE_NO_NUMBER 14u     /**< no request number is left */
#define OATCASTLE_BAD_PROBE 15u     /**< an index past the probe list, a result that is not 0, 2 or
                                         3, or lists of different lengths */
#define OATCASTLE_PLAN_PASSES 16u   /**< the last counted address of the plan passes
                                         ff:ff:ff:ff:ff:ff */
#define OATCASTLE_OUTSTANDING 17u   /**< a request is outstanding, or a recovery is under way */

/* Of the oatcastle_rot_ calls alone; the words are those of docs/WIRE.md */
#define OATCASTLE_ROT_NO_INPUT 20u      /**< there is no byte */
#define OATCASTLE_ROT_BAD_PROTOCOL 21u  /**< the protocol is neither zero nor one */
#define OATCASTLE_ROT_SHORT_HEADER 22u  /**< the bytes are fewer than a header has */
#define OATCASTLE_ROT_TOO_LONG 23u      /**< the length is above the longest payload */
#define OATCASTLE_ROT_CUT_SHORT 24u     /**< the payload is cut short */
#define OATCASTLE_ROT_BAD_CRC 25u       /**< the CRC differs */
#define OATCASTLE_ROT_BAD_TYPE 26u      /**< the type is not listed */

/* Of oatcastle_restore alone, with the offset of the field at fault in the image */
#define OATCASTLE_RESTORE_BAD_MARK 30u      /**< a mark is neither of the two; at the offset:
                                                 mark */
#define OATCASTLE_RESTORE_BAD_KEY 31u       /**< the key is not in an image, or not above the one
                                                 before; at the offset: key */
#define OATCASTLE_RESTORE_TOO_LONG 32u      /**< the length is above the key's longest; at the
                                                 offset: length */
#define OATCASTLE_RESTORE_BAD_CHECKSUM 33u  /**< the checksum is another number; at the offset:
                                                 checksum */
#define OATCASTLE_RESTORE_CUT_SHORT 34u     /**< the image ends inside a field, whatever that
                                                 holds, or ahead of the end mark; at the offset:
                                                 the image's end */
#define OATCASTLE_RESTORE_BYTES_AFTER 35u   /**< bytes follow the end mark; at the offset: behind
                                                 the end mark */

/** What a number that a call returns stands for, in a few words; "unknown" for any other. */
static inline const char *oatcastle_refusal_text(uint32_t number)
{
    switch (number) {
    case OATCASTLE_DONE:
        return "done";
    case OATCASTLE_NO_ROOM:
        return "the room is too short for the whole output";
    case OATCASTLE_TOO_LONG:
        return "a message's data or an alert's text are too long";
    case OATCASTLE_ALERTS_FULL:
        return "as many alerts wait as can";
    case OATCASTLE_BAD_START:
        return "start data with too many items, or with an item's data or an image ID that are "
               "too long, or with a result or a BSU that is not allowed";
    case OATCASTLE_BAD_STATE:
        return "a part is below its published length, or a field of it holds a value that "
               "docs/STATE.md does not allow";
    case OATCASTLE_BAD_VALUE:
        return "an option bit above the highest, or alert action 0";
    case OATCASTLE_NO_NUMBER:
        return "no request number is left";
    case OATCASTLE_BAD_PROBE:
        return "an index past the probe list, a result that is not 0, 2 or 3, or lists of "
               "different lengths";
    case OATCASTLE_PLAN_PASSES:
        return "the last counted address of the plan passes ff:ff:ff:ff:ff:ff";
    case OATCASTLE_OUTSTANDING:
        return "a request is outstanding, or a recovery is under way";
    case OATCASTLE_ROT_NO_INPUT:
        return "there is no byte";
    case OATCASTLE_ROT_BAD_PROTOCOL:
        return "the protocol is neither zero nor one";
    case OATCASTLE_ROT_SHORT_HEADER:
        return "the bytes are fewer than a header has";
    case OATCASTLE_ROT_TOO_LONG:
        return "the length is above the longest payload";
    case OATCASTLE_ROT_CUT_SHORT:
        return "the payload is cut short";
    case OATCASTLE_ROT_BAD_CRC:
        return "the CRC differs";
    case OATCASTLE_ROT_BAD_TYPE:
        return "the type is not listed";
    case OATCASTLE_RESTORE_BAD_MARK:
        return "a mark is neither of the two";
    case OATCASTLE_RESTORE_BAD_KEY:
        return "the key is not in an image, or not above the one before";
    case OATCASTLE_RESTORE_TOO_LONG:
        return "the length is above the key's longest";
    case OATCASTLE_RESTORE_BAD_CHECKSUM:
        return "the checksum is another number";
    case OATCASTLE_RESTORE_CUT_SHORT:
        return "the image ends inside a field, whatever that holds, or ahead of the end mark";
    case OATCASTLE_RESTORE_BYTES_AFTER:
        return "bytes follow the end mark";
    default:
        return "unknown";
    }
}

/* ---- Published lengths of the lent parts, in bytes */

#define OATCASTLE_READER_LENGTH 4142    /**< the line layer's reader; also the `state` of the
                                             oatcastle_line_ calls */
#define OATCASTLE_OUTBOX_LENGTH 4147
#define OATCASTLE_FACTORY_LENGTH 6481
#define OATCASTLE_SETTINGS_LENGTH 8539
#define OATCASTLE_REGISTERS_LENGTH 3393
#define OATCASTLE_REQUESTER_LENGTH 4118

/* ---- Limits */

#define OATCASTLE_LONGEST_DATA 4104     /**< data of a message */
#define OATCASTLE_LONGEST_FRAME 4141    /**< a frame with its 00 */
#define OATCASTLE_LONGEST_VALUE 4096    /**< a key's value */
#define OATCASTLE_LONGEST_ALERT 256
#define OATCASTLE_MOST_KEPT 512         /**< kept bytes of a record */
#define OATCASTLE_MOST_PENDING 4142     /**< bytes pending: a frame, and a 00 ahead of it */
#define OATCASTLE_MOST_ALERTS 8         /**< alerts that wait */
#define OATCASTLE_MOST_ITEMS 64         /**< inventory items */
#define OATCASTLE_LONGEST_IMAGE 8483    /**< an image of the settings: see oatcastle_save */

/* ---- What goes over the wire: commands of requests and of replies, keys, results, bits.
 *
 * The words here are those of docs/WIRE.md, which has the frame and the tests too. A field of data
 * is its name and its width in bytes; a field of width n is the rest. */

/** request data: none; reply: none */
#define OATCASTLE_COMMAND_REBOOT 0x01u
/** request data: none; reply: none */
#define OATCASTLE_COMMAND_POWER_OFF 0x02u
/** request data: none; reply: OATCASTLE_REPLY_BSU */
#define OATCASTLE_COMMAND_BSU 0x03u
/** request data: none; reply: OATCASTLE_REPLY_IDENTITY */
#define OATCASTLE_COMMAND_IDENTITY 0x04u
/** request data: none; reply: OATCASTLE_REPLY_MAC */
#define OATCASTLE_COMMAND_MAC 0x05u
/** request data: reason 1, rest n (1 to 4,104 bytes); reply: none */
#define OATCASTLE_COMMAND_BOOT_FAILURE 0x06u
/** request data: cause 2, rest n (2 to 4,104 bytes); reply: OATCASTLE_REPLY_ACKNOWLEDGED */
#define OATCASTLE_COMMAND_PANIC 0x07u
/** request data: none; reply: OATCASTLE_REPLY_STATUS */
#define OATCASTLE_COMMAND_STATUS 0x08u
/** request data: none; reply: OATCASTLE_REPLY_ACKNOWLEDGED */
#define OATCASTLE_COMMAND_START_ACKNOWLEDGED 0x09u
/** request data: none; reply: OATCASTLE_REPLY_ALERT */
#define OATCASTLE_COMMAND_ALERT 0x0au
/** request data: hash 32, offset 8 (40 bytes); reply: OATCASTLE_REPLY_IMAGE_BLOCK */
#define OATCASTLE_COMMAND_IMAGE_BLOCK 0x0du
/** request data: key 1, maxresponse 2 (3 bytes); reply: OATCASTLE_REPLY_KEY_LOOKUP */
#define OATCASTLE_COMMAND_KEY_LOOKUP 0x0eu
/** request data: index 4 (4 bytes); reply: OATCASTLE_REPLY_INVENTORY */
#define OATCASTLE_COMMAND_INVENTORY 0x0fu
/** request data: key 1, value n (1 to 4,104 bytes); reply: OATCASTLE_REPLY_KEY_SET */
#define OATCASTLE_COMMAND_KEY_SET 0x10u

#define OATCASTLE_REPLY_ACKNOWLEDGED 0x01u      /**< data: none */
#define OATCASTLE_REPLY_DECODE_FAILURE 0x02u    /**< data: reason 1 (1 byte); reason 1 to 7 */
#define OATCASTLE_REPLY_BSU 0x03u               /**< data: bsu 1 (1 byte); bsu 0x41 to 0x42 */
#define OATCASTLE_REPLY_IDENTITY 0x04u          /**< data: model 11, revision 4, serial 11 (26
                                                     bytes) */
#define OATCASTLE_REPLY_MAC 0x05u               /**< data: base 6, count 2, stride 1 (9 bytes) */
#define OATCASTLE_REPLY_STATUS 0x06u            /**< data: status 8, options 8 (16 bytes) */
#define OATCASTLE_REPLY_ALERT 0x07u             /**< data: action 1, text n (1 to 257 bytes) */
#define OATCASTLE_REPLY_IMAGE_BLOCK 0x09u       /**< data: block n (0 to 4,096 bytes) */
#define OATCASTLE_REPLY_KEY_LOOKUP 0x0au        /**< data: result 1, value n (1 to 4,097 bytes);
                                                     in version 2: result 1, edition 4, value n
                                                     (1 to 4,101 bytes); result 0 to 4 */
#define OATCASTLE_REPLY_INVENTORY 0x0bu         /**< data: result 1, name 32, type 1, data n (34
                                                     to 98 bytes); result 0 to 3 */
#define OATCASTLE_REPLY_KEY_SET 0x0cu           /**< data: result 1 (1 byte); result 0 to 4 */

/* Keys: the value, its length, and what may be done with it. */
#define OATCASTLE_KEY_PING 0u               /**< the text pong; 4 bytes; looked up */
#define OATCASTLE_KEY_IMAGE_ID 1u           /**< the recovery image's ID; 0 to 64 bytes; looked
                                                 up */
#define OATCASTLE_KEY_INVENTORY 2u          /**< the number of items, then the inventory's
                                                 version, which is zero; 8 bytes; looked up */
#define OATCASTLE_KEY_ETC_SYSTEM 3u         /**< the content of the main processor's file
                                                 etc/system; 0 to 256 bytes; set, looked up,
                                                 saved */
#define OATCASTLE_KEY_DTRACE_CONF 4u        /**< the content of its dtrace configuration; 0 to
                                                 4,096 bytes; set, looked up, saved */
#define OATCASTLE_KEY_WITHDRAWN_KEYS 5u     /**< the list of withdrawn keys; 0 to 4,096 bytes;
                                                 set, looked up, saved */
#define OATCASTLE_KEY_PASSPHRASE 6u         /**< the wireless passphrase; 8 to 63 bytes; set */

/* The first byte of a key lookup's reply, and the result that oatcastle_lookup answers. */
#define OATCASTLE_LOOKUP_VALUE 0u       /**< the value follows */
#define OATCASTLE_LOOKUP_BAD_KEY 1u     /**< no such key */
#define OATCASTLE_LOOKUP_NO_VALUE 2u    /**< the key has no value; a stored empty value is a
                                             value */
#define OATCASTLE_LOOKUP_TOO_LONG 3u    /**< the value is longer than maxresponse */
#define OATCASTLE_LOOKUP_SET_ONLY 4u    /**< nobody may read the key, whether or not it has a
                                             value */

/* The byte of a key set's reply, and the result that oatcastle_step and _counted answer. */
#define OATCASTLE_SET_STORED 0u         /**< the value is stored, and the edition is one more */
#define OATCASTLE_SET_BAD_KEY 1u        /**< no such key */
#define OATCASTLE_SET_READ_ONLY 2u      /**< the key cannot be set */
#define OATCASTLE_SET_TOO_LONG 3u       /**< the value is longer than the longest, or shorter
                                             than the shortest */
#define OATCASTLE_SET_LAST_EDITION 4u   /**< the key has the last edition */

/* The first byte of an inventory reply; 0, 2 and 3 are also what an item's result may be. */
#define OATCASTLE_INVENTORY_ITEM 0u         /**< name, type and data follow */
#define OATCASTLE_INVENTORY_BAD_INDEX 1u    /**< no such item; name and type are zero, and there
                                                 are no data */
#define OATCASTLE_INVENTORY_ABSENT 2u       /**< the part seems absent; name and type follow, and
                                                 no data */
#define OATCASTLE_INVENTORY_FAILED 3u       /**< the part failed otherwise; name and type follow,
                                                 and no data */

/* The status' bits. */
#define OATCASTLE_STATUS_RESTARTED 0x1u     /**< a start sets it, and a start acknowledged clears
                                                 it */
#define OATCASTLE_STATUS_ALERTS 0x2u        /**< an alert that is posted sets it, and an alert
                                                 request that leaves none waiting clears it */

/* The startup options' bits. */
#define OATCASTLE_OPTION_RECOVERY 0x001u    /**< fetch the image by image block requests */
#define OATCASTLE_OPTION_KBM 0x002u         /**< enable KBM debugging */
#define OATCASTLE_OPTION_BOOT_RD 0x004u     /**< enable BootRD debugging */
#define OATCASTLE_OPTION_PROM 0x008u        /**< enable PROM debugging */
#define OATCASTLE_OPTION_KMDB 0x010u        /**< load KMDB */
#define OATCASTLE_OPTION_KMDB_BOOT 0x020u   /**< load KMDB and enter it at boot */
#define OATCASTLE_OPTION_RAMDISK 0x040u     /**< mount the ramdisk as root */
#define OATCASTLE_OPTION_NET_BOOT 0x080u    /**< boot from the network */
#define OATCASTLE_OPTION_VERBOSE 0x100u     /**< enable a verbose boot */

#define OATCASTLE_BSU_A 0x41u   /**< the first boot storage unit */
#define OATCASTLE_BSU_B 0x42u   /**< the second */

#define OATCASTLE_LONGEST_ETC_SYSTEM 256        /**< bytes of each settings key's value */
#define OATCASTLE_LONGEST_DTRACE_CONF 4096
#define OATCASTLE_LONGEST_WITHDRAWN_KEYS 4096
#define OATCASTLE_SHORTEST_PASSPHRASE 8
#define OATCASTLE_LONGEST_PASSPHRASE 63
#define OATCASTLE_LONGEST_IMAGE_ID 64
#define OATCASTLE_LONGEST_ITEM_DATA 64
#define OATCASTLE_LONGEST_BLOCK 4096            /**< bytes of an image in one reply */

/* ---- The wireless passphrase in the settings store, for the radio's driver: offsets in bytes.
 *
 * No call of the supervisor hands out anything that depends on what the record holds: the driver
 * reads it here. oatcastle_step tells when it was set. Where the passphrase lies, and how long:
 *
 *   - In its record, from a set with result 0 on. The next such set clears all 63 bytes of the
 *     value first, and a start clears the whole store.
 *   - In the reader's part, from the first byte of a set's frame to its 00. There the call that
 *     receives clears the whole part if the frame is good, also where the set is refused.
 *   - In the reader's part, where the frame came damaged or oatcastle_line_read brings its 00.
 *     Later frames overwrite it. A good set of key 6 or a start clears it.
 *   - In the outbox, eight bytes at most. The reply to a damaged frame has what stands in the
 *     sequence's place. That may be bytes of the value, where a set's first bytes were lost. They
 *     stay until the next reply or a start, also after oatcastle_take.
 *   - In the main processor's reader part, the same eight bytes, once it has read that reply.
 *     Later frames overwrite them. oatcastle_requester_start clears them.
 *   - In the main processor's part, from oatcastle_requester_request on. The answer leaves it. A
 *     later request that stays outstanding (not 0x01, 0x02, 0x06) overwrites it as far as its
 *     data reach. oatcastle_requester_start clears it.
 *
 * What this library cannot clear:
 *
 *   - the caller's buffers: piece, data, frame, room;
 *   - a driver's queue and DMA memory;
 *   - registers, and the stack below a call. A call that writes a frame leaves the message there.
 *     One that reads a set without its first bytes leaves those eight (docs/FIRMWARE.md).
 *
 * Nothing is said of the time that a call takes. */

#define OATCASTLE_PASSPHRASE_RECORD 8469    /**< 1 byte: 1 if a value is held, else 0 */
#define OATCASTLE_PASSPHRASE_EDITION 8470   /**< 4 bytes: how often it was set since the start */
#define OATCASTLE_PASSPHRASE_LENGTH 8474    /**< 2 bytes: 8 to 63 if a value is held, else 0 */
#define OATCASTLE_PASSPHRASE_VALUE 8476     /**< 63 bytes, of which the first so many count */

/* ---- The address plan */

#define OATCASTLE_ADDRESS_LENGTH 6      /**< bytes of an address, the most significant first */
#define OATCASTLE_ADDRESS_ROWS 8        /**< addresses that oatcastle_addresses gives */
#define OATCASTLE_ADDRESSES_LENGTH 48   /**< bytes of these */

#define OATCASTLE_ROT_HEADER_LENGTH 8       /**< a root-of-trust message ahead of its payload */
#define OATCASTLE_ROT_LONGEST_PAYLOAD 512   /**< its payload */
#define OATCASTLE_ROT_LONGEST_MESSAGE 520   /**< the whole of it */

/* ---- How a piece ended: the kind that oatcastle_line_read, _step and _step_counted answer */

#define OATCASTLE_MORE 0u       /**< the piece was read to its end; it has no 00 */
#define OATCASTLE_EMPTY 1u      /**< its first 00 ended an empty frame */
#define OATCASTLE_MESSAGE 2u    /**< its first 00 ended a message; for oatcastle_step a request,
                                     which is carried out */
#define OATCASTLE_FAILURE 3u    /**< its first 00 ended a frame that failed a test; the reason is
                                     one of these */

/* The reasons, in words of docs/WIRE.md. oatcastle_line_read has the first four alone; an unknown
 * command comes from oatcastle_step alone. */
#define OATCASTLE_REASON_FORM 1u        /**< the COBS form is longer than the longest; a code
                                             byte runs past the end of the form; a last code byte
                                             without bytes stands behind a full group */
#define OATCASTLE_REASON_CHECKSUM 2u    /**< the checksum is another number */
#define OATCASTLE_REASON_LENGTH 3u      /**< the message is shorter than the shortest or longer
                                             than the longest; the command is not listed */
#define OATCASTLE_REASON_MAGIC 4u       /**< the magic differs */
#define OATCASTLE_REASON_VERSION 5u     /**< the version is neither one nor two */
#define OATCASTLE_REASON_SEQUENCE 6u    /**< the top bit of the sequence is set */
#define OATCASTLE_REASON_DATA 7u        /**< the data have a wrong length for the command */

/* ---- The main processor's end: the kind in the answer of oatcastle_requester_receive */

#define OATCASTLE_NOTHING 0u    /**< nothing is handed out */
#define OATCASTLE_ANSWER 1u     /**< the answer to the outstanding request, which is settled */
#define OATCASTLE_STATUS 2u     /**< what a recovery's fetch read */
#define OATCASTLE_ALERT 3u      /**< the answer to a recovery's 0x0a */

/* ---- The main processor's end: the state in the answer of oatcastle_requester_state */

#define OATCASTLE_IDLE 0u                   /**< nothing outstanding; no request gets 17 */
#define OATCASTLE_WAITING 1u                /**< the caller's request is outstanding */
#define OATCASTLE_RECOVERY_STATUS 2u        /**< a recovery's 0x08 is outstanding */
#define OATCASTLE_RECOVERY_ACKNOWLEDGE 3u   /**< a recovery's 0x09 is outstanding */
#define OATCASTLE_RECOVERY_ALERT 4u         /**< a recovery's 0x0a is outstanding */

/* ---- The root-of-trust link: the kind in the answer of oatcastle_rot_read, and the types */

#define OATCASTLE_ROT_NOTHING 0u    /**< protocol 0: nothing was sent */
#define OATCASTLE_ROT_MESSAGE 1u    /**< a message is handed out */
#define OATCASTLE_ROT_ECHOED 2u     /**< an echo request is answered */

#define OATCASTLE_ROT_ERROR_RESPONSE 1u         /**< handed out; payload: one byte, the error */
#define OATCASTLE_ROT_ECHO_REQUEST 2u           /**< answered; payload: any; the answer is an
                                                     echo response with the same payload */
#define OATCASTLE_ROT_ECHO_RESPONSE 3u          /**< handed out; payload: the request's */
#define OATCASTLE_ROT_STATUS_REQUEST 4u         /**< handed out; payload: not settled */
#define OATCASTLE_ROT_STATUS_RESPONSE 5u        /**< handed out; payload: not settled */
#define OATCASTLE_ROT_SPROCKETS_REQUEST 6u      /**< handed out; payload: a Sprockets message */
#define OATCASTLE_ROT_SPROCKETS_RESPONSE 7u     /**< handed out; payload: a Sprockets message */
#define OATCASTLE_ROT_SINK_REQUEST 8u           /**< handed out; payload: any, for tests of the
                                                     link */
#define OATCASTLE_ROT_SINK_RESPONSE 9u          /**< handed out; payload: none */

/* ---- The start data: 6,473 bytes, one field after the other, no padding. Each constant is an
 * offset in bytes. */

#define OATCASTLE_START_LENGTH 6473

#define OATCASTLE_START_BSU 0               /**< 1 byte: 0x41 or 0x42 */
#define OATCASTLE_START_MODEL 1             /**< 11 bytes */
#define OATCASTLE_START_REVISION 12         /**< 4 bytes */
#define OATCASTLE_START_SERIAL 16           /**< 11 bytes */
#define OATCASTLE_START_MAC_BASE 27         /**< 6 bytes */
#define OATCASTLE_START_MAC_COUNT 33        /**< 2 bytes */
#define OATCASTLE_START_MAC_STRIDE 35       /**< 1 byte */
#define OATCASTLE_START_IMAGE_HASH 36       /**< 32 bytes */
#define OATCASTLE_START_IMAGE_ID_LENGTH 68  /**< 1 byte: 0 to 64 */
#define OATCASTLE_START_IMAGE_ID 69         /**< 64 bytes, of which the first IMAGE_ID_LENGTH
                                                 count */
#define OATCASTLE_START_ITEMS 133           /**< 64 inventory items of OATCASTLE_ITEM_LENGTH bytes,
                                                 of which the first ITEM_COUNT count */
#define OATCASTLE_START_ITEM_COUNT 6469     /**< 4 bytes: 0 to 64 */

#define OATCASTLE_ITEM_LENGTH 99
#define OATCASTLE_ITEM_RESULT 0             /**< in an item; 1 byte: 0, 2 or 3, the result of its
                                                 inventory reply; data go out with 0 alone */
#define OATCASTLE_ITEM_NAME 1               /**< 32 bytes */
#define OATCASTLE_ITEM_TYPE 33              /**< 1 byte */
#define OATCASTLE_ITEM_DATA_LENGTH 34       /**< 1 byte: 0 to 64 */
#define OATCASTLE_ITEM_DATA 35              /**< 64 bytes, of which the first DATA_LENGTH count */

/* ==== The line layer: frames of messages. `state` is a reader's part, OATCASTLE_READER_LENGTH
 * bytes. */

/** Begins a fresh reader in a state of any contents, and leaves nothing of what the state's
 * published length held.
 * @return 0; 12: the state is too short. */
uint32_t oatcastle_line_start(uint8_t *state, oatcastle_length state_length);

/** What oatcastle_line_read answers. */
typedef struct oatcastle_line_read_answer {
    uint64_t used;      /**< how many bytes of the piece were read; hand in the rest with the
                             next call */
    uint64_t kind;      /**< OATCASTLE_MORE, OATCASTLE_EMPTY, OATCASTLE_MESSAGE or
                             OATCASTLE_FAILURE */
    uint64_t reason;    /**< a failure's reason, 1 to 4 */
    uint64_t version;   /**< a message's version */
    uint64_t sequence;  /**< a message's sequence; for a failure with reason 2 or 4 the sequence
                             that its frame has */
    uint64_t command;   /**< a message's command */
    uint64_t length;    /**< how many bytes of data a message has; oatcastle_line_data hands them
                             out */
} oatcastle_line_read_answer;
typedef char oatcastle_line_read_answer_has_7_numbers
    [sizeof(oatcastle_line_read_answer) == 56 ? 1 : -1];

/** Reads a piece of the received stream to its end, or up to and with its first 00.
 * @return 0; 12. */
uint32_t oatcastle_line_read(uint8_t *state, oatcastle_length state_length,
                             const uint8_t *piece, oatcastle_length piece_length,
                             oatcastle_line_read_answer *answer);

/** Copies to the room the data of the message that the last call of oatcastle_line_read handed out;
 * `length` is its answer's length. With another length, or where that call handed out none, it
 * copies the bytes that stand there, of older frames too: docs/STATE.md says which stay.
 * @return 0; 12; 9: length above 4,104; 8: the room is shorter than length. */
uint32_t oatcastle_line_data(const uint8_t *state, oatcastle_length state_length, uint64_t length,
                             uint8_t *room, oatcastle_length room_length);

/** What oatcastle_line_tail answers. */
typedef struct oatcastle_line_tail_answer {
    uint64_t longer;    /**< 1 if the tail is longer than the form of any message, else 0 */
    uint64_t length;    /**< how many bytes of it have come; 0 if longer */
} oatcastle_line_tail_answer;
typedef char oatcastle_line_tail_answer_has_2_numbers
    [sizeof(oatcastle_line_tail_answer) == 16 ? 1 : -1];

/** What has come of a frame since the last 00.
 * @return 0; 12. */
uint32_t oatcastle_line_tail(const uint8_t *state, oatcastle_length state_length,
                             oatcastle_line_tail_answer *answer);

/** What oatcastle_line_write answers. */
typedef struct oatcastle_line_write_answer {
    uint64_t length;    /**< the frame's length */
} oatcastle_line_write_answer;
typedef char oatcastle_line_write_answer_has_1_number
    [sizeof(oatcastle_line_write_answer) == 8 ? 1 : -1];

/** Writes the frame of a message whose data are head and then rest, with its 00, to the start of
 * out; bytes of out past it stay.
 * @return 0; 9: head and rest have more than 4,104 bytes together; 8: out is too short. */
uint32_t oatcastle_line_write(uint32_t version, uint64_t sequence, uint8_t command,
                              const uint8_t *head, oatcastle_length head_length,
                              const uint8_t *rest, oatcastle_length rest_length,
                              uint8_t *out, oatcastle_length out_length,
                              oatcastle_line_write_answer *answer);

/** What oatcastle_line_checksum answers. */
typedef struct oatcastle_line_checksum_answer {
    uint64_t checksum;  /**< the checksum, 0 to 65,278 */
} oatcastle_line_checksum_answer;
typedef char oatcastle_line_checksum_answer_has_1_number
    [sizeof(oatcastle_line_checksum_answer) == 8 ? 1 : -1];

/** The checksum of a message's body.
 * @return 0. */
uint32_t oatcastle_line_checksum(const uint8_t *body, oatcastle_length body_length,
                                 oatcastle_line_checksum_answer *answer);

/* ==== The supervisor: five lent parts. */

/** Begins the supervisor in parts of any contents, with start data of OATCASTLE_START_LENGTH bytes,
 * and leaves nothing of what their published lengths held. A further start begins anew, and forgets
 * also whether a 00 is owed on the wire: where bytes were taken before it and the last of them was
 * not 00, the caller sends one 00 itself ahead of what it takes after it, or the other side reads
 * both as one frame.
 * @return 0; 12: a part is too short; 11: over 64 items, an item's data over 64 bytes, a result not
 * 0, 2 or 3, an image ID over 64 bytes, or a BSU that is not 0x41 or 0x42. */
uint32_t oatcastle_start(const uint8_t data[OATCASTLE_START_LENGTH],
                         uint8_t *reader, oatcastle_length reader_length,
                         uint8_t *outbox, oatcastle_length outbox_length,
                         uint8_t *factory, oatcastle_length factory_length,
                         uint8_t *settings, oatcastle_length settings_length,
                         uint8_t *registers, oatcastle_length registers_length);

/** Reads a whole piece of the received stream and carries out each request in it, of version 1 or
 * 2. An image block request is answered from the image lent with the call that brings its frame's
 * 00, if it names the hash of the start data. Each frame that is not empty replaces the pending
 * reply, so take the replies (oatcastle_take) as often as the other side waits for them, or use
 * oatcastle_step.
 * @return 0; 12. */
uint32_t oatcastle_receive(const uint8_t *image, oatcastle_length image_length,
                           const uint8_t *piece, oatcastle_length piece_length,
                           uint8_t *reader, oatcastle_length reader_length,
                           uint8_t *outbox, oatcastle_length outbox_length,
                           const uint8_t *factory, oatcastle_length factory_length,
                           uint8_t *settings, oatcastle_length settings_length,
                           uint8_t *registers, oatcastle_length registers_length);

/** What oatcastle_collect answers. */
typedef struct oatcastle_collect_answer {
    uint64_t taken;     /**< how many bytes of the piece were taken: all those ahead of its first
                             00; hand the rest to oatcastle_receive */
} oatcastle_collect_answer;
typedef char oatcastle_collect_answer_has_1_number[sizeof(oatcastle_collect_answer) == 8 ? 1 : -1];

/** Takes the piece's bytes ahead of its first 00 into the reader's part, which is all that it looks
 * at. Where neither call is refused, receiving the rest of the piece then is receiving the whole
 * piece. Where the piece has no 00, nothing is left to receive.
 * A UART's driver collects what comes, in pieces of any length, down to single bytes. At a 00 it
 * calls oatcastle_receive, oatcastle_step or their counted forms with the rest of the piece.
 * @return 0; 12: of the reader's part alone. */
uint32_t oatcastle_collect(uint8_t *reader, oatcastle_length reader_length,
                           const uint8_t *piece, oatcastle_length piece_length,
                           oatcastle_collect_answer *answer);

/** What oatcastle_step and oatcastle_step_counted answer. */
typedef struct oatcastle_step_answer {
    uint64_t used;      /**< how many bytes of the piece were read; hand in the rest with the
                             next call */
    uint64_t kind;      /**< OATCASTLE_MORE, OATCASTLE_EMPTY, OATCASTLE_MESSAGE (a request) or
                             OATCASTLE_FAILURE */
    uint64_t reason;    /**< a failure's reason, 1 to 7; the reply that tells it is pending */
    uint64_t command;   /**< the command of the request that was carried out */
    uint64_t key;       /**< of a key set (0x10): its key, whether or not there is such a key */
    uint64_t result;    /**< of a key set: the byte of its reply, OATCASTLE_SET_STORED to
                             OATCASTLE_SET_LAST_EDITION */
} oatcastle_step_answer;
typedef char oatcastle_step_answer_has_6_numbers[sizeof(oatcastle_step_answer) == 48 ? 1 : -1];

/** The same up to and with the piece's first 00, or to its end; it tells what the request was, so
 * that the firmware can act on a setting that was changed.
 * @return 0; 12. */
uint32_t oatcastle_step(const uint8_t *image, oatcastle_length image_length,
                        const uint8_t *piece, oatcastle_length piece_length,
                        uint8_t *reader, oatcastle_length reader_length,
                        uint8_t *outbox, oatcastle_length outbox_length,
                        const uint8_t *factory, oatcastle_length factory_length,
                        uint8_t *settings, oatcastle_length settings_length,
                        uint8_t *registers, oatcastle_length registers_length,
                        oatcastle_step_answer *answer);

/** A counter block: how many frames of each kind ended since it was cleared. A counter stays at
 * 4,294,967,295. Any contents are allowed. */
typedef struct oatcastle_counters {
    uint32_t good;      /**< requests that passed every test */
    uint32_t empty;     /**< empty frames: each 00 behind another, or behind a start */
    uint32_t reason1;   /**< failures, by the reason's number: OATCASTLE_REASON_FORM to
                             OATCASTLE_REASON_DATA */
    uint32_t reason2;
    uint32_t reason3;
    uint32_t reason4;
    uint32_t reason5;
    uint32_t reason6;
    uint32_t reason7;
} oatcastle_counters;
typedef char oatcastle_counters_have_36_bytes[sizeof(oatcastle_counters) == 36 ? 1 : -1];

/** Makes every counter of a block 0.
 * @return 0. */
uint32_t oatcastle_clear_counters(oatcastle_counters *counters);

/** The same as oatcastle_receive, and every frame whose 00 the piece brings is counted in the
 * block. A refused call counts nothing. What a start drops of a frame is counted nowhere, and
 * neither are frames that oatcastle_receive or oatcastle_step read. The block is lent as any other
 * memory: it overlaps nothing else that is lent.
 * @return 0; 12. */
uint32_t oatcastle_receive_counted(oatcastle_counters *counters,
                                   const uint8_t *image, oatcastle_length image_length,
                                   const uint8_t *piece, oatcastle_length piece_length,
                                   uint8_t *reader, oatcastle_length reader_length,
                                   uint8_t *outbox, oatcastle_length outbox_length,
                                   const uint8_t *factory, oatcastle_length factory_length,
                                   uint8_t *settings, oatcastle_length settings_length,
                                   uint8_t *registers, oatcastle_length registers_length);

/** The same as oatcastle_step, and the frame that it ended is counted in the block. A refused call
 * counts nothing.
 * @return 0; 12. */
uint32_t oatcastle_step_counted(oatcastle_counters *counters,
                                const uint8_t *image, oatcastle_length image_length,
                                const uint8_t *piece, oatcastle_length piece_length,
                                uint8_t *reader, oatcastle_length reader_length,
                                uint8_t *outbox, oatcastle_length outbox_length,
                                const uint8_t *factory, oatcastle_length factory_length,
                                uint8_t *settings, oatcastle_length settings_length,
                                uint8_t *registers, oatcastle_length registers_length,
                                oatcastle_step_answer *answer);

/** What oatcastle_take answers. */
typedef struct oatcastle_take_answer {
    uint64_t moved;     /**< how many bytes were moved; fewer than the room: nothing more is
                             pending */
} oatcastle_take_answer;
typedef char oatcastle_take_answer_has_1_number[sizeof(oatcastle_take_answer) == 8 ? 1 : -1];

/** Takes bytes to send: moves the smaller of the room and the bytes pending to the start of the
 * room. A room of OATCASTLE_MOST_PENDING takes all at once; none is too short.
 * @return 0; 12. */
uint32_t oatcastle_take(uint8_t *outbox, oatcastle_length outbox_length,
                        uint8_t *room, oatcastle_length room_length,
                        oatcastle_take_answer *answer);

/** Posts an alert: an action from 1 to 255 and at most 256 bytes of text.
 * @return 0; 12; 13: action 0; 9: more than 256 bytes; 10: 8 alerts wait. */
uint32_t oatcastle_post(uint8_t *registers, oatcastle_length registers_length, uint8_t action,
                        const uint8_t *text, oatcastle_length text_length);

/** Sets the startup options.
 * @return 0; 12; 13: a bit above 8 is set. */
uint32_t oatcastle_set_options(uint8_t *registers, oatcastle_length registers_length,
                               uint64_t options);

/** What oatcastle_lookup answers. */
typedef struct oatcastle_lookup_answer {
    uint64_t result;    /**< OATCASTLE_LOOKUP_VALUE to OATCASTLE_LOOKUP_SET_ONLY */
    uint64_t length;    /**< how many bytes the value has; 0 unless it was found */
} oatcastle_lookup_answer;
typedef char oatcastle_lookup_answer_has_2_numbers[sizeof(oatcastle_lookup_answer) == 16 ? 1 : -1];

/** Looks a key up and copies its value to the room. Key 0 is "pong", 1 the image ID (at most 64
 * bytes), 2 the inventory's count and version (8 bytes), 3 (at most 256 bytes), 4 (4,096) and 5,
 * the withdrawn-key list (4,096), are what was stored. Key 6, the wireless passphrase, is never
 * handed out.
 * @return 0; 12; 8: the room is shorter than the value. */
uint32_t oatcastle_lookup(const uint8_t *factory, oatcastle_length factory_length,
                          const uint8_t *settings, oatcastle_length settings_length,
                          uint8_t key, uint16_t maxresponse,
                          uint8_t *room, oatcastle_length room_length,
                          oatcastle_lookup_answer *answer);

/** What oatcastle_edition answers. */
typedef struct oatcastle_edition_answer {
    uint64_t result;    /**< 0: the key has a value; 1: no such key; 2: the key has no value; 4:
                             key 6, with or without a value */
    uint64_t edition;   /**< the edition; 0 unless the key has a value */
} oatcastle_edition_answer;
typedef char oatcastle_edition_answer_has_2_numbers
    [sizeof(oatcastle_edition_answer) == 16 ? 1 : -1];

/** The edition of a key: how often it was set since the start, or the edition that was restored and
 * the sets since then; 0 for keys 0 to 2, which cannot be set.
 * @return 0; 12. */
uint32_t oatcastle_edition(const uint8_t *factory, oatcastle_length factory_length,
                           const uint8_t *settings, oatcastle_length settings_length, uint8_t key,
                           oatcastle_edition_answer *answer);

/** What oatcastle_save answers. */
typedef struct oatcastle_save_answer {
    uint64_t length;    /**< the image's length, at most OATCASTLE_LONGEST_IMAGE */
} oatcastle_save_answer;
typedef char oatcastle_save_answer_has_1_number[sizeof(oatcastle_save_answer) == 8 ? 1 : -1];

/** Saves the settings: writes those of keys 3, 4 and 5 that have a value, with their editions, as
 * an image to the start of out; bytes of out past it stay. Keep the image's length beside it:
 * oatcastle_restore takes exactly the image, and refuses as 35 bytes behind its end mark.
 * @return 0; 12; 8: out is shorter than the image. */
uint32_t oatcastle_save(const uint8_t *settings, oatcastle_length settings_length,
                        uint8_t *out, oatcastle_length out_length,
                        oatcastle_save_answer *answer);

/** What oatcastle_restore answers with 30 to 35; with 0 and 12 it stays as it was. */
typedef struct oatcastle_restore_answer {
    uint64_t offset;    /**< where the first fault is: the offset of the field at fault in the
                             image */
} oatcastle_restore_answer;
typedef char oatcastle_restore_answer_has_1_number[sizeof(oatcastle_restore_answer) == 8 ? 1 : -1];

/** Restores the settings of keys 3, 4 and 5 from an image; call it behind a start, which forgets
 * every setting. The whole image is checked before anything is written. A good one replaces all
 * three, values and editions; one that the image lacks has no value and edition 0. Nothing else
 * changes.
 * @return 0; 12; OATCASTLE_RESTORE_BAD_MARK to OATCASTLE_RESTORE_BYTES_AFTER: the first fault of
 * the image. */
uint32_t oatcastle_restore(uint8_t *settings, oatcastle_length settings_length,
                           const uint8_t *image, oatcastle_length image_length,
                           oatcastle_restore_answer *answer);

/** What oatcastle_signal answers. */
typedef struct oatcastle_signal_answer {
    uint64_t asserted;  /**< 1 if the line signal is asserted, which it is while the status is
                             not 0; else 0 */
} oatcastle_signal_answer;
typedef char oatcastle_signal_answer_has_1_number[sizeof(oatcastle_signal_answer) == 8 ? 1 : -1];

/** The line signal.
 * @return 0; 12. */
uint32_t oatcastle_signal(const uint8_t *registers, oatcastle_length registers_length,
                          oatcastle_signal_answer *answer);

/** What oatcastle_flags answers. */
typedef struct oatcastle_flags_answer {
    uint64_t reboot;        /**< 1 if a reboot was asked for, else 0 */
    uint64_t power_off;     /**< 1 if power off was asked for, else 0 */
} oatcastle_flags_answer;
typedef char oatcastle_flags_answer_has_2_numbers[sizeof(oatcastle_flags_answer) == 16 ? 1 : -1];

/** The two flags.
 * @return 0; 12. */
uint32_t oatcastle_flags(const uint8_t *registers, oatcastle_length registers_length,
                         oatcastle_flags_answer *answer);

/** What oatcastle_boot_failure_record and oatcastle_panic_record answer. */
typedef struct oatcastle_record_answer {
    uint64_t present;   /**< 1 if there is a record, else 0; then the others are 0 too */
    uint64_t code;      /**< a boot failure's reason, or a panic's cause */
    uint64_t length;    /**< how many bytes came behind it */
    uint64_t kept;      /**< how many of them are kept: the first 512 at most */
} oatcastle_record_answer;
typedef char oatcastle_record_answer_has_4_numbers[sizeof(oatcastle_record_answer) == 32 ? 1 : -1];

/** Reads the record of the last boot failure; its kept bytes are copied to the room.
 * @return 0; 12; 8: the room is shorter than the kept bytes. */
uint32_t oatcastle_boot_failure_record(const uint8_t *registers, oatcastle_length registers_length,
                                       uint8_t *room, oatcastle_length room_length,
                                       oatcastle_record_answer *answer);

/** The same for the main processor's last panic.
 * @return as oatcastle_boot_failure_record. */
uint32_t oatcastle_panic_record(const uint8_t *registers, oatcastle_length registers_length,
                                uint8_t *room, oatcastle_length room_length,
                                oatcastle_record_answer *answer);

/* ==== The main processor's end: a reader's part, OATCASTLE_READER_LENGTH bytes, and a requester's,
 * OATCASTLE_REQUESTER_LENGTH.
 *
 * It numbers requests of version 1 from 1 on, keeps the one outstanding, tells by each received
 * frame whether it is the answer, and serves a recovery. These calls put bytes to `out`; to carry
 * them to the wire, and to tell the time, is the caller's. A caller must know:
 *   - A request is sent again, the same bytes under the same number, at each ground: a frame that
 *     fails, a version that is not 1, a sequence without the top bit, a reply 0x02 under the newest
 *     number or all ones, a frame's 4,141st byte without a 00, and in a recovery any answer to its
 *     0x08 but 0x06 with 16 bytes. Nothing is sent again for lack of an answer: a frame that is
 *     wholly lost is asked for by oatcastle_requester_interrupt.
 *   - In a recovery an interrupt adds nothing and a request gets 17. A frame that is wholly lost in
 *     a recovery leaves it waiting, and a request that the supervisor cannot decode is sent again
 *     for ever: only a start gives up. oatcastle_requester_state tells which it is.
 *   - After a start the numbers begin at 1 again. Bytes still on their way from before it must be
 *     thrown away, or a late reply may have a number in use. If a frame may have gone out in part,
 *     one 00 ahead of the start ends it; its reply is thrown away too.
 *   - An interrupt cuts the outstanding request off and puts it out anew, under a new number, after
 *     the recovery. The supervisor may carry it out twice; a caller's own 0x0a that is cut off can
 *     lose the alert that its first answer had.
 *   - A frame whose transmission has begun is finished, or ended by one 00, before the bytes of a
 *     newer one. */

/** Begins the main processor's end in parts of any contents: no number used, nothing outstanding.
 * Within their published lengths nothing is left of what the parts held.
 * @return 0; 12: a part is too short. */
uint32_t oatcastle_requester_start(uint8_t *reader, oatcastle_length reader_length,
                                   uint8_t *requester, oatcastle_length requester_length);

/** What oatcastle_requester_request answers. */
typedef struct oatcastle_requester_request_answer {
    uint64_t length;    /**< the frame's length */
} oatcastle_requester_request_answer;
typedef char oatcastle_requester_request_answer_has_1_number
    [sizeof(oatcastle_requester_request_answer) == 8 ? 1 : -1];

/** Puts a request's frame to the start of out under the next number; bytes of out past it stay. It
 * stays outstanding until its answer comes, but for the commands 0x01, 0x02 and 0x06, which never
 * do. A refused request takes no number.
 * @return 0; 12; 9: more than 4,104 bytes of data; 17: one is outstanding, or a recovery is under
 * way; 14: no number is left; 8: out is too short. */
uint32_t oatcastle_requester_request(uint8_t *requester, oatcastle_length requester_length,
                                     uint8_t command,
                                     const uint8_t *data, oatcastle_length data_length,
                                     uint8_t *out, oatcastle_length out_length,
                                     oatcastle_requester_request_answer *answer);

/** Begins a recovery, for the line signal or for an answer that does not come: the status is
 * fetched (0x08), its bits are served (0x09 for bit 0, 0x0a for bit 1) and fetched anew until
 * neither is set, then the request that was cut off goes out anew. oatcastle_requester_send puts
 * each frame out. In a recovery it adds nothing.
 * @return 0; 12; 14: no number is left, and none is under way. */
uint32_t oatcastle_requester_interrupt(uint8_t *requester, oatcastle_length requester_length);

/** What oatcastle_requester_send answers. */
typedef struct oatcastle_requester_send_answer {
    uint64_t length;    /**< the frame's length; 0: nothing is to go out */
} oatcastle_requester_send_answer;
typedef char oatcastle_requester_send_answer_has_1_number
    [sizeof(oatcastle_requester_send_answer) == 8 ? 1 : -1];

/** Puts the outstanding frame to the start of out where it is to go out: call it after an
 * interrupt, and after a receive that answers `unsent` 1.
 * @return 0; 12; 8: out is too short; the frame is still to go out. */
uint32_t oatcastle_requester_send(uint8_t *requester, oatcastle_length requester_length,
                                  uint8_t *out, oatcastle_length out_length,
                                  oatcastle_requester_send_answer *answer);

/** What oatcastle_requester_receive answers. Sequence, command and length are those of an answer or
 * an alert; status, options and set_bits those of a status. */
typedef struct oatcastle_requester_receive_answer {
    uint64_t used;      /**< how many bytes of the piece were read; hand in the rest with the
                             next call */
    uint64_t kind;      /**< OATCASTLE_NOTHING, OATCASTLE_ANSWER, OATCASTLE_STATUS or
                             OATCASTLE_ALERT */
    uint64_t ended;     /**< 1 if no number was left for a recovery's next step: it is over, and
                             the request that was cut off is forgotten (14); else 0 */
    uint64_t unsent;    /**< 1 if a frame is to go out by oatcastle_requester_send, else 0 */
    uint64_t sequence;  /**< a reply's sequence */
    uint64_t command;   /**< a reply's command */
    uint64_t length;    /**< how many bytes of data a reply has, which oatcastle_line_data hands
                             out of the reader's part until the next receive */
    uint64_t status;    /**< the status that was read */
    uint64_t options;   /**< the startup options that were read */
    uint64_t set_bits;  /**< how many of the status' 64 bits are set */
} oatcastle_requester_receive_answer;
typedef char oatcastle_requester_receive_answer_has_10_numbers
    [sizeof(oatcastle_requester_receive_answer) == 80 ? 1 : -1];

/** Reads a piece of the received stream up to and with its first 00 or a frame's 4,141st byte, or
 * to its end.
 * @return 0; 12. */
uint32_t oatcastle_requester_receive(const uint8_t *piece, oatcastle_length piece_length,
                                     uint8_t *reader, oatcastle_length reader_length,
                                     uint8_t *requester, oatcastle_length requester_length,
                                     oatcastle_requester_receive_answer *answer);

/** What oatcastle_requester_state answers. */
typedef struct oatcastle_requester_state_answer {
    uint64_t state;     /**< OATCASTLE_IDLE to OATCASTLE_RECOVERY_ALERT */
    uint64_t command;   /**< the command of the one outstanding; 0 where idle */
    uint64_t number;    /**< its sequence; 0 where idle */
    uint64_t unsent;    /**< 1 if its frame is to go out by oatcastle_requester_send, else 0 */
    uint64_t original;  /**< 1 if in a recovery a request that was cut off goes out anew behind
                             it, else 0 */
} oatcastle_requester_state_answer;
typedef char oatcastle_requester_state_answer_has_5_numbers
    [sizeof(oatcastle_requester_state_answer) == 40 ? 1 : -1];

/** What is outstanding.
 * @return 0; 12. */
uint32_t oatcastle_requester_state(const uint8_t *requester, oatcastle_length requester_length,
                                   oatcastle_requester_state_answer *answer);

/* ==== The address plan: base, count and stride. No state. */

/** Copies the first eight addresses to the room, one row of OATCASTLE_ADDRESS_LENGTH bytes after
 * the other: row i is base plus i times stride, the most significant byte first. Rows past the
 * count are zero; all are where oatcastle_plan answers 16.
 * @return 0; 8: the room is shorter than OATCASTLE_ADDRESSES_LENGTH. */
uint32_t oatcastle_addresses(const uint8_t base[OATCASTLE_ADDRESS_LENGTH], uint16_t count,
                             uint8_t stride, uint8_t *room, oatcastle_length room_length);

/** Whether every counted address, base plus (count - 1) times stride the last of them, is at most
 * ff:ff:ff:ff:ff:ff; a plan that counts none always fits.
 * @return 0; 16: the last counted address passes that. */
uint32_t oatcastle_plan(const uint8_t base[OATCASTLE_ADDRESS_LENGTH], uint16_t count,
                        uint8_t stride);

/* ==== The probe list: an array of records, lent by the caller and brought up to date in place.
 * There is no other state. */

/** A part's address on the bus and the result of its probe: two bytes, no padding. */
typedef struct oatcastle_probe {
    uint8_t address;
    uint8_t result;
} oatcastle_probe;
typedef char oatcastle_probe_has_2_bytes[sizeof(oatcastle_probe) == 2 ? 1 : -1];

/** For each k, gives the part at index indices[k] of the list the result results[k], 0, 2 or 3; a
 * part named twice keeps the later one. All other results, and all addresses, stay. No changes
 * (both lists of them empty) are done. An array is lent as a pointer to its first element and the
 * number of its elements; the pointer is aligned as its type is and not NULL, even where the number
 * is 0, and the list overlaps neither of the other two.
 * @return 0; 15: an index at or past list_count, another result, or another number of results
 * than of indices; the whole list stays then. */
uint32_t oatcastle_probe_update(oatcastle_probe *list, oatcastle_length list_count,
                                const oatcastle_length *indices, oatcastle_length indices_count,
                                const uint8_t *results, oatcastle_length results_length);

/* ==== The root-of-trust link: messages of version 1 over SPI. There is no state. */

/** What oatcastle_rot_read answers. */
typedef struct oatcastle_rot_read_answer {
    uint64_t kind;      /**< OATCASTLE_ROT_NOTHING, OATCASTLE_ROT_MESSAGE or OATCASTLE_ROT_ECHOED */
    uint64_t type;      /**< a message's type, 1 to 9 but not 2 */
    uint64_t length;    /**< how many bytes a message's payload has, or the echo response in out */
} oatcastle_rot_read_answer;
typedef char oatcastle_rot_read_answer_has_3_numbers
    [sizeof(oatcastle_rot_read_answer) == 24 ? 1 : -1];

/** Reads what came: one message, from the first byte on; bytes past its payload are ignored. An
 * echo request is answered: the echo response goes to the start of out. Any other message is handed
 * out, and out stays. The payload lies in the input, behind OATCASTLE_ROT_HEADER_LENGTH bytes.
 * @return 0; else the first of 20, 21, 22, 23, 24, 25, 26, 8: out is too short for the echo
 * response. */
uint32_t oatcastle_rot_read(const uint8_t *input, oatcastle_length input_length,
                            uint8_t *out, oatcastle_length out_length,
                            oatcastle_rot_read_answer *answer);

/** Copies to the room the payload of the message that oatcastle_rot_read hands out; nothing where
 * it hands out none.
 * @return 0; else the first of 20, 21, 22, 23, 24, 25, 26, 8: oatcastle_rot_read refuses the input
 * so, or the room is too short. */
uint32_t oatcastle_rot_payload(const uint8_t *input, oatcastle_length input_length,
                               uint8_t *room, oatcastle_length room_length);

/** What oatcastle_rot_write answers. */
typedef struct oatcastle_rot_write_answer {
    uint64_t length;    /**< the message's length */
} oatcastle_rot_write_answer;
typedef char oatcastle_rot_write_answer_has_1_number
    [sizeof(oatcastle_rot_write_answer) == 8 ? 1 : -1];

/** Writes a message to the start of out; bytes of out past it stay.
 * @return 0; else the first of 23: more than 512 bytes of payload; 26: a type that is not 1 to 9;
 * 8: out is too short. */
uint32_t oatcastle_rot_write(uint8_t kind, const uint8_t *payload, oatcastle_length payload_length,
                             uint8_t *out, oatcastle_length out_length,
                             oatcastle_rot_write_answer *answer);

/** What oatcastle_rot_crc answers. */
typedef struct oatcastle_rot_crc_answer {
    uint64_t crc;       /**< the CRC, 0 to 4,294,967,295 */
} oatcastle_rot_crc_answer;
typedef char oatcastle_rot_crc_answer_has_1_number[sizeof(oatcastle_rot_crc_answer) == 8 ? 1 : -1];

/** The CRC of some bytes: polynomial 04c11db7, top bit first, start 0, complemented at the end.
 * @return 0. */
uint32_t oatcastle_rot_crc(const uint8_t *bytes, oatcastle_length bytes_length,
                           oatcastle_rot_crc_answer *answer);

/* ==== Stack and instructions of each call.
 *
 * Stack in bytes, at most, by clang's frames along the longest way of calls: x86-64 with -O3,
 * Cortex-M4, Cortex-M0 and RV32IMC with -Os. Add the caller's arguments, what memcpy, memmove and
 * memset use, and the interrupts. Instructions on a Cortex-M4 by qemu's count, with memory
 * functions that go byte by byte. Nothing of this is proved; docs/FIRMWARE.md says how it is
 * measured.
 *
 * ---- Table by docs/firmware.py
 *                                x86-64     M4     M0   RV32  Instructions, M4          -Os     -O2
 * oatcastle_line_start              144      8      8     16                         12,453  12,454
 * oatcastle_line_read               408    544    580    464  no data                 1,578   1,255
 *                                                             4,104 bytes            94,308  82,874
 * oatcastle_line_data               160     16     40     16  no data                    60      59
 *                                                             4,104 bytes            16,479  16,479
 * oatcastle_line_tail               136      0     16      0                             31      31
 * oatcastle_line_write            4,616  4,776  4,812  4,672  no data                   810     789
 *                                                             4,104 bytes           103,069  99,056
 * oatcastle_line_checksum           200    296    300    288  no byte                    37      37
 *                                                             4,104 bytes            33,018  32,184
 * oatcastle_start                   208     40     48     48                         86,719  86,709
 * oatcastle_receive               5,224  5,256  5,316  5,120  a byte                    388     366
 *                                                             a status request        3,123   2,752
 *                                                             a set of 4,096 bytes  112,082 100,596
 *                                                             a set of key 6         17,214  16,673
 *                                                             no byte                   320     296
 *                                                             16 bytes                1,013     912
 *                                                             64 bytes                1,354   1,297
 *                                                             lookup of 4,096       105,363 100,883
 *                                                             full: no byte           1,063   1,048
 *                                                             full: 16 bytes          1,756   1,663
 *                                                             full: 64 bytes          2,098   2,048
 *                                                             full: a byte            1,129   1,114
 *                                                             full: status request    3,860   3,498
 *                                                             full: lookup of 4,096 106,108 101,635
 *                                                             full: set of 4,096    112,943 101,424
 * oatcastle_collect                 216    208    240    128  a byte                     89      89
 *                                                             16 bytes                  183     194
 *                                                             64 bytes                  483     531
 * oatcastle_step                  5,208  5,400  5,428  5,200  a byte                    908     803
 *                                                             a status request        3,161   2,745
 *                                                             a set of 4,096 bytes  112,126 100,596
 *                                                             a set of key 6         17,259  16,673
 * oatcastle_clear_counters          136      8      8     16                            124     124
 * oatcastle_receive_counted       5,240  5,328  5,372  5,200  a byte                  1,489     841
 *                                                             a status request        3,746   2,784
 *                                                             a set of 4,096 bytes  112,708 100,633
 *                                                             a set of key 6         17,841  16,710
 *                                                             16 bytes                1,635     943
 *                                                             64 bytes                1,977   1,329
 *                                                             full: 16 bytes          2,378   1,693
 *                                                             full: 64 bytes          2,720   2,079
 *                                                             full: a byte            2,230   1,591
 * oatcastle_step_counted          5,208  5,472  5,516  5,264  a byte                  1,358     816
 *                                                             a status request        3,617   2,760
 *                                                             a set of 4,096 bytes  112,582 100,611
 *                                                             a set of key 6         17,715  16,689
 * oatcastle_take                    192     48     64     48  37 bytes                  253     253
 *                                                             an image block         16,614  16,615
 * oatcastle_post                    192     64    136     96  no text                   164     114
 *                                                             256 bytes               1,203   1,153
 * oatcastle_set_options             136     24     64     48                            114      94
 * oatcastle_lookup                  248    136    160    144  key 0                     423     301
 *                                                             4,096 bytes            16,844  16,739
 * oatcastle_edition                 200    128    136    128                            254     174
 * oatcastle_save                    360    384    420    368  no setting                181     181
 *                                                             8,483 bytes           102,751 101,031
 * oatcastle_restore                 344    344    388    352  no setting                186     186
 *                                                             8,483 bytes           102,833 101,114
 * oatcastle_signal                  136     40     80     64                            124      93
 * oatcastle_flags                   136     24     64     48                            124      98
 * oatcastle_boot_failure_record     184     88    160     80  none                      267     218
 *                                                             512 bytes               2,410   2,276
 * oatcastle_panic_record            184     88    160     80  none                      263     214
 *                                                             512 bytes               2,409   2,275
 * oatcastle_requester_start         160     16     16     16                         24,828  24,828
 * oatcastle_requester_request     4,568  4,800  4,884  4,736  no data                 1,048     868
 *                                                             4,104 bytes           119,723 115,557
 * oatcastle_requester_interrupt     136     80    184    128                            208      73
 * oatcastle_requester_send        4,616  4,888  4,964  4,832  no data                 1,011     813
 *                                                             4,104 bytes           103,260  99,075
 * oatcastle_requester_receive       504    600    652    544  37 bytes                2,372   1,812
 *                                                             4,104 bytes            94,694  83,061
 * oatcastle_requester_state         152     88    184    144                            214      72
 * oatcastle_addresses               184    152    248    160                            634     616
 * oatcastle_plan                    136      8     40     16                             24      23
 * oatcastle_probe_update            168     40     56      0  1 part                     73      73
 *                                                             64 parts                1,378   1,378
 * oatcastle_rot_read              1,328  1,216  1,264  1,216  no payload              8,008   7,912
 *                                                             512 bytes              15,968  15,871
 * oatcastle_rot_payload           1,296  1,144  1,184  1,168  512 bytes              15,923   8,983
 * oatcastle_rot_write             1,296  1,192  1,232  1,184  no payload              4,018   3,989
 *                                                             512 bytes               9,018   8,991
 * oatcastle_rot_crc               1,216  1,064  1,104  1,088  no byte                 3,873   3,873
 *                                                             512 bytes               6,828   6,828
 * ---- End of the table
 */

#ifdef __cplusplus
}
#endif

#endif
