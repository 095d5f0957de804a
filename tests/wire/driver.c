/* Makes the calls that tests/wire.py asks for on standard input, one after the other, and writes what each answers.
 * A call is its letter, a u64, a u32 and so many bytes. An answer is the result as u32, four u64, a u32 and so many bytes.
 * Assumes the static library of the crate `oatcastle`, and numbers in this machine's byte order. */
#include <stdio.h>
#include <string.h>

#include "oatcastle_parts.h"

#define MOST 16384

static oatcastle_supervisor parts;
static uint8_t image[MOST], given[MOST], out[MOST];
static uint32_t image_length, given_length, out_length;
static oatcastle_line_reader reader;
/* What the last call answered; the numbers are written. */
static union {
    uint64_t numbers[4];
    oatcastle_line_write_answer line_write;
    oatcastle_line_checksum_answer line_checksum;
    oatcastle_take_answer take;
    oatcastle_signal_answer signal;
    oatcastle_flags_answer flags;
    oatcastle_record_answer record;
    oatcastle_save_answer save;
    oatcastle_restore_answer restore;
    oatcastle_rot_read_answer rot_read;
    oatcastle_rot_write_answer rot_write;
    oatcastle_rot_crc_answer rot_crc;
} answer;

/* Keeps how many bytes of out a call that was carried out has written. */
static uint32_t wrote(uint32_t result, const uint64_t *length)
{
    out_length = result == OATCASTLE_DONE ? (uint32_t)*length : 0;
    return result;
}

/* The head of a message to write: version u32, sequence u64 and command u8; its data follow. */
static uint32_t write_line(void)
{
    uint32_t version;
    uint64_t sequence;
    memcpy(&version, given, sizeof version);
    memcpy(&sequence, given + 4, sizeof sequence);
    uint32_t result = oatcastle_line_write(version, sequence, given[12], given + 13, given_length - 13, given, 0,
                                           out, sizeof out, &answer.line_write);
    return wrote(result, &answer.line_write.length);
}

/* Reads one frame by a fresh line reader: the kind, reason, version and sequence; the command and the data go to out. */
static uint32_t read_line(void)
{
    oatcastle_line_read_answer read = {0};
    uint32_t result = oatcastle_line_reader_start(&reader);
    if (result == OATCASTLE_DONE)
        result = oatcastle_line_reader_read(&reader, given, given_length, &read);
    if (result == OATCASTLE_DONE && read.kind == OATCASTLE_MESSAGE) {
        out[0] = (uint8_t)read.command;
        result = oatcastle_line_reader_data(&reader, read.length, out + 1, sizeof out - 1);
        out_length = (uint32_t)read.length + 1;
    }
    memcpy(answer.numbers, (uint64_t[]){read.kind, read.reason, read.version, read.sequence}, sizeof answer.numbers);
    return result;
}

static uint32_t rot_read(void)
{
    uint32_t result = oatcastle_rot_read(given, given_length, out, sizeof out, &answer.rot_read);
    if (result == OATCASTLE_DONE && answer.rot_read.kind == OATCASTLE_ROT_MESSAGE)
        result = oatcastle_rot_payload(given, given_length, out, sizeof out);
    return wrote(result, &answer.rot_read.length);
}

static uint32_t call(char letter, uint64_t number)
{
    switch (letter) {
    case 's':
        return oatcastle_supervisor_start(&parts, given);
    case 'i':
        memcpy(image, given, image_length = given_length);
        return OATCASTLE_DONE;
    case 'f':
        return oatcastle_supervisor_receive(&parts, image, image_length, given, given_length);
    case 't':
        return wrote(oatcastle_supervisor_take(&parts, out, number < MOST ? number : MOST, &answer.take), &answer.take.moved);
    case 'p':
        return oatcastle_supervisor_post(&parts, (uint8_t)number, given, given_length);
    case 'o':
        return oatcastle_supervisor_set_options(&parts, number);
    case 'g':
        return oatcastle_supervisor_signal(&parts, &answer.signal);
    case 'x':
        return oatcastle_supervisor_flags(&parts, &answer.flags);
    case 'b':
        return wrote(oatcastle_supervisor_boot_failure_record(&parts, out, sizeof out, &answer.record), &answer.record.kept);
    case 'n':
        return wrote(oatcastle_supervisor_panic_record(&parts, out, sizeof out, &answer.record), &answer.record.kept);
    case 'S':
        return wrote(oatcastle_supervisor_save(&parts, out, sizeof out, &answer.save), &answer.save.length);
    case 'R':
        return oatcastle_supervisor_restore(&parts, given, given_length, &answer.restore);
    case 'W':
        return write_line();
    case 'L':
        return read_line();
    case 'C':
        return oatcastle_line_checksum(given, given_length, &answer.line_checksum);
    case 'r':
        return rot_read();
    case 'w':
        return wrote(oatcastle_rot_write((uint8_t)number, given, given_length, out, sizeof out, &answer.rot_write), &answer.rot_write.length);
    default:
        return oatcastle_rot_crc(given, given_length, &answer.rot_crc);
    }
}

int main(void)
{
    int letter;
    while ((letter = getchar()) != EOF) {
        uint64_t number;
        if (fread(&number, sizeof number, 1, stdin) != 1 || fread(&given_length, sizeof given_length, 1, stdin) != 1)
            return 1;
        if (given_length > MOST || fread(given, 1, given_length, stdin) != given_length)
            return 1;
        memset(&answer, 0, sizeof answer);
        out_length = 0;
        uint32_t result = call((char)letter, number);
        fwrite(&result, sizeof result, 1, stdout);
        fwrite(answer.numbers, sizeof *answer.numbers, 4, stdout);
        fwrite(&out_length, sizeof out_length, 1, stdout);
        fwrite(out, 1, out_length, stdout);
        fflush(stdout);
    }
    return 0;
}
