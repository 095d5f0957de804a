/* The image of the settings in a file, which a power cut leaves as it was or as it was to be.
 * Assumes a file system that keeps what fsync was answered for, and whose rename is one step. */
#ifndef SETTINGS_FILE_H
#define SETTINGS_FILE_H

#include <stddef.h>
#include <stdint.h>

/* Replaces the file's contents. It is done for good when this returns; ends the program where it
 * cannot be done. */
void settings_write(const char *file, const uint8_t *image, size_t length);

/* Reads the file to the room: its length, or -1 where there is no file. A file that is longer than
 * the room has one byte more than an image may have, which a restore refuses. */
long settings_read(const char *file, uint8_t *room, size_t length);

#endif
