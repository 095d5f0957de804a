/* A serial port or a pty: raw bytes, and reads that do not wait. Assumes termios and poll. */
#ifndef DEVICE_H
#define DEVICE_H

#include <stddef.h>
#include <stdint.h>

/* Ends the program with what went wrong, and with errno's text. */
void fail(const char *what);

/* Ends the program where a call of the library was refused. */
void must(uint32_t refusal);

/* Opens a device at 115,200 baud; ends the program where it cannot. */
int device_open(const char *path);

/* Reads what is there, at most `length` bytes; 0 where nothing is. */
size_t device_read(int device, uint8_t *room, size_t length);

/* Writes all the bytes, and waits where the device is busy. */
void device_write(int device, const uint8_t *bytes, size_t length);

/* Writes a byte, or nothing where the device is busy. */
void device_hint(int device, uint8_t byte);

#endif
