/* A serial port or a pty: raw bytes, and reads that do not wait. Assumes termios and poll, and that
 * a device which takes no byte for WRITE_MS is broken. */
#define _DEFAULT_SOURCE
#include "device.h"

#include <errno.h>
#include <fcntl.h>
#include <poll.h>
#include <stdio.h>
#include <stdlib.h>
#include <string.h>
#include <termios.h>
#include <unistd.h>

#include "oatcastle.h"

#define WRITE_MS 5000

void fail(const char *what)
{
    fprintf(stderr, "%s: %s\n", what, strerror(errno));
    exit(1);
}

void must(uint32_t refusal)
{
    if (refusal == OATCASTLE_DONE)
        return;
    fprintf(stderr, "refused as %u: %s\n", (unsigned)refusal, oatcastle_refusal_text(refusal));
    exit(1);
}

int device_open(const char *path)
{
    struct termios form;
    int device = open(path, O_RDWR | O_NOCTTY | O_NONBLOCK);

    if (device < 0 || tcgetattr(device, &form) != 0)
        fail(path);
    cfmakeraw(&form);
    form.c_cflag |= CLOCAL;
    if (cfsetspeed(&form, B115200) != 0 || tcsetattr(device, TCSANOW, &form) != 0)
        fail(path);
    return device;
}

size_t device_read(int device, uint8_t *room, size_t length)
{
    ssize_t got = read(device, room, length);

    if (got < 0 && errno != EAGAIN && errno != EINTR)
        fail("a device cannot be read");
    return got < 0 ? 0 : (size_t)got;
}

void device_write(int device, const uint8_t *bytes, size_t length)
{
    struct pollfd room = {.fd = device, .events = POLLOUT};

    while (length > 0) {
        ssize_t put = write(device, bytes, length);
        if (put > 0) {
            bytes += put;
            length -= (size_t)put;
        } else if (errno != EAGAIN && errno != EINTR) {
            fail("a device cannot be written");
        } else if (poll(&room, 1, WRITE_MS) == 0) {
            errno = ETIMEDOUT;
            fail("a device takes no bytes");
        }
    }
}

void device_hint(int device, uint8_t byte)
{
    if (write(device, &byte, 1) < 0 && errno != EAGAIN && errno != EINTR)
        fail("a device cannot be written");
}
