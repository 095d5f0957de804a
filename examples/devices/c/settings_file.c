/* The image of the settings in a file, which a power cut leaves as it was or as it was to be.
 * Assumes POSIX files: fsync of a file keeps its contents, fsync of its folder a rename. */
#define _DEFAULT_SOURCE
#include "settings_file.h"

#include <errno.h>
#include <fcntl.h>
#include <libgen.h>
#include <stdio.h>
#include <unistd.h>

#include "device.h"

#define LONGEST_PATH 4096

/* A path with something behind it. */
static void path_with(char *room, const char *path, const char *behind)
{
    if (snprintf(room, LONGEST_PATH, "%s%s", path, behind) >= LONGEST_PATH) {
        errno = ENAMETOOLONG;
        fail(path);
    }
}

/* Writes a whole file, and waits until the disk has it. */
static void write_synced(const char *path, const uint8_t *bytes, size_t length)
{
    int file = open(path, O_WRONLY | O_CREAT | O_TRUNC, 0600);

    if (file < 0)
        fail(path);
    while (length > 0) {
        ssize_t put = write(file, bytes, length);
        if (put < 0 && errno != EINTR)
            fail(path);
        bytes += put < 0 ? 0 : put;
        length -= put < 0 ? 0 : (size_t)put;
    }
    if (fsync(file) != 0)
        fail(path);
    if (close(file) != 0)
        fail(path);
}

/* Waits until the disk has the names of the folder that a path lies in. */
static void sync_folder(const char *path)
{
    char room[LONGEST_PATH];
    int folder;

    path_with(room, path, "");
    folder = open(dirname(room), O_RDONLY | O_DIRECTORY);
    if (folder < 0)
        fail(path);
    if (fsync(folder) != 0)
        fail(path);
    close(folder);
}

/* The new contents go to a file beside, which then takes the name. */
void settings_write(const char *file, const uint8_t *image, size_t length)
{
    char beside[LONGEST_PATH];

    path_with(beside, file, ".new");
    write_synced(beside, image, length);
    if (rename(beside, file) != 0)
        fail(file);
    sync_folder(file);
}

long settings_read(const char *file, uint8_t *room, size_t length)
{
    int from = open(file, O_RDONLY);
    size_t held = 0;
    ssize_t got = 1;

    if (from < 0 && errno == ENOENT)
        return -1;
    if (from < 0)
        fail(file);
    while (got != 0 && held < length) {
        got = read(from, room + held, length - held);
        if (got < 0 && errno != EINTR)
            fail(file);
        held += got < 0 ? 0 : (size_t)got;
    }
    close(from);
    return (long)held;
}
