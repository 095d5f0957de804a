/* Makes each call that opens, writes, syncs or renames a file, and writes it as a line to the file
 * LOG_CALLS, behind the process; for LD_PRELOAD. Assumes glibc on Linux with 64-bit files, and calls
 * that are made one at a time. */
#define _GNU_SOURCE
#include <dlfcn.h>
#include <fcntl.h>
#include <stdarg.h>
#include <stdio.h>
#include <stdlib.h>
#include <sys/syscall.h>
#include <unistd.h>

#define REAL(type, name, ...) ((type (*)(__VA_ARGS__))dlsym(RTLD_NEXT, name))

static int to = -1;

__attribute__((constructor)) static void begin(void)
{
    to = (int)syscall(SYS_openat, AT_FDCWD, getenv("LOG_CALLS"),
                      O_WRONLY | O_CREAT | O_APPEND | O_CLOEXEC, 0600);
}

/* A line in one write, whatever the program's own calls do. */
static void note(const char *form, ...)
{
    static char line[20000];
    int length = sprintf(line, "%d ", (int)getpid());
    va_list words;
    va_start(words, form);
    length += vsnprintf(line + length, sizeof line - (size_t)length, form, words);
    va_end(words);
    if (syscall(SYS_write, to, line, (size_t)length) != length)
        abort();
}

static int opened(const char *real, const char *path, int flags, mode_t mode)
{
    int file = REAL(int, real, const char *, int, mode_t)(path, flags, mode);
    note("open %d %d %s\n", file, (flags & O_TRUNC) != 0, path);
    return file;
}

#define OPEN(name) \
    int name(const char *path, int flags, ...) \
    { \
        va_list words; \
        va_start(words, flags); \
        mode_t mode = flags & O_CREAT ? va_arg(words, mode_t) : 0; \
        va_end(words); \
        return opened(#name, path, flags, mode); \
    }

OPEN(open)
OPEN(open64)

ssize_t write(int file, const void *bytes, size_t length)
{
    static char hex[2 * 9000 + 1];
    ssize_t put = REAL(ssize_t, "write", int, const void *, size_t)(file, bytes, length);
    for (ssize_t i = 0; i < put && i < 9000; i++)
        sprintf(hex + 2 * i, "%02x", ((const unsigned char *)bytes)[i]);
    note("write %d %.*s\n", file, put > 0 ? 2 * (int)put : 0, hex);
    return put;
}

int fsync(int file)
{
    int done = REAL(int, "fsync", int)(file);
    note("fsync %d\n", file);
    return done;
}

int rename(const char *from, const char *target)
{
    int done = REAL(int, "rename", const char *, const char *)(from, target);
    note("rename %s %s\n", from, target);
    return done;
}
