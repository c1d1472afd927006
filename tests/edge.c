/* Loaded in front of the C library (LD_PRELOAD) by tests/run: standard input and standard output that move only so many bytes at a
   time, and that fail once so many bytes have moved. A program cannot tell them from a slow pipe, a bad disk and a full one. */
#include <errno.h>
#include <stdint.h>
#include <stdlib.h>
#include <sys/syscall.h>
#include <unistd.h>

/* The number in a variable of the environment; where there is none, more than any count. */
static size_t number(const char *name) {
    const char *text = getenv(name);
    return text ? strtoul(text, 0, 10) : SIZE_MAX;
}

static size_t least(size_t a, size_t b) { return a < b ? a : b; }

ssize_t read(int fd, void *bytes, size_t count) {
    static size_t moved;
    if (fd != STDIN_FILENO)
        return syscall(SYS_read, fd, bytes, count);
    size_t left = number("READ_FAILS_AFTER") - moved;
    if (left == 0) {
        errno = EIO;
        return -1;
    }
    ssize_t got = syscall(SYS_read, fd, bytes, least(count, least(left, number("READ_AT_MOST"))));
    if (got > 0)
        moved += got;
    return got;
}

ssize_t write(int fd, const void *bytes, size_t count) {
    static size_t moved;
    if (fd != STDOUT_FILENO)
        return syscall(SYS_write, fd, bytes, fd == STDERR_FILENO ? least(count, number("WRITE_AT_MOST")) : count);
    size_t left = number("WRITE_FAILS_AFTER") - moved;
    if (left == 0) {
        errno = ENOSPC;
        return -1;
    }
    ssize_t put = syscall(SYS_write, fd, bytes, least(count, least(left, number("WRITE_AT_MOST"))));
    if (put > 0)
        moved += put;
    return put;
}
