/* Preloaded into a program: its reads give FAIL_AFTER bytes in all and then
 * fail, and the first INTERRUPTED of them are interrupted by a signal. */
#define _GNU_SOURCE
#include <errno.h>
#include <stdint.h>
#include <stdlib.h>
#include <sys/syscall.h>
#include <unistd.h>

static size_t number(const char *name, size_t otherwise)
{
    const char *text = getenv(name);
    return text ? strtoul(text, NULL, 10) : otherwise;
}

static ssize_t failed(int error)
{
    errno = error;
    return -1;
}

ssize_t read(int file, void *buffer, size_t length)
{
    static size_t given, interrupted;
    size_t left = number("FAIL_AFTER", SIZE_MAX) - given;
    if (interrupted < number("INTERRUPTED", 0)) {
        interrupted++;
        return failed(EINTR);
    }
    if (left == 0)
        return failed(EIO);
    ssize_t got = syscall(SYS_read, file, buffer, length < left ? length : left);
    if (got > 0)
        given += (size_t)got;
    return got;
}
