/* Loaded before the C library into a program under test: reads and writes that fail, come short or are interrupted, as the environment asks.
 *
 *   FAULT_PROGRAM=NAME      the program that is meant; any other is left alone
 *   FAULT_READ=N:ERRNO      N bytes are read, and every read after them fails with ERRNO
 *   FAULT_WRITE=N:ERRNO     the same of bytes written to standard output
 *   FAULT_SHORT=N           a call moves at most N bytes
 *   FAULT_INTERRUPT=N       every call is interrupted N times before it is made
 *   FAULT_TALLY=PATH        at its end the program leaves how many calls were made, and how many of them were interrupted
 *
 * Writes to other descriptors are left alone. */
#define _GNU_SOURCE
#include <errno.h>
#include <stdio.h>
#include <stdlib.h>
#include <string.h>
#include <sys/syscall.h>
#include <unistd.h>

/* What a stream has moved so far, and how often its next call was interrupted. */
struct stream {
    unsigned long moved, waited;
};

static unsigned long calls, interrupted;

/* Whether the program is meant. */
static int meant(void)
{
    const char *name = getenv("FAULT_PROGRAM");
    return name != NULL && strcmp(name, program_invocation_short_name) == 0;
}

static unsigned long number(const char *name, unsigned long otherwise)
{
    const char *text = getenv(name);
    return text == NULL ? otherwise : strtoul(text, NULL, 10);
}

/* One call: interrupted, failed, or made. */
static ssize_t moved(long call, const char *limit, struct stream *stream, int fd, void *bytes, size_t count)
{
    const char *fault = getenv(limit);
    size_t most = number("FAULT_SHORT", count);
    ssize_t done;
    calls++;
    if (stream->waited < number("FAULT_INTERRUPT", 0)) {
        stream->waited++;
        interrupted++;
        errno = EINTR;
        return -1;
    }
    stream->waited = 0;
    if (fault != NULL) {
        char *colon;
        unsigned long left = strtoul(fault, &colon, 10) - stream->moved;
        if (left == 0) {
            errno = atoi(colon + 1);
            return -1;
        }
        most = left < most ? left : most;
    }
    done = syscall(call, fd, bytes, count < most ? count : most);
    if (done > 0)
        stream->moved += (unsigned long)done;
    return done;
}

ssize_t read(int fd, void *bytes, size_t count)
{
    static struct stream stream;
    return meant() ? moved(SYS_read, "FAULT_READ", &stream, fd, bytes, count) : syscall(SYS_read, fd, bytes, count);
}

ssize_t write(int fd, const void *bytes, size_t count)
{
    static struct stream stream;
    if (fd != STDOUT_FILENO || !meant())
        return syscall(SYS_write, fd, bytes, count);
    return moved(SYS_write, "FAULT_WRITE", &stream, fd, (void *)bytes, count);
}

__attribute__((destructor)) static void leave(void)
{
    const char *path = getenv("FAULT_TALLY");
    FILE *tally = path != NULL && meant() ? fopen(path, "w") : NULL;
    if (tally != NULL) {
        fprintf(tally, "%lu %lu\n", calls, interrupted);
        fclose(tally);
    }
}
