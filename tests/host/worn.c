/* A worn memory stick for the example host, which is linked with --wrap=fopen: reading fails once so many bytes were read as WORN says. */
#define _GNU_SOURCE
#include <errno.h>
#include <stdio.h>
#include <stdlib.h>

FILE *__real_fopen(const char *name, const char *mode);
FILE *__wrap_fopen(const char *name, const char *mode);

static size_t left;

static ssize_t worn_read(void *file, char *bytes, size_t count)
{
    if (left == 0) {
        errno = EIO;
        return -1;
    }
    count = fread(bytes, 1, count < left ? count : left, file);
    left -= count;
    return (ssize_t)count;
}

static int worn_close(void *file)
{
    return fclose(file);
}

FILE *__wrap_fopen(const char *name, const char *mode)
{
    const char *bytes = getenv("WORN");
    FILE *file = __real_fopen(name, mode);
    left = strtoul(bytes == NULL ? "0" : bytes, NULL, 10);
    return file == NULL ? NULL : fopencookie(file, mode, (cookie_io_functions_t){.read = worn_read, .close = worn_close});
}
