/*
 * What is lent to the box by the C test, and what has become of it. All of it ends at the end of a page, and the pages around it cannot be touched,
 * so that one byte too far faults; what is lent to be read stands on pages that cannot be written.
 */
enum { FILL = 0xa5, UNSET = 12345 };

static unsigned passed, failed;

static void check(int holds, const char *form, ...)
{
    va_list values;
    if (holds) {
        passed++;
        return;
    }
    failed++;
    printf("failed: ");
    va_start(values, form);
    vprintf(form, values);
    va_end(values);
    putchar('\n');
}

struct part { uint8_t *bytes; size_t length; };

/* Bytes that end where a page ends, between pages that cannot be touched. */
static struct part lend(size_t length)
{
    size_t page = (size_t)sysconf(_SC_PAGESIZE), room = (length + page - 1) / page * page;
    uint8_t *all = mmap(NULL, room + 2 * page, PROT_NONE, MAP_PRIVATE | MAP_ANONYMOUS, -1, 0);
    if (all == MAP_FAILED || (room > 0 && mprotect(all + page, room, PROT_READ | PROT_WRITE) != 0)) {
        perror("lend");
        exit(2);
    }
    struct part part = {all + page + room - length, length};
    memset(part.bytes, FILL, length);
    return part;
}

static void give_back(struct part part)
{
    if (part.bytes == NULL)
        return;
    size_t page = (size_t)sysconf(_SC_PAGESIZE), room = (part.length + page - 1) / page * page;
    munmap(part.bytes + part.length - room - page, room + 2 * page);
}

/* The same bytes, where they cannot be written. */
static struct part lend_fixed(const void *bytes, size_t length)
{
    struct part part = lend(length);
    size_t page = (size_t)sysconf(_SC_PAGESIZE), room = (length + page - 1) / page * page;
    if (length > 0) {
        memcpy(part.bytes, bytes, length);
        mprotect(part.bytes + length - room, room, PROT_READ);
    }
    return part;
}

/* Old bytes, where they cannot be written. */
static struct part lend_old(size_t length)
{
    struct part old = lend(length), fixed = lend_fixed(old.bytes, length);
    give_back(old);
    return fixed;
}

static unsigned word(struct part table, size_t n) { return table.bytes[2 * n] | (unsigned)table.bytes[2 * n + 1] << 8; }

/* Every byte from one on is as it was lent. */
static int kept(struct part part, size_t from)
{
    for (size_t n = from; n < part.length; n++)
        if (part.bytes[n] != FILL)
            return 0;
    return 1;
}

/* Every word from one to before another is zero. */
static int zeros(struct part table, size_t from, size_t to)
{
    for (size_t n = from; n < to; n++)
        if (word(table, n) != 0)
            return 0;
    return 1;
}

static int words_are(struct part table, size_t from, size_t count, const unsigned *words)
{
    for (size_t n = 0; n < count; n++)
        if (word(table, from + n) != words[n])
            return 0;
    return 1;
}
