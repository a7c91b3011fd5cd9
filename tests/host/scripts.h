/* Scripts for the C test, and the tables that they read to. */

/* The numbers of documents 01 and 02, written out once more; `constants` holds the header's to them. */
enum { MOST_TEXT = 16384, MOST_TURNS = 32768, MOST_RACE_TURNS = 1024, TABLE = 16384, LIST = 512, SCRIPT = 16384, DRAWING = 65536 };

#define KIND "(kind (fields 0) (does))\n"
#define CASE_A KIND "(thread)\n(let (spawn 1))\n(let (new iso 0))\n(let (send 1 (take 2)))\n(give (read 1))\n(thread)\n(let (recv 0))\n(give (take 1))\n"
#define CASE_D KIND "(thread)\n(let (new iso 0))\n(give (read 1))\n"
#define CASE_E KIND "(thread)\n(let (new iso 0))\n(give (take 1))\n"
#define CASE_I "(thread)\n(let (spawn 1))\n(let (recv 1))\n(give (read 1))\n(thread)\n(give (read 0))\n"
#define IN_THREAD(lets) KIND "(thread)\n(let (new imm 0))\n" lets "(give (read 1))\n"
/* Thread 1 does the let, at its line 2 and turn 7, with an unsafe object in slot 1 and in slot 2 thread 0's local, whose field holds an iso. */
#define FOREIGN(let) KIND "(kind (fields 1) (does))\n(thread)\n(let (spawn 1))\n(let (new iso 0))\n(let (new local 1 (take 2)))\n" \
    "(let (new unsafe 1 (read 3)))\n(let (send 1 (read 4)))\n(give (read 1))\n(thread)\n(let (recv 0))\n(let (field 1 0))\n" let "(give (read 1))\n"

/* The first line of edition 2. */
#define TWO "(script 2)\n"
/* Thread 0 makes objects 0 to 3, of which 2 holds 3, 0 and 0, and 3 holds 2, 2 and 1; it sends 2, and thread 1 copies that. */
#define SHEETS TWO KIND "(kind (fields 3) (does))\n(thread)\n(let (spawn 1))\n(let (new imm 0))\n(let (new imm 0))\n" \
    "(let (new unsafe 1 (read 2) (read 2) (read 2)))\n(let (new unsafe 1 (read 4) (read 4) (read 3)))\n(let (swap 4 0 (read 5)))\n" \
    "(let (send 1 (read 4)))\n(give (read 4))\n(thread)\n(let (recv 0))\n(let (copy local 1))\n(give (read 2))\n"
#define SHEETS_TURNS "\0\0\0\0\0\0\0\1\1", 9
#define COPY_OF_ISO TWO KIND "(thread)\n(let (new iso 0))\n(let (copy imm 1))\n(give (take 1))\n"

static const char zero_turns[MOST_TURNS + 1];

/* A text that is put together, with room for a text that is too long. */
struct text { char bytes[2 * MOST_TEXT]; size_t length; };

static void add(struct text *text, const char *form, ...)
{
    va_list values;
    size_t room = sizeof text->bytes - text->length;
    va_start(values, form);
    int length = vsnprintf(text->bytes + text->length, room, form, values);
    va_end(values);
    if (length < 0 || (size_t)length >= room) {
        fprintf(stderr, "a text has no room\n");
        exit(2);
    }
    text->length += (size_t)length;
}

/* A script of exactly 16,384 bytes: 18 kinds, 64 threads and 512 lets, behind a first line or none. So many lets are a byte shorter. */
static void fill_text(struct text *text, const char *first_line, int shorter)
{
    add(text, "%s", first_line);
    for (int n = 0; n < 18; n++)
        add(text, KIND);
    for (int let = 0; let < 512; let++)
        add(text, "%s(let (swap 0 %s (read 0)))\n%s", let % 8 == 0 ? "(thread)\n" : "", let < shorter ? "25" : "255",
            let % 8 == 7 ? "(give (read 0))\n" : "");
    check(text->length == MOST_TEXT, "the longest script has %zu bytes", text->length);
}

static const char *longest(void)
{
    static struct text text;
    if (text.length == 0)
        fill_text(&text, "", 2);
    return text.bytes;
}

static const char *longest_two(void)
{
    static struct text text;
    if (text.length == 0)
        fill_text(&text, TWO, 13);
    return text.bytes;
}

/* A chain: object 0 is the first, each holds the one before it, and slot 2 of thread 0 holds the last. Block 1 adds fourteen objects, block 2 calls
 * it fourteen times, block 3 adds the rest; these lets and blocks follow. It takes `turns` turns of thread 0 to make. */
static void chain(struct text *text, const char *first, size_t objects, const char *lets, const char *blocks, size_t *turns)
{
    size_t slot = 1, left = objects - 1;
    *turns = 3;
    add(text, TWO "(kind (fields 0) (does 1 2 3))\n(kind (fields 1) (does 1 2 3))\n(thread)\n(let (new %s 0))\n(let (call 1 2 (read 1)))\n%s"
              "(give (read 2))\n(method)\n", first, lets);
    for (int n = 1; n < 15; n++)
        add(text, "(let (new unsafe 1 (read %d)))\n", n);
    add(text, "(give (read 15))\n(method)\n");
    for (int n = 1; n < 15; n++)
        add(text, "(let (call %d 0 (read %d)))\n", n, n);
    add(text, "(give (read 15))\n(method)\n");
    for (; left >= 196; left -= 196, slot++, *turns += 226)
        add(text, "(let (call %zu 1 (read %zu)))\n", slot, slot);
    for (; left >= 14; left -= 14, slot++, *turns += 16)
        add(text, "(let (call %zu 0 (read %zu)))\n", slot, slot);
    for (; left > 0; left--, slot++, *turns += 1)
        add(text, "(let (new unsafe 1 (read %zu)))\n", slot);
    add(text, "(give (read %zu))\n%s", slot, blocks);
}

/* The table of a text that must be read. Some bytes more are lent. */
static struct part table_of(const char *text, size_t extra)
{
    struct part part = lend_fixed(text, strlen(text)), program = lend(TABLE + extra);
    size_t line = UNSET;
    uint16_t number = box_read(part.bytes, part.length, program.bytes, program.length, &line);
    check(number == 0 && line == 0, "a script is read: %u at line %zu", number, line);
    give_back(part);
    return program;
}

static void set_word(struct part table, size_t n, unsigned word)
{
    table.bytes[2 * n] = (uint8_t)(word & 255);
    table.bytes[2 * n + 1] = (uint8_t)(word >> 8);
}

/* The table that a script reads to, one word of it changed (word 4 is 0 anyway), where it cannot be written. */
static struct part loaded(const char *text, size_t place, unsigned word, size_t extra)
{
    struct part program = table_of(text, extra);
    set_word(program, place, word);
    struct part fixed = lend_fixed(program.bytes, program.length);
    give_back(program);
    return fixed;
}
