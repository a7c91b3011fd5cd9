/*
 * A small host of the box: runs a script on a list of turns, tells what came of it, whether it has a race, which objects each thread still
 * reaches, how many places hold each object, and the drawing of all objects; then loads the script and saves it again, as an editor does.
 *
 *     cc -std=c11 -O2 -o host examples/host.c $(pkg-config --cflags --libs freezerbox)     where the box is installed
 *     cc -std=c11 -O2 -Iinclude -o host examples/host.c target/staticlib/libfreezerbox.a   in the box's own folder, after `make`
 *
 *     ./host SCRIPT [TURN ..]
 *
 * SCRIPT is a file that holds a script and no line of turns; each TURN is the number of a thread, 0 to 255. To run an example:
 *
 *     sed '$d' examples/withdraw.box | ./host /dev/stdin 0 0 0 0 0 1
 *
 * The drawing is for Graphviz, which makes a picture of it:
 *
 *     sed '$d' examples/withdraw.box | ./host /dev/stdin 0 0 0 0 0 1 | sed -n '/^digraph/,/^}/p' | dot -Tsvg >objects.svg
 *
 * It exits 0 where the script was run, also where a turn stopped the run: that is an answer of the box, and no failure of the host. It exits 1
 * where the box refused the script or the turns; and 2 where the system did not let it read the script whole or print all that it had to tell,
 * which it then says on standard error in the system's own words, or where it was called wrongly.
 */
#include <errno.h>
#include <stdarg.h>
#include <stdint.h>
#include <stdio.h>
#include <stdlib.h>
#include <string.h>

#include "box.h"

enum { DONE = 0, REFUSED = 1, FAILED = 2 };

/* Words of the program table (docs/LAYOUT.md): the script's edition, and where the blocks' first lines begin. */
enum { EDITION = 3, BLOCK_STARTS = 8 };

static const char *const end_words[] = {[BOX_FINISHED] = "finished", [BOX_STUCK] = "stuck", [BOX_OPEN] = "open"};

/* What is lent to the box. Text and turns have room for one more than the most, so that the box itself refuses what is too long. */
static uint8_t text[BOX_TEXT_MOST + 1], turns[BOX_TURNS_MOST + 1];
static uint8_t program[BOX_TABLE_BYTES], state[BOX_TABLE_BYTES], list[BOX_LIST_BYTES], script[BOX_SCRIPT_BYTES], drawing[BOX_DRAWING_BYTES];
static size_t text_len, turns_len;

/* Why standard output could not be written, the first time that it could not; 0 while it can. */
static int output_error;

static void tell(const char *form, ...)
{
    va_list values;
    va_start(values, form);
    if (vprintf(form, values) < 0 && output_error == 0)
        output_error = errno;
    va_end(values);
}

/* Much of what is told is written only now, or by the system when the output is closed. */
static int all_told(void)
{
    if (fclose(stdout) != 0 && output_error == 0)
        output_error = errno;
    if (output_error != 0)
        fprintf(stderr, "standard output: %s\n", strerror(output_error));
    return output_error == 0;
}

/* Word n of a table or list: two bytes, the low one first. */
static unsigned word(const uint8_t *table, size_t n)
{
    return table[2 * n] | (unsigned)table[2 * n + 1] << 8;
}

/* Shows line n of the script as the file has it; past its end there is nothing to show. */
static void show_line(size_t n)
{
    size_t start, length = box_line(text, text_len, n, &start);
    if (length > 0)
        tell("    %.*s\n", (int)length, (const char *)text + start);
}

/* A line of a block counts from the line after its opener. The program table has that line's number, which leaves out a first line `(script 2)`. */
static void tell_stop(size_t number, size_t thread, size_t block, size_t line, size_t moves)
{
    tell("stopped: %zu %s, thread %zu, block %zu, line %zu, after %zu moves\n", number, box_word((uint16_t)number), thread, block, line, moves);
    size_t before = word(program, EDITION) == 2 ? 1 : 0;
    show_line(before + word(program, BLOCK_STARTS + block) + line);
}

/* Of a text that is too long no line is at fault. (Refusal 9, a short table, cannot come here.) */
static void tell_refusal(size_t number, size_t line)
{
    tell("refused: %zu %s, line %zu\n", number, box_word((uint16_t)number), line);
    if (number != BOX_OVERLONG)
        show_line(line);
}

static uint16_t run(void)
{
    size_t number, thread, block, line, moves;
    uint16_t end = box_run(text, text_len, turns, turns_len, program, sizeof program, state, sizeof state,
                           &number, &thread, &block, &line, &moves);
    if (end == BOX_STOPPED)
        tell_stop(number, thread, block, line, moves);
    else if (end == BOX_REFUSED)
        tell_refusal(number, line);
    else
        tell("%s after %zu moves\n", end_words[end], moves);
    return end;
}

/* Two turns that race, by their places in the list, and what they race on. Of the run's own refusals none can come; more turns than can be
 * looked at can. */
static void races(void)
{
    size_t race, first, second, object, field, line;
    uint16_t number = box_race(text, text_len, turns, turns_len, program, sizeof program, state, sizeof state,
                               &race, &first, &second, &object, &field, &line);
    if (number != 0)
        tell("races not looked for: %u %s, over %d turns\n", number, box_word(number), BOX_RACE_TURNS_MOST);
    else if (race)
        tell("race: turn %zu, of thread %u, and turn %zu, of thread %u, on field %zu of object %zu\n", first, turns[first], second, turns[second], field,
             object);
    else
        tell("no race\n");
}

static uint16_t reach(size_t thread, size_t *count)
{
    size_t line;
    return box_reach(text, text_len, turns, turns_len, program, sizeof program, state, sizeof state, thread, list, sizeof list, count, &line);
}

/* A report for each thread that was started, its objects by rising number; the first that was not started answers 17. */
static void reports(void)
{
    size_t count;
    for (size_t thread = 0; reach(thread, &count) == 0; thread++) {
        tell("thread %zu reaches %zu", thread, count);
        for (size_t n = 0; n < count; n++)
            tell("%s%u", n == 0 ? ": object " : ", ", word(list, n));
        tell("\n");
    }
}

static uint16_t holders(size_t object, size_t *count)
{
    size_t line;
    return box_holders(text, text_len, turns, turns_len, program, sizeof program, state, sizeof state, object, count, &line);
}

/* How many places hold each object that was made; the first that was not made answers 21. */
static void held(void)
{
    size_t count;
    for (size_t object = 0; holders(object, &count) == 0; object++)
        tell("object %zu has %zu holder%s\n", object, count, count == 1 ? "" : "s");
}

/* The drawing of all objects. The run was made, so that nothing can be refused. */
static void draw(void)
{
    size_t length, line;
    box_draw(text, text_len, turns, turns_len, program, sizeof program, state, sizeof state, drawing, sizeof drawing, &length, &line);
    tell("%.*s", (int)length, (const char *)drawing);
}

/* The script is read into a table and written from it. What is written is the text that was read, byte for byte. */
static int save(void)
{
    size_t line, length;
    uint16_t number = box_read(text, text_len, program, sizeof program, &line);
    if (number == 0)
        number = box_write(program, sizeof program, script, sizeof script, &length);
    if (number != 0) {
        tell("not saved: %u %s\n", number, box_word(number));
        return REFUSED;
    }
    int same = length == text_len && memcmp(script, text, length) == 0;
    tell("saved: %zu bytes, %s\n", length, same ? "the same as were loaded" : "not those that were loaded");
    return same ? DONE : REFUSED;
}

/* Reads the file to its end, or up to one byte more than the most. A read that fails is no end. */
static int load(const char *name)
{
    FILE *file = fopen(name, "rb");
    if (file == NULL) {
        perror(name);
        return 0;
    }
    text_len = fread(text, 1, sizeof text, file);
    int whole = !ferror(file);
    if (!whole)
        perror(name);
    fclose(file);
    return whole;
}

/* The turns of the command line, up to one more than the most. */
static int take_turns(char **arguments)
{
    for (; *arguments != NULL && turns_len < sizeof turns; arguments++) {
        char *end;
        unsigned long turn = strtoul(*arguments, &end, 10);
        if (end == *arguments || *end != '\0' || turn > 255)
            return 0;
        turns[turns_len++] = (uint8_t)turn;
    }
    return 1;
}

int main(int argc, char **argv)
{
    if (argc < 2 || !take_turns(argv + 2)) {
        fprintf(stderr, "usage: %s SCRIPT [TURN ..]\n", argv[0]);
        return FAILED;
    }
    if (box_version() != BOX_VERSION) {
        fprintf(stderr, "the library's version is %lu, the header's %lu\n", (unsigned long)box_version(), (unsigned long)BOX_VERSION);
        return FAILED;
    }
    if (!load(argv[1]))
        return FAILED;
    int status = REFUSED;
    if (run() != BOX_REFUSED) {
        races();
        reports();
        held();
        draw();
        status = save();
    }
    return all_told() ? status : FAILED;
}
