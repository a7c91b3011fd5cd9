/*
 * The box as a C host sees it: answers, tables, refusals that keep every byte, and nothing read or written outside what is lent (lent.h).
 * What must hold of every call is in every_call.h; here are the tests of each call's own. The last line is 'N passed, M failed'.
 */
#define _DEFAULT_SOURCE
#include <pthread.h>
#include <stdarg.h>
#include <stdint.h>
#include <stdio.h>
#include <stdlib.h>
#include <string.h>
#include <sys/mman.h>
#include <unistd.h>

#include "box.h"
#include "lent.h"
#include "scripts.h"
#include "every_call.h"

enum { FINISHED, STUCK, OPEN, STOPPED, REFUSED };

/* A run's inputs and lent tables, with a list for the reach report. */
struct lent { struct part text, turns, program, state, list; };

static struct lent lend_all(const void *text, size_t text_len, const void *turns, size_t turns_len, size_t program, size_t state, size_t list)
{
    return (struct lent){lend_fixed(text, text_len), lend_fixed(turns, turns_len), lend(program), lend(state), lend(list)};
}

static struct lent lend_run(const char *text, const char *turns, size_t turns_len)
{
    return lend_all(text, strlen(text), turns, turns_len, TABLE, TABLE, LIST);
}

static void give_all_back(struct lent lent)
{
    give_back(lent.text);
    give_back(lent.turns);
    give_back(lent.program);
    give_back(lent.state);
    give_back(lent.list);
}

/* ---- The calls ---- */

struct answer { uint16_t end; size_t number, thread, block, line, moves; };

static struct answer run(struct lent l)
{
    struct answer a = {UNSET, UNSET, UNSET, UNSET, UNSET, UNSET};
    a.end = box_run(l.text.bytes, l.text.length, l.turns.bytes, l.turns.length, l.program.bytes, l.program.length, l.state.bytes,
                    l.state.length, &a.number, &a.thread, &a.block, &a.line, &a.moves);
    return a;
}

static uint16_t write_out(struct part program, struct part script, size_t *length)
{
    *length = UNSET;
    return box_write(program.bytes, program.length, script.bytes, script.length, length);
}

static uint16_t reach(struct lent l, size_t thread, size_t *count, size_t *line)
{
    *count = *line = UNSET;
    return box_reach(l.text.bytes, l.text.length, l.turns.bytes, l.turns.length, l.program.bytes, l.program.length, l.state.bytes,
                     l.state.length, thread, l.list.bytes, l.list.length, count, line);
}

static uint16_t holders_of(struct lent l, size_t object, size_t *count, size_t *line)
{
    *count = *line = UNSET;
    return box_holders(l.text.bytes, l.text.length, l.turns.bytes, l.turns.length, l.program.bytes, l.program.length, l.state.bytes,
                       l.state.length, object, count, line);
}

static uint16_t draw(struct lent l, struct part drawing, size_t *length, size_t *line)
{
    *length = *line = UNSET;
    return box_draw(l.text.bytes, l.text.length, l.turns.bytes, l.turns.length, l.program.bytes, l.program.length, l.state.bytes,
                    l.state.length, drawing.bytes, drawing.length, length, line);
}

struct found { uint16_t number; size_t race, first, second, object, field, line; };

static struct found race(struct lent l)
{
    struct found f = {UNSET, UNSET, UNSET, UNSET, UNSET, UNSET, UNSET};
    f.number = box_race(l.text.bytes, l.text.length, l.turns.bytes, l.turns.length, l.program.bytes, l.program.length, l.state.bytes,
                        l.state.length, &f.race, &f.first, &f.second, &f.object, &f.field, &f.line);
    return f;
}

static int same(struct answer a, struct answer b)
{
    return a.end == b.end && a.number == b.number && a.thread == b.thread && a.block == b.block && a.line == b.line && a.moves == b.moves;
}

static void answers(const char *name, const char *text, const char *turns, size_t turns_len, struct answer expected)
{
    struct lent lent = lend_run(text, turns, turns_len);
    struct answer a = run(lent);
    check(same(a, expected), "%s: end %u, number %zu, thread %zu, block %zu, line %zu, moves %zu", name, a.end, a.number, a.thread, a.block,
          a.line, a.moves);
    check(zeros(lent.program, 5448, 8192) && zeros(lent.state, 6984, 8192), "%s: unused words are zero", name);
    give_all_back(lent);
}

/* ---- The header ---- */

static void constants(void)
{
    static const int ends[] = {BOX_FINISHED, BOX_STUCK, BOX_OPEN, BOX_STOPPED, BOX_REFUSED};
    static const int numbers[] = {
        BOX_OVERLONG, BOX_STRAY_BYTE, BOX_MALFORMED, BOX_OVER_COUNT, BOX_UNBOUND, BOX_SELF_TAKEN, BOX_UNFINISHED, BOX_DANGLING, BOX_SHORT_TABLE,
        BOX_ABSENT, BOX_NO_FIELD, BOX_NO_METHOD, BOX_WRONG_THING, BOX_PERMISSION, BOX_CAST, BOX_USED_UP, BOX_NO_THREAD,
        BOX_NO_SCRIPT, BOX_ALIAS, BOX_FOREIGN, BOX_NO_OBJECT,
    };
    for (int n = 0; n < 5; n++)
        check(ends[n] == n, "the header's end %d", n);
    for (int n = 0; n < 21; n++)
        check(numbers[n] == n + 1, "the header's number %d", n + 1);
    check(BOX_TABLE_BYTES == TABLE && BOX_LIST_BYTES == LIST && BOX_SCRIPT_BYTES == SCRIPT && BOX_DRAWING_BYTES == DRAWING, "the header's lengths");
    check(BOX_TEXT_MOST == MOST_TEXT && BOX_TURNS_MOST == MOST_TURNS && BOX_RACE_TURNS_MOST == MOST_RACE_TURNS, "the header's mosts");
}

/* Header and library belong together. */
static void versions(void)
{
    check(BOX_VERSION / 10000 == BOX_VERSION_MAJOR && BOX_VERSION / 100 % 100 == BOX_VERSION_MINOR && BOX_VERSION % 100 == BOX_VERSION_PATCH,
          "the header's version in one number");
    check(box_version() == BOX_VERSION, "the library's version, %lu, is the header's", (unsigned long)box_version());
}

/* Every number has a word of its own, and nothing else has one. (tests/calls.py has the words themselves.) */
static void words(void)
{
    unsigned alike = 0, others = 0;
    for (unsigned n = 1; n <= 21; n++)
        for (unsigned m = 0; m < n; m++)
            alike += strcmp(box_word((uint16_t)n), box_word((uint16_t)m)) == 0;
    for (unsigned n = 0; n <= UINT16_MAX; n++)
        others += (n == 0 || n > 21) && box_word((uint16_t)n)[0] != '\0';
    check(alike == 0 && others == 0, "words: %u alike, %u of no number", alike, others);
}

/* ---- Answers and tables ---- */

static void reading(void)
{
    static const unsigned head[] = {1, 2, 9, 0, 0, 0, 0, 0, 2, 7, 0};
    static const unsigned lines[] = {1, 0, 0, 0, 0, 0, 0, 0,   2, 0, 0, 0, 0, 0, 0, 0,   11, 1, 0, 0, 0, 0, 0, 0,  9, 1, 0, 0, 0, 0, 0, 0,
                                     12, 1, 5, 0, 0, 0, 0, 0,  4, 2, 0, 0, 0, 0, 0, 0,   2, 0, 0, 0, 0, 0, 0, 0,   13, 0, 0, 0, 0, 0, 0, 0,
                                     4, 3, 0, 0, 0, 0, 0, 0};
    for (size_t extra = 0; extra < 4; extra++) {
        struct part program = table_of(CASE_A, extra);
        check(words_are(program, 0, 11, head) && zeros(program, 11, 72), "the head of case A's program");
        check(words_are(program, 72, 72, lines) && zeros(program, 144, 8192), "the lines of case A's program");
        give_back(program);
    }
    struct part program = table_of(longest(), 0);
    check(word(program, 0) == 18 && word(program, 1) == 64 && word(program, 2) == 658, "the head of the longest program");
    give_back(program);
}

/* All words of two tables are the same but some from one place on. */
static int same_but(struct part table, struct part other, size_t place, size_t count)
{
    return memcmp(table.bytes, other.bytes, 2 * place) == 0
        && memcmp(table.bytes + 2 * (place + count), other.bytes + 2 * (place + count), TABLE - 2 * (place + count)) == 0;
}

/* The first line has word 3 and no other; a copy has a row like any line, here row 3, at word 96. */
static void editions(void)
{
    static const char *const scripts[][2] = {{CASE_A, TWO CASE_A}, {CASE_D, TWO CASE_D}, {CASE_I, TWO CASE_I}};
    for (size_t n = 0; n < sizeof scripts / sizeof scripts[0]; n++) {
        struct part one = table_of(scripts[n][0], 0), two = table_of(scripts[n][1], 0);
        check(word(one, 3) == 0 && word(two, 3) == 2 && same_but(one, two, 3, 1), "script %zu in both editions", n);
        give_back(one);
        give_back(two);
    }

    static const char *const copies[] = {TWO IN_THREAD("(let (copy imm 1))\n"), TWO IN_THREAD("(let (copy local 1))\n"),
                                         TWO IN_THREAD("(let (copy unsafe 1))\n")};
    static const unsigned rows[][8] = {{14, 0, 1}, {14, 2, 1}, {14, 3, 1}};
    struct part read = table_of(TWO IN_THREAD("(let (read 1))\n"), 0);
    for (size_t n = 0; n < sizeof rows / sizeof rows[0]; n++) {
        struct part copy = table_of(copies[n], 0);
        check(words_are(copy, 96, 8, rows[n]) && same_but(read, copy, 96, 8), "the row of copy %zu", n);
        give_back(copy);
    }
    give_back(read);

    struct part two = table_of(longest_two(), 0);
    check(word(two, 0) == 18 && word(two, 1) == 64 && word(two, 2) == 658 && word(two, 3) == 2 && word(two, 8) == 19,
          "the head of the longest program of edition 2");
    give_back(two);
}

static void runs(void)
{
    static const unsigned object[] = {1, 0, 0, 1, 0, 0, 0, 0};
    static const unsigned first[] = {1, 0, 0, 3, 4, 0, 258, 0, 258}, second[] = {1, 0, 1, 1, 2, 258, 1};
    struct lent lent = lend_run(CASE_A, "\0\0\0\1\0", 5);
    struct answer a = run(lent);
    check(same(a, (struct answer){OPEN, 0, 0, 0, 0, 5}), "case A: end %u, %zu moves", a.end, a.moves);
    check(word(lent.program, 0) == 1 && word(lent.program, 1) == 2 && word(lent.program, 2) == 9, "case A leaves its program");
    check(word(lent.state, 0) == 1 && word(lent.state, 1) == 2 && zeros(lent.state, 2, 8), "the head of case A's state");
    check(words_are(lent.state, 8, 8, object) && zeros(lent.state, 16, 2056), "the object of case A");
    check(words_are(lent.state, 2056, 9, first) && zeros(lent.state, 2065, 2362), "thread 0 of case A");
    check(words_are(lent.state, 2362, 7, second) && zeros(lent.state, 2369, 6954), "thread 1 of case A");
    check(word(lent.state, 6954) == 0 && word(lent.state, 6955) == 1 && zeros(lent.state, 6956, 8192), "the channel of case A");
    give_all_back(lent);

    answers("no turns", CASE_A, "", 0, (struct answer){OPEN, 0, 0, 0, 0, 0});
    answers("no turns of another script", CASE_E, "", 0, (struct answer){OPEN, 0, 0, 0, 0, 0});
    answers("finished", CASE_E, "\0\0", 2, (struct answer){FINISHED, 0, 0, 0, 0, 2});
    answers("stuck", CASE_I, "\0\1\0", 3, (struct answer){STUCK, 0, 0, 0, 0, 2});
    answers("threads never started", CASE_E, "\1\20\377", 3, (struct answer){OPEN, 0, 0, 0, 0, 0});
    answers("32,768 turns", CASE_E, zero_turns, MOST_TURNS, (struct answer){FINISHED, 0, 0, 0, 0, 2});
    answers("the longest script", longest(), "\0", 1, (struct answer){STOPPED, 10, 0, 0, 0, 0});
    answers("10", "(thread)\n(give (read 0))\n", "\0", 1, (struct answer){STOPPED, 10, 0, 0, 0, 0});
    answers("11", IN_THREAD("(let (field 1 0))\n"), "\0\0", 2, (struct answer){STOPPED, 11, 0, 0, 1, 1});
    answers("12", IN_THREAD("(let (call 1 0 (read 1)))\n"), "\0\0", 2, (struct answer){STOPPED, 12, 0, 0, 1, 1});
    answers("13", IN_THREAD("(let (recv 1))\n"), "\0\0", 2, (struct answer){STOPPED, 13, 0, 0, 1, 1});
    answers("14", KIND "(kind (fields 1) (does))\n(thread)\n(let (new iso 0))\n(let (new imm 1 (take 1)))\n(give (read 2))\n", "\0\0", 2,
            (struct answer){STOPPED, 14, 0, 0, 1, 1});
    answers("15", IN_THREAD("(let (cast iso (read 1)))\n"), "\0\0", 2, (struct answer){STOPPED, 15, 0, 0, 1, 1});
    answers("16", "(kind (fields 0) (does 1))\n(thread)\n(let (new imm 0))\n(let (call 1 0 (read 1)))\n(give (read 1))\n"
                  "(method)\n(let (call 0 0 (read 1)))\n(give (read 1))\n", zero_turns, 17, (struct answer){STOPPED, 16, 0, 1, 0, 16});
    answers("19", CASE_D, "\0\0", 2, (struct answer){STOPPED, 19, 0, 0, 1, 1});
    answers("20 before 19", FOREIGN("(let (field 2 0))\n"), "\0\0\0\0\0\1\1\1", 8, (struct answer){STOPPED, 20, 1, 1, 2, 7});
    answers("20 before 14, swap", FOREIGN("(let (swap 2 0 (read 1)))\n"), "\0\0\0\0\0\1\1\1", 8, (struct answer){STOPPED, 20, 1, 1, 2, 7});
    answers("20 before 14, new", FOREIGN("(let (new iso 1 (read 2)))\n"), "\0\0\0\0\0\1\1\1", 8, (struct answer){STOPPED, 20, 1, 1, 2, 7});
}

/* ---- Refusals ---- */

/* Each through every call that reads a text. */
static void refusals(void)
{
    refused_text("2", "(thread)\n(give (Read 0))\n", 2, 1);
    refused_text("3", "(thread)\n(give  (read 0))\n", 3, 1);
    refused_text("3, without LF", "(thread)\n(give (read 0))", 3, 1);
    refused_text("3, a line of turns", CASE_A "(turns 0)\n", 3, 9);
    refused_text("4", "(thread)\n(let (field 0 256))\n(give (read 0))\n", 4, 1);
    refused_text("5", "(thread)\n(give (read 1))\n", 5, 1);
    refused_text("6", "(thread)\n(give (read 0))\n(method)\n(give (take 0))\n", 6, 3);
    refused_text("7", "(thread)\n(let (read 0))\n", 7, 2);
    refused_text("7, empty text", "", 7, 0);
    refused_text("7, null text", NULL, 7, 0);
    refused_text("8", "(thread)\n(let (spawn 1))\n(give (read 0))\n", 8, 1);
    refused_text("8, block 0", "(kind (fields 0) (does))\n(method)\n(give (read 0))\n", 8, 1);
    refused_text("3, a copy in edition 1", IN_THREAD("(let (copy imm 1))\n"), 3, 3);
}

/* The line (script 2) counts, as line 0, and stands nowhere else. */
static void refusals_two(void)
{
    static struct text over;
    add(&over, TWO "%s", longest());
    refused_text("1, 16,395 bytes", over.bytes, 1, 0);
    refused_text("2, edition 2", TWO "(thread)\n(give (Read 0))\n", 2, 2);
    refused_text("3, edition 2", TWO "(thread)\n(give  (read 0))\n", 3, 2);
    refused_text("4, edition 2", TWO "(thread)\n(let (field 0 256))\n(give (read 0))\n", 4, 2);
    refused_text("5, edition 2", TWO "(thread)\n(give (read 1))\n", 5, 2);
    refused_text("6, edition 2", TWO "(thread)\n(give (read 0))\n(method)\n(give (take 0))\n", 6, 4);
    refused_text("7, edition 2", TWO "(thread)\n(let (read 0))\n", 7, 3);
    refused_text("7, the first line alone", TWO, 7, 1);
    refused_text("8, edition 2", TWO "(thread)\n(let (spawn 1))\n(give (read 0))\n", 8, 2);
    refused_text("8, block 0, edition 2", TWO KIND "(method)\n(give (read 0))\n", 8, 2);

    refused_text("3, the first line without LF", "(script 2)", 3, 0);
    refused_text("3, the first line twice", TWO TWO CASE_A, 3, 1);
    refused_text("3, the first line after a kind", KIND TWO CASE_A, 3, 1);
    refused_text("3, the first line at the end", CASE_A TWO, 3, 9);
    refused_text("3, script 1", "(script 1)\n" CASE_A, 3, 0);
    refused_text("3, script 3", "(script 3)\n" CASE_A, 3, 0);
    refused_text("3, script 02", "(script 02)\n" CASE_A, 3, 0);

    refused_text("2, in a copy", TWO IN_THREAD("(let (copy Imm 1))\n"), 2, 4);
    refused_text("3, a copy to iso", TWO IN_THREAD("(let (copy iso 1))\n"), 3, 4);
    refused_text("3, a copy to iso, before 5", TWO IN_THREAD("(let (copy iso 2))\n"), 3, 4);
    refused_text("3, a copy of an operand", TWO IN_THREAD("(let (copy imm (read 1)))\n"), 3, 4);
    refused_text("3, a copy outside a block", TWO "(let (copy imm 0))\n", 3, 1);
    refused_text("4, a copy of slot 256", TWO IN_THREAD("(let (copy imm 256))\n"), 4, 4);
    refused_text("5, a copy of a slot to come", TWO IN_THREAD("(let (copy imm 2))\n"), 5, 4);
}

/* ---- The reach report ---- */

/* Thread 0 holds object 1, which holds object 0, and sends object 2 and then object 3; thread 1 receives the first of them. */
#define REACHING KIND "(kind (fields 1) (does))\n(thread)\n(let (spawn 1))\n(let (new imm 0))\n(let (new imm 1 (take 2)))\n" \
    "(let (new iso 0))\n(let (send 1 (take 4)))\n(let (new iso 0))\n(let (send 1 (take 6)))\n(give (read 3))\n" \
    "(thread)\n(let (recv 0))\n(give (take 1))\n"

/* Thread 0 sends object 0, and thread 1 sends it back on the same channel. */
#define ANSWERING KIND "(thread)\n(let (spawn 1))\n(let (new iso 0))\n(let (send 1 (take 2)))\n(give (read 1))\n" \
    "(thread)\n(let (recv 0))\n(let (send 0 (take 1)))\n(give (read 0))\n"

/* One report: how many objects, and which, in their order; then zeros. */
static void reaches(const char *name, struct lent lent, size_t thread, size_t objects, const unsigned *which)
{
    size_t count, line;
    uint16_t number = reach(lent, thread, &count, &line);
    check(number == 0 && line == 0 && count == objects && words_are(lent.list, 0, objects, which) && zeros(lent.list, objects, 256),
          "%s: %u, %zu objects, the first %u", name, number, count, word(lent.list, 0));
}

#define OBJECTS(...) sizeof (unsigned[]){__VA_ARGS__} / sizeof (unsigned), (const unsigned[]){__VA_ARGS__}
#define NOTHING 0, NULL

/* A message is its sender's until it is received. Word 2,057 is 1 + the number of the message that thread 0 waits for. */
static void messages(void)
{
    struct lent lent = lend_run(REACHING, "\0\0\0\0\0", 5);
    reaches("a message in flight is its sender's", lent, 0, OBJECTS(0, 1, 2));
    reaches("a message in flight is not its receiver's", lent, 1, NOTHING);
    give_all_back(lent);

    lent = lend_run(REACHING, "\0\0\0\0\0\1", 6);
    reaches("a message received is not its sender's", lent, 0, OBJECTS(0, 1));
    check(word(lent.state, 2057) == 2, "the sender has not moved on");
    reaches("a message received is its receiver's", lent, 1, OBJECTS(2));
    give_all_back(lent);

    lent = lend_run(ANSWERING, "\0\0\0\1\1", 5);
    reaches("an answer is not the first sender's", lent, 0, NOTHING);
    check(word(lent.state, 2057) == 2, "the first sender has not moved on");
    check(word(lent.state, 6954) == 1 && word(lent.state, 6955) == 2, "the answer is the same object under the next number");
    reaches("an answer is its sender's", lent, 1, OBJECTS(0));
    give_all_back(lent);
}

/* Slot 2 holds object 1, which holds object 0; object 5 holds objects 4, 2 and 3, and object 6 holds object 5: numbers rise all the same. */
#define HOLDING KIND "(kind (fields 1) (does))\n(kind (fields 3) (does))\n(thread)\n(let (new imm 0))\n(let (new imm 1 (take 1)))\n" \
    "(let (new imm 0))\n(let (new imm 0))\n(let (new imm 0))\n(let (new imm 2 (take 5) (take 3) (take 4)))\n(let (new imm 1 (take 6)))\n(give (read 2))\n"

static void rising(void)
{
    struct lent lent = lend_run(HOLDING, "\0\0\0\0\0\0\0", 7);
    reaches("an object that holds lesser ones", lent, 0, OBJECTS(0, 1, 2, 3, 4, 5, 6));
    give_all_back(lent);

    lent = lend_run(HOLDING, "\0\0", 2);
    reaches("an object that holds the one before it", lent, 0, OBJECTS(0, 1));
    give_all_back(lent);
}

static void reports(void)
{
    struct lent lent = lend_all(REACHING, strlen(REACHING), "\0\0\0\0\0\1\0\0\0", 9, TABLE, TABLE, LIST + 3);
    size_t count, line;
    uint16_t number;
    reaches("thread 0 reaches 0 and 1, and 3 in flight", lent, 0, OBJECTS(0, 1, 3));
    check(kept(lent.list, LIST), "bytes past the list stay");
    check(word(lent.program, 0) == 2 && word(lent.state, 0) == 4 && word(lent.state, 1) == 2, "a report leaves the run's tables");
    reaches("thread 1 reaches 2", lent, 1, OBJECTS(2));
    give_all_back(lent);

    static const size_t never[] = {2, 15, 16, 255, 256, 65536, SIZE_MAX};
    for (size_t n = 0; n < sizeof never / sizeof never[0]; n++) {
        lent = lend_run(REACHING, "\0\0", 2);
        number = reach(lent, never[n], &count, &line);
        check(number == 17 && line == 0 && count == 0, "thread %zu was never started: %u", never[n], number);
        check(word(lent.program, 2) == 14 && word(lent.state, 0) == 1 && word(lent.state, 1) == 2, "17 leaves the run's tables");
        check(kept(lent.list, 0), "17 keeps the list");
        give_all_back(lent);
    }

    lent = lend_run(CASE_E, "\0\0", 2);
    number = reach(lent, 0, &count, &line);
    check(number == 0 && count == 0 && zeros(lent.list, 0, 256), "a finished thread reaches nothing: %u, %zu", number, count);
    give_all_back(lent);

    lent = lend_run(CASE_D, "\0\0", 2);
    number = reach(lent, 0, &count, &line);
    check(number == 0 && count == 1 && zeros(lent.list, 0, 256), "a stopped run is reported on as it stands: %u, %zu", number, count);
    give_all_back(lent);
}

/* ---- Holders ---- */

/* So many places hold each object, as the call tells it and as word 3 of the object's record has it; the object after these was never made. */
static void held(const char *name, struct lent lent, size_t objects, const unsigned *counts)
{
    size_t count, line;
    for (size_t n = 0; n < objects; n++) {
        uint16_t number = holders_of(lent, n, &count, &line);
        check(number == 0 && line == 0 && count == counts[n], "%s, object %zu: %u, %zu holders", name, n, number, count);
        check(word(lent.state, 8 + 8 * n + 3) == counts[n], "%s, object %zu: its record has %u", name, n, word(lent.state, 8 + 8 * n + 3));
    }
    uint16_t number = holders_of(lent, objects, &count, &line);
    check(number == 21 && line == 0 && count == 0, "%s, object %zu was never made: %u, %zu holders", name, objects, number, count);
    check(word(lent.state, 0) == objects && zeros(lent.state, 8 + 8 * objects, 2056), "%s: %u objects", name, word(lent.state, 0));
}

/* In slot 2, in the channel, in thread 1's slot, and nowhere once thread 1 has finished. */
static void holders(void)
{
    static const unsigned one[] = {1}, none[] = {0};
    static const char turns[] = "\0\0\0\1\0\1";
    for (size_t made = 0; made < sizeof turns; made++) {
        struct lent lent = lend_run(CASE_A, turns, made);
        held("case A", lent, made > 1, made < 6 ? one : none);
        give_all_back(lent);
    }
    struct lent lent = lend_run(SHEETS, SHEETS_TURNS);
    held("the sheets", lent, OBJECTS(4, 2, 4, 2, 3, 1, 1, 2));
    give_all_back(lent);
    lent = lend_run(KIND "(kind (fields 1) (does))\n(thread)\n(let (new iso 0))\n(let (new imm 1 (take 1)))\n(give (read 2))\n", "\0\0", 2);
    held("a stopped run", lent, OBJECTS(1));
    give_all_back(lent);
}

/* A method on iso object 0, with imm object 1 for its argument, that calls itself. */
#define CALLING "(kind (fields 0) (does 1))\n(thread)\n(let (new iso 0))\n(let (new imm 0))\n(let (call 1 0 (read 2)))\n(give (take 1))\n" \
    "(method)\n(let (call 0 0 (read 1)))\n(give (read 1))\n"

/* Slot 0 of a method's frame is a place like any other. */
static void self_slots(void)
{
    for (unsigned calls = 0; calls < 16; calls++) {
        struct lent lent = lend_run(CALLING, zero_turns, 2 + calls);
        held("self slots", lent, OBJECTS(1 + calls, 1 + calls));
        give_all_back(lent);
    }
    struct lent lent = lend_run("(kind (fields 0) (does 1))\n(thread)\n(let (new iso 0))\n(let (new imm 0))\n(let (call 1 0 (read 2)))\n(give (take 1))\n"
                                "(method)\n(give (read 1))\n", zero_turns, 4);
    held("a method that has ended", lent, OBJECTS(1, 2));
    give_all_back(lent);
}

/* Each of two threads has the object in fifteen slots of each of fifteen frames, and in one slot more: more than a byte has room for. */
static void many_holders(void)
{
    static struct text text;
    static char turns[5 + 2 * 15 * 14] = "\0\0\0\1";
    add(&text, "(kind (fields 0) (does 2))\n(thread)\n(let (new imm 0))\n(let (spawn 1))\n(let (send 2 (read 1)))\n(let (call 1 0 (read 1)))\n"
               "(give (read 1))\n(thread)\n(let (recv 0))\n(let (call 1 0 (read 1)))\n(give (read 1))\n(method)\n");
    for (int n = 0; n < 13; n++)
        add(&text, "(let (read 1))\n");
    add(&text, "(let (call 0 0 (read 1)))\n(give (read 1))\n");
    memset(turns + 5 + 15 * 14, 1, 15 * 14);
    struct lent lent = lend_run(text.bytes, turns, sizeof turns);
    held("many holders", lent, OBJECTS(452));
    give_all_back(lent);
}

/* 21 comes after all other refusals, whatever the number, and leaves the run's tables. */
static void no_object(void)
{
    static const size_t never[] = {1, 2, 255, 256, 257, 65535, 65536, (size_t)1 << 32, SIZE_MAX};
    size_t count, line;
    for (size_t n = 0; n < sizeof never / sizeof never[0]; n++) {
        struct lent lent = lend_run(CASE_A, "\0\0\0\1\0", 5), ran = lend_run(CASE_A, "\0\0\0\1\0", 5);
        uint16_t number = holders_of(lent, never[n], &count, &line);
        run(ran);
        check(number == 21 && line == 0 && count == 0, "object %zu was never made: %u", never[n], number);
        check(memcmp(lent.program.bytes, ran.program.bytes, TABLE) == 0 && memcmp(lent.state.bytes, ran.state.bytes, TABLE) == 0,
              "21, object %zu: the tables hold the run", never[n]);
        give_all_back(lent);
        give_all_back(ran);

        lent = lend_all(CASE_A, strlen(CASE_A), "", 0, TABLE, TABLE - 1, 0);
        number = holders_of(lent, never[n], &count, &line);
        check(number == 9 && line == 0 && count == 0 && kept(lent.program, 0) && kept(lent.state, 0), "9 before 21, object %zu: %u", never[n], number);
        give_all_back(lent);

        lent = lend_run("(thread)\n(let (spawn 1))\n(give (read 0))\n", "", 0);
        number = holders_of(lent, never[n], &count, &line);
        check(number == 8 && line == 1 && count == 0 && kept(lent.program, 0) && kept(lent.state, 0), "8 before 21, object %zu: %u", never[n], number);
        give_all_back(lent);
    }
}

/* ---- Drawings ---- */

#define GRAPH(lines) "digraph objects {\n  node [style=filled];\n" lines "}\n"
#define IMM(n) "  " n " [label=\"" n " imm\", shape=box, fillcolor=lightblue];\n"
#define ISO(n) "  " n " [label=\"" n " iso\", shape=ellipse, fillcolor=palegreen];\n"
#define LOCAL(n) "  " n " [label=\"" n " local\", shape=house, fillcolor=khaki];\n"
#define UNSAFE(n) "  " n " [label=\"" n " unsafe\", shape=octagon, fillcolor=salmon];\n"
#define EDGE(from, to, field) "  " from " -> " to " [label=\"" field "\"];\n"

/* The run's drawing is this text, at the front of a buffer whose other bytes stay; the tables hold the run. */
static void drawn(const char *name, const char *script, const char *turns, size_t turns_len, const char *text)
{
    struct lent lent = lend_run(script, turns, turns_len), ran = lend_run(script, turns, turns_len);
    size_t length, line, wanted = strlen(text);
    run(ran);
    for (size_t more = 0; more < 4; more++) {
        struct part drawing = lend(DRAWING + more);
        uint16_t number = draw(lent, drawing, &length, &line);
        check(number == 0 && line == 0 && length == wanted, "%s: %u at line %zu, %zu bytes and not %zu", name, number, line, length, wanted);
        check(memcmp(drawing.bytes, text, wanted) == 0, "%s: the drawing is\n%.*s", name, (int)wanted, (const char *)drawing.bytes);
        check(kept(drawing, wanted), "%s: the other bytes stay", name);
        check(memcmp(lent.program.bytes, ran.program.bytes, TABLE) == 0 && memcmp(lent.state.bytes, ran.state.bytes, TABLE) == 0,
              "%s: the tables hold the run", name);
        give_back(drawing);
    }
    give_all_back(lent);
    give_all_back(ran);
}

static void drawings(void)
{
    static const char turns[] = "\0\0\0\1\0\1";
    for (size_t made = 0; made < sizeof turns; made++)
        drawn("case A", CASE_A, turns, made, made < 2 ? GRAPH("") : GRAPH(ISO("0")));
    drawn("each capability", KIND "(thread)\n(let (new imm 0))\n(let (new iso 0))\n(let (new local 0))\n(let (new unsafe 0))\n(give (read 1))\n",
          zero_turns, 4, GRAPH(IMM("0") ISO("1") LOCAL("2") UNSAFE("3")));
    drawn("the sheets", SHEETS, SHEETS_TURNS,
          GRAPH(IMM("0") IMM("1") UNSAFE("2") UNSAFE("3") LOCAL("4") LOCAL("5") LOCAL("6") LOCAL("7")
                EDGE("2", "3", "0") EDGE("2", "0", "1") EDGE("2", "0", "2") EDGE("3", "2", "0") EDGE("3", "2", "1") EDGE("3", "1", "2")
                EDGE("4", "5", "0") EDGE("4", "7", "1") EDGE("4", "7", "2") EDGE("5", "4", "0") EDGE("5", "4", "1") EDGE("5", "6", "2")));
    drawn("a stopped run", KIND "(kind (fields 1) (does))\n(thread)\n(let (new iso 0))\n(let (new imm 1 (take 1)))\n(give (read 2))\n",
          zero_turns, 2, GRAPH(ISO("0")));
    drawn("objects that nothing holds", CASE_E, zero_turns, 2, GRAPH(ISO("0")));
}

/* All objects that there can be, each with the one before it in its field. */
static void all_drawn(void)
{
    static struct text script, text;
    size_t turns;
    chain(&script, "imm", 256, "", "", &turns);
    add(&text, "digraph objects {\n  node [style=filled];\n" IMM("0"));
    for (int n = 1; n < 256; n++)
        add(&text, "  %d [label=\"%d unsafe\", shape=octagon, fillcolor=salmon];\n", n, n);
    for (int n = 1; n < 256; n++)
        add(&text, "  %d -> %d [label=\"0\"];\n", n, n - 1);
    add(&text, "}\n");
    drawn("256 objects", script.bytes, zero_turns, turns, text.bytes);
}

/* ---- Races ---- */

#define RACE(first, second, object, field) ((struct found){0, 1, first, second, object, field, 0})
#define NO_RACE ((struct found){0, 0, 0, 0, 0, 0, 0})

static int same_found(struct found a, struct found b)
{
    return a.number == b.number && a.race == b.race && a.first == b.first && a.second == b.second && a.object == b.object && a.field == b.field
        && a.line == b.line;
}

/* What is found, and that the tables hold the run. */
static void found(const char *name, const char *script, const char *turns, size_t turns_len, struct found expected)
{
    struct lent lent = lend_all(script, strlen(script), turns, turns_len, TABLE + 1, TABLE + 2, 0), ran = lend_run(script, turns, turns_len);
    struct found f = race(lent);
    check(same_found(f, expected), "%s: %u at line %zu, race %zu, turns %zu and %zu, object %zu, field %zu", name, f.number, f.line, f.race, f.first,
          f.second, f.object, f.field);
    run(ran);
    check(memcmp(lent.program.bytes, ran.program.bytes, TABLE) == 0 && memcmp(lent.state.bytes, ran.state.bytes, TABLE) == 0,
          "%s: the tables hold the run", name);
    check(kept(lent.program, TABLE) && kept(lent.state, TABLE), "%s: bytes past the tables stay", name);
    give_all_back(lent);
    give_all_back(ran);
}

/* Thread 0 makes object 0 and an unsafe node, object 1, of four fields, and sends the node to thread 1, which has it in slot 1. After six turns both
 * are at these lets; those of thread 0 fill its slots from 5 on, those of thread 1 from 2 on. */
#define SHARING(first, second) TWO KIND "(kind (fields 4) (does))\n(thread)\n(let (new imm 0))\n(let (new unsafe 1 (read 1) (read 1) (read 1) (read 1)))\n" \
    "(let (spawn 1))\n(let (send 3 (read 2)))\n" first "(give (read 1))\n(thread)\n(let (recv 0))\n" second "(give (read 1))\n"
#define SHARED "\0\0\0\0\1\0"
#define FIRST_SWAPS(field) "(let (swap 2 " field " (read 1)))\n"
#define SECOND_SWAPS(field) "(let (swap 1 " field " (read 1)))\n"
#define SEND_AGAIN "(let (send 3 (read 2)))\n"

static void races(void)
{
    static const char swaps[] = SHARING(FIRST_SWAPS("3"), SECOND_SWAPS("3"));
    found("two swaps", swaps, SHARED "\0\1", 8, RACE(6, 7, 1, 3));
    found("two swaps, the other way round", swaps, SHARED "\1\0", 8, RACE(6, 7, 1, 3));
    found("one swap", swaps, SHARED "\0", 7, NO_RACE);
    found("no turns", swaps, "", 0, NO_RACE);
    found("other turns between", swaps, SHARED "\0\2\377\0\1", 11, RACE(6, 10, 1, 3));
    found("a swap and a read", SHARING(FIRST_SWAPS("1"), "(let (field 1 1))\n"), SHARED "\0\1", 8, RACE(6, 7, 1, 1));
    found("a read and a swap", SHARING("(let (field 2 2))\n", SECOND_SWAPS("2")), SHARED "\0\1", 8, RACE(6, 7, 1, 2));
    found("two reads", SHARING("(let (field 2 0))\n", "(let (field 1 0))\n"), SHARED "\0\1", 8, NO_RACE);
    found("another field", SHARING(FIRST_SWAPS("0"), SECOND_SWAPS("1")), SHARED "\0\1", 8, NO_RACE);
    found("a swap and a copy", SHARING(FIRST_SWAPS("2"), "(let (copy imm 1))\n"), SHARED "\0\1", 8, RACE(6, 7, 1, 2));
    found("a copy and a swap", SHARING("(let (copy imm 2))\n", SECOND_SWAPS("3")), SHARED "\0\1", 8, RACE(6, 7, 1, 3));
    found("a turn that stops", SHARING(FIRST_SWAPS("0"), "(let (swap 1 4 (read 1)))\n"), SHARED "\0\1", 8, NO_RACE);
    found("after a stop", SHARING(FIRST_SWAPS("0") "(let (field 2 4))\n", SECOND_SWAPS("0")), SHARED "\0\0\1", 9, NO_RACE);
    found("put again, and not received", SHARING(FIRST_SWAPS("0") SEND_AGAIN, SECOND_SWAPS("0")), SHARED "\0\0\1", 9, RACE(6, 8, 1, 0));
    found("handed over", SHARING(FIRST_SWAPS("0") SEND_AGAIN, "(let (recv 0))\n" SECOND_SWAPS("0")), SHARED "\0\0\1\1", 10, NO_RACE);
    found("handed back", SHARING("(let (recv 3))\n" FIRST_SWAPS("0"), SECOND_SWAPS("0") "(let (send 0 (read 1)))\n"), SHARED "\1\1\0\0", 10, NO_RACE);
    found("sent back, and swapped first", SHARING(FIRST_SWAPS("0") "(let (recv 3))\n", SECOND_SWAPS("0") "(let (send 0 (read 1)))\n"), SHARED "\1\1\0\0", 10,
          RACE(6, 8, 1, 0));
    found("the earliest, and the last before it", SHARING(FIRST_SWAPS("1") FIRST_SWAPS("1") FIRST_SWAPS("0"), "(let (field 1 1))\n" SECOND_SWAPS("0")),
          SHARED "\0\0\0\1\1", 11, RACE(7, 9, 1, 1));
}

/* An iso goes to thread 1 and back; both swap its field, and none of it is a race. */
static void handed_on(void)
{
    static const char script[] = KIND "(kind (fields 1) (does))\n(thread)\n(let (new imm 0))\n(let (new iso 1 (read 1)))\n(let (spawn 1))\n"
        "(let (swap 2 0 (read 1)))\n(let (send 3 (take 2)))\n(let (recv 3))\n(let (swap 6 0 (read 1)))\n(give (read 1))\n"
        "(thread)\n(let (recv 0))\n(let (new imm 0))\n(let (swap 1 0 (read 2)))\n(let (send 0 (take 1)))\n(give (read 2))\n";
    found("an iso, handed on", script, "\0\0\0\0\0\1\1\1\0\1\0\0", 12, NO_RACE);
}

/* 1,024 turns are looked at, the last too; one more is refused before a short table and before whatever the text is. */
static void race_turns(void)
{
    static const char script[] = SHARING(FIRST_SWAPS("0"), SECOND_SWAPS("0"));
    static char turns[MOST_RACE_TURNS + 1];
    memset(turns, 2, sizeof turns);
    memcpy(turns, SHARED "\0", 7);
    turns[MOST_RACE_TURNS - 1] = 1;
    found("1,024 turns", script, turns, MOST_RACE_TURNS, RACE(6, MOST_RACE_TURNS - 1, 1, 0));
    found("1,023 turns", script, turns, MOST_RACE_TURNS - 1, NO_RACE);
    static const char *const texts[] = {script, "?", ""};
    for (size_t n = 0; n < 3 * 4 * 2; n++) {
        const char *text = texts[n % 3];
        size_t program = n / 3 % 2 == 0 ? TABLE : TABLE - 1, state = n / 3 / 2 % 2 == 0 ? TABLE : TABLE - 1, more = n / 12;
        struct lent lent = lend_all(text, strlen(text), turns, MOST_RACE_TURNS + more, program, state, 0);
        struct found f = race(lent);
        size_t number = more ? 1 : program < TABLE || state < TABLE ? 9 : n % 3 == 0 ? 0 : n % 3 == 1 ? 2 : 7;
        check(f.number == number && f.line == 0, "%zu turns, tables of %zu and %zu, text %zu: %u at line %zu, and not %zu", MOST_RACE_TURNS + more, program,
              state, n % 3, f.number, f.line, number);
        check(number == 0 || (f.race == 0 && f.first == 0 && f.second == 0 && f.object == 0 && f.field == 0), "refused with %zu: zeros", number);
        check(number == 0 || (kept(lent.program, 0) && kept(lent.state, 0)), "refused with %zu: every byte stays", number);
        give_all_back(lent);
    }
}

/* ---- Copies ---- */

/* The objects are met as 2, 3, 1, 0, and their copies are 4 to 7. The sheets themselves stay. */
static void copies(void)
{
    static const unsigned objects[] = {0, 0, 0, 4, 0, 0, 0, 0,  0, 0, 0, 2, 0, 0, 0, 0,  3, 1, 0, 4, 4, 1, 1, 0,  3, 1, 0, 2, 3, 3, 2, 0,
                                       2, 1, 1, 3, 6, 8, 8, 0,  2, 1, 1, 1, 5, 5, 7, 0,  2, 0, 1, 1, 0, 0, 0, 0,  2, 0, 1, 2, 0, 0, 0, 0};
    static const unsigned first[] = {1, 2, 0, 6, 7, 0, 258, 1, 2, 3, 4, 1}, second[] = {1, 0, 1, 2, 3, 258, 3, 5};
    struct lent lent = lend_all(SHEETS, strlen(SHEETS), SHEETS_TURNS, TABLE + 1, TABLE + 3, LIST);
    struct answer a = run(lent);
    check(same(a, (struct answer){OPEN, 0, 0, 0, 0, 9}), "the sheets: end %u, %zu moves", a.end, a.moves);
    check(word(lent.program, 2) == 15 && word(lent.program, 3) == 2, "the sheets leave their program");
    check(word(lent.state, 0) == 8 && word(lent.state, 1) == 2 && zeros(lent.state, 2, 8), "the head of the sheets' state");
    check(words_are(lent.state, 8, 64, objects) && zeros(lent.state, 72, 2056), "the sheets and their copies");
    check(words_are(lent.state, 2056, 12, first) && zeros(lent.state, 2068, 2362), "thread 0 of the sheets");
    check(words_are(lent.state, 2362, 8, second) && zeros(lent.state, 2370, 6954), "thread 1 of the sheets");
    check(word(lent.state, 6954) == 0 && word(lent.state, 6955) == 1 && zeros(lent.state, 6956, 8192), "the channel of the sheets");
    check(kept(lent.program, TABLE) && kept(lent.state, TABLE), "bytes past both tables stay after a copy");
    reaches("thread 0 reaches no copy", lent, 0, OBJECTS(0, 1, 2, 3));
    reaches("thread 1 reaches the sheets and the copies", lent, 1, OBJECTS(0, 1, 2, 3, 4, 5, 6, 7));
    give_all_back(lent);

    static const unsigned iso[] = {1, 0, 0, 1, 0, 0, 0, 0,  0, 0, 0, 1, 0, 0, 0, 0}, slots[] = {1, 0, 0, 2, 3, 0, 1, 2};
    lent = lend_run(COPY_OF_ISO, "\0\0", 2);
    a = run(lent);
    check(same(a, (struct answer){OPEN, 0, 0, 0, 0, 2}), "a copy of an iso: end %u, %zu moves", a.end, a.moves);
    check(word(lent.state, 0) == 2 && words_are(lent.state, 8, 16, iso) && words_are(lent.state, 2056, 8, slots), "the slot keeps its iso");
    reaches("an iso and its copy", lent, 0, OBJECTS(0, 1));
    give_all_back(lent);
}

static void copies_stop(void)
{
    answers("10, a copy", TWO KIND "(thread)\n(let (copy imm 0))\n(give (read 0))\n", "\0", 1, (struct answer){STOPPED, 10, 0, 0, 0, 0});
    answers("10, a copy of what was taken", TWO IN_THREAD("(let (take 1))\n(let (copy imm 1))\n"), "\0\0\0", 3,
            (struct answer){STOPPED, 10, 0, 0, 2, 2});
    answers("13, a copy", TWO "(thread)\n(let (spawn 0))\n(let (copy local 1))\n(give (read 1))\n", "\0\0", 2,
            (struct answer){STOPPED, 13, 0, 0, 1, 1});
    answers("20, a copy", TWO FOREIGN("(let (copy unsafe 2))\n"), "\0\0\0\0\0\1\1\1", 8, (struct answer){STOPPED, 20, 1, 1, 2, 7});
    answers("20, met on the way", TWO FOREIGN("(let (copy imm 1))\n"), "\0\0\0\0\0\1\1\1", 8, (struct answer){STOPPED, 20, 1, 1, 2, 7});

    struct lent lent = lend_run(TWO FOREIGN("(let (copy imm 1))\n"), "\0\0\0\0\0\1\1\1", 8);
    run(lent);
    check(word(lent.state, 0) == 3 && zeros(lent.state, 32, 2056), "a copy that stops makes no object");
    reaches("a report on a copy that stopped", lent, 1, OBJECTS(0, 1, 2));
    give_all_back(lent);
}

/* Of 128 objects there is room for all copies, to the last of 256: copy n is object 128 + n, and the copy of object 127 - n. */
static void copy_of_half(void)
{
    static struct text text;
    size_t turns, count, line, wrong = 0;
    chain(&text, "unsafe", 128, "(let (copy local 2))\n", "", &turns);
    struct lent lent = lend_run(text.bytes, zero_turns, turns + 1);
    struct answer a = run(lent);
    check(same(a, (struct answer){OPEN, 0, 0, 0, 0, turns + 1}), "a copy of 128 objects: end %u, number %zu, %zu moves", a.end, a.number, a.moves);
    check(word(lent.state, 0) == 256 && word(lent.state, 2064) == 129, "256 objects, and slot 3 holds the first copy");
    for (unsigned n = 128; n < 256; n++) {
        const unsigned words[] = {2, n < 255, 0, 1, n < 255 ? n + 2 : 0, 0, 0, 0};
        wrong += !words_are(lent.state, 8 + 8 * n, 8, words);
    }
    check(wrong == 0, "%zu of 128 copies are wrong", wrong);
    check(reach(lent, 0, &count, &line) == 0 && count == 256, "both chains are reached: %zu objects", count);
    give_all_back(lent);
}

/* A copy for which there is no room. There are so many objects then, and none is made. */
static void too_many(const struct text *text, size_t objects, size_t turns)
{
    struct lent lent = lend_run(text->bytes, zero_turns, turns + 1);
    struct answer a = run(lent);
    check(a.end == STOPPED && a.number == 16 && a.thread == 0 && a.block == 0 && a.moves == turns, "16, %zu objects: end %u, number %zu, %zu moves",
          objects, a.end, a.number, a.moves);
    check(word(lent.state, 0) == objects && zeros(lent.state, 8 + 8 * objects, 2056), "16, %zu objects: no copy is made", objects);
    give_all_back(lent);
}

/* Of 128 objects where there is one more, and of more than 128, not all copies can be made. */
static void copies_too_many(void)
{
    static const size_t lengths[] = {129, 200, 255, 256};
    static struct text texts[sizeof lengths / sizeof lengths[0]], beside;
    size_t turns;
    chain(&beside, "unsafe", 128, "(let (new imm 0))\n(let (copy unsafe 2))\n", "", &turns);
    too_many(&beside, 129, turns + 1);
    for (size_t n = 0; n < sizeof lengths / sizeof lengths[0]; n++) {
        chain(&texts[n], "unsafe", lengths[n], "(let (copy unsafe 2))\n", "", &turns);
        too_many(&texts[n], lengths[n], turns);
    }
}

/* Thread 1 gets thread 0's chain of 256 objects, of which the first is local: both 20 and 16 hold, and 20 goes first. */
static void foreign_and_too_many(void)
{
    static struct text text;
    static char list[512];
    size_t turns;
    chain(&text, "local", 256, "(let (spawn 4))\n(let (send 3 (read 2)))\n", "(thread)\n(let (recv 0))\n(let (copy unsafe 1))\n(give (read 0))\n",
          &turns);
    if (turns + 4 > sizeof list) {
        fprintf(stderr, "a list of turns has no room\n");
        exit(2);
    }
    memset(list + turns + 2, 1, 2);
    answers("20 before 16", text.bytes, list, turns + 4, (struct answer){STOPPED, 20, 1, 4, 1, turns + 3});
}

/* ---- The writer ---- */

/* Every form of a line, every number of digits, a method; its lines stand from word 72 on, eight words each, the last at 200. */
#define EVERY_FORM "(kind (fields 4) (does 2 2 2 2))\n(thread)\n(let (read 0))\n(let (take 1))\n(let (field 2 10))\n(let (swap 3 99 (take 2)))\n" \
    "(let (call 1 255 (read 4)))\n(let (new local 0 (read 1) (take 2) (read 3) (take 4)))\n(let (cast unsafe (take 5)))\n(let (spawn 1))\n" \
    "(let (send 8 (take 6)))\n(let (recv 8))\n(give (take 10))\n(thread)\n(give (take 0))\n(method)\n(give (take 1))\n"

/* A table is written as this text, and the buffer's other bytes stay. */
static void written(const char *name, struct part program, const char *text, size_t extra)
{
    struct part script = lend(SCRIPT + extra);
    size_t length, expected = strlen(text);
    uint16_t number = write_out(program, script, &length);
    check(number == 0 && length == expected, "%s: %u, %zu bytes", name, number, length);
    check(memcmp(script.bytes, text, expected) == 0, "%s: byte for byte", name);
    check(kept(script, expected), "%s: the buffer's other bytes stay", name);
    give_back(script);
    give_back(program);
}

static void not_written(const char *name, struct part program, size_t script_len, uint16_t number)
{
    struct part script = lend(script_len);
    size_t length;
    uint16_t answered = write_out(program, script, &length);
    check(answered == number && length == 0, "%s: %u, %zu bytes", name, answered, length);
    check(kept(script, 0), "%s: every byte of the buffer stays", name);
    give_back(script);
    give_back(program);
}

/* Word 89 of case D is its capability, 1 for iso; line 19 of the longest script, at word 224, has the field 25. */
static void writing(void)
{
    static const char *const scripts[] = {CASE_A, CASE_D, CASE_E, CASE_I, REACHING, ANSWERING, EVERY_FORM, TWO CASE_A, TWO CASE_I, TWO EVERY_FORM,
                                          SHEETS, COPY_OF_ISO};
    for (size_t n = 0; n < sizeof scripts / sizeof scripts[0]; n++)
        for (size_t extra = 0; extra < 4; extra++)
            written("a script comes back", loaded(scripts[n], 4, 0, extra), scripts[n], 3 - extra);
    written("16,384 bytes come back", loaded(longest(), 4, 0, 0), longest(), 0);
    written("16,384 bytes of edition 2 come back", loaded(longest_two(), 4, 0, 0), longest_two(), 0);
    not_written("18, 16,385 bytes", loaded(longest(), 226, 100, 0), SCRIPT, 18);
    not_written("18, 16,385 bytes of edition 2", loaded(longest_two(), 226, 100, 0), SCRIPT, 18);
    written("another script", loaded(CASE_D, 89, 3, 0), KIND "(thread)\n(let (new unsafe 0))\n(give (read 1))\n", 0);
}

/* The edition's word alone tells a text from the same text behind the first line. A copy has no text without that line; of the copy of an iso its
 * row is at word 96. */
static void written_editions(void)
{
    written("edition 1 as 2", loaded(CASE_A, 3, 2, 0), TWO CASE_A, 0);
    written("edition 2 as 1", loaded(TWO CASE_A, 3, 0, 0), CASE_A, 0);
    written("edition 2 as 1, the longest", loaded(longest_two(), 3, 0, 0), longest_two() + strlen(TWO), 0);
    written("another copy", loaded(COPY_OF_ISO, 97, 3, 0), TWO KIND "(thread)\n(let (new iso 0))\n(let (copy unsafe 1))\n(give (take 1))\n", 0);
    not_written("18, 16,395 bytes", loaded(longest(), 3, 2, 0), SCRIPT, 18);

    static const unsigned words[] = {1, 3, 258, 512, 514, 65535};
    for (size_t n = 0; n < sizeof words / sizeof words[0]; n++) {
        not_written("18, no edition", loaded(CASE_A, 3, words[n], 0), SCRIPT, 18);
        not_written("18, no edition of a copy", loaded(SHEETS, 3, words[n], 0), SCRIPT, 18);
    }
    static const struct { const char *name; size_t place; unsigned word; } changed[] = {
        {"18, a copy in edition 1", 3, 0}, {"18, a spare word of edition 2", 4, 2}, {"18, the first line counted", 2, 6},
        {"18, the first line counted for a block", 8, 3}, {"18, a copy outside a block", 80, 14}, {"18, form 15", 96, 15}, {"18, a copy to iso", 97, 1},
        {"18, a copy to a fifth capability", 97, 4}, {"18, a copy of a slot to come", 98, 2}, {"18, a copy of slot 257", 98, 257},
        {"18, a word after a copy", 99, 1},
    };
    for (size_t n = 0; n < sizeof changed / sizeof changed[0]; n++)
        not_written(changed[n].name, loaded(COPY_OF_ISO, changed[n].place, changed[n].word, 0), SCRIPT, 18);
}

/* Words of case A's table that no accepted text has; its nine lines stand from word 72 on, eight words each. */
static void not_scripts(void)
{
    static const struct { const char *name; size_t place; unsigned word; } changed[] = {
        {"18, fewer kinds", 0, 0}, {"18, more kinds", 0, 2}, {"18, fewer blocks", 1, 1}, {"18, more blocks", 1, 3},
        {"18, no line", 2, 0}, {"18, a line less", 2, 8}, {"18, a line more", 2, 10}, {"18, 65,535 lines", 2, 65535},
        {"18, a spare word", 4, 1}, {"18, the last spare word", 7, 2}, {"18, another first line", 8, 3}, {"18, a first line of no block", 10, 10},
        {"18, form 0", 72, 0}, {"18, form 14", 88, 14}, {"18, form 258", 80, 258}, {"18, an opener in a block", 88, 2},
        {"18, five fields", 73, 5}, {"18, 256 fields", 73, 256},
        {"18, a thread for a method", 74, 1}, {"18, a method after none", 75, 1}, {"18, no such block", 89, 2}, {"18, a fifth capability", 97, 4},
        {"18, no such kind", 98, 1}, {"18, operands unlike the fields", 99, 1}, {"18, slot 1000", 129, 1000}, {"18, a slot not yet filled", 129, 1},
        {"18, an operand of slot 256", 113, 512}, {"18, a word after the last part", 95, 1}, {"18, a row past the last", 144, 2},
        {"18, a word after all rows", 5448, 1}, {"18, the last word", 8191, 256},
    };
    for (size_t n = 0; n < sizeof changed / sizeof changed[0]; n++)
        not_written(changed[n].name, loaded(CASE_A, changed[n].place, changed[n].word, 0), SCRIPT, 18);
    not_written("18, self taken", loaded(EVERY_FORM, 201, 1, 0), SCRIPT, 18);
    not_written("18, old bytes", lend(TABLE), SCRIPT, 18);
    not_written("18, zeros", lend_fixed(zero_turns, TABLE), SCRIPT, 18);
    struct lent lent = lend_run(CASE_A, "\0\0\0\1\0", 5);
    run(lent);
    not_written("18, a state", lend_fixed(lent.state.bytes, TABLE), SCRIPT, 18);
    give_all_back(lent);
}

/* ---- The line finder ---- */

static void line_is(const char *text, size_t n, size_t start, size_t length)
{
    struct part part = lend_fixed(text, strlen(text));
    size_t at = UNSET, found = box_line(part.bytes, part.length, n, &at);
    check(at == start && found == length, "line %zu of %zu bytes: %zu from %zu", n, part.length, found, at);
    give_back(part);
}

static void line_finder(void)
{
    line_is("", 0, 0, 0);
    line_is("", SIZE_MAX, 0, 0);
    line_is("one\n\nthree\n", 0, 0, 3);
    line_is("one\n\nthree\n", 1, 4, 0);
    line_is("one\n\nthree\n", 2, 5, 5);
    line_is("one\n\nthree\n", 3, 11, 0);
    line_is("one\n\nthree\n", SIZE_MAX, 11, 0);
    line_is("one\ntwo", 1, 4, 3);
    line_is("one\ntwo", 2, 7, 0);
    line_is("\n", 0, 0, 0);
    line_is("\n", 1, 1, 0);
    line_is(longest(), 657, MOST_TEXT - 16, 15);
    line_is(TWO CASE_A, 0, 0, 10);
    line_is(TWO CASE_A, 1, 11, 24);
    line_is(longest_two(), 658, MOST_TEXT - 16, 15);
    size_t start = UNSET;
    check(box_line(NULL, 0, 3, &start) == 0 && start == 0, "a null text has no line");
}

/* ---- Calls from several threads at once, each on a small stack and on arguments of its own ---- */

enum { THREADS = 4, TIMES = 200, STACK = 256 * 1024, RACE_ROOM = 320 * 1024 };

/* A chain of 256 objects, the deepest that a copy or a report can walk. */
static struct text deepest;
static size_t deepest_turns;

/* Every call on its sample, then every call with the deepest chain for its text; and how often a thread found all as it should be. */
struct calling { struct made made[2 * CALLS]; int right; };

static void lend_calling(struct calling *calling)
{
    for (size_t n = 0; n < 2 * CALLS; n++) {
        const struct call *call = &calls[n % CALLS];
        calling->made[n] = lend_call(call, 0, 0);
        EACH_SLICE(call, m) {
            if (n >= CALLS && strcmp(call->slices[m].name, "text") == 0)
                lend_instead(&calling->made[n], m, lend_fixed(deepest.bytes, deepest.length));
            if (n >= CALLS && strcmp(call->slices[m].name, "turns") == 0)
                lend_instead(&calling->made[n], m, lend_fixed(zero_turns, deepest_turns + 1));
        }
    }
}

/* As made by one thread alone. */
static struct calling expected;

/* Whether box_race is among the calls: it takes more stack than the others. */
static int with_race;

static int same_calls(struct calling *calling)
{
    int same = 1;
    for (size_t n = 0; n < 2 * CALLS; n++) {
        if (!with_race && strcmp(calls[n % CALLS].name, "box_race") == 0)
            continue;
        make(&calling->made[n]);
        same = same && same_made(&calling->made[n], &expected.made[n]);
    }
    return same;
}

/* Counts the times that all calls of one thread answer as they should. */
static void *called(void *own)
{
    struct lent lent = lend_run(CASE_A, "\0\0\0\1\0", 5), deep = lend_run(deepest.bytes, zero_turns, deepest_turns + 1);
    struct part script = lend(SCRIPT);
    struct calling *calling = own;
    for (int n = 0; n < TIMES; n++) {
        size_t count, line, length;
        int same_run = same(run(lent), (struct answer){OPEN, 0, 0, 0, 0, 5}) && word(lent.state, 6955) == 1;
        int same_report = reach(lent, 1, &count, &line) == 0 && count == 1 && word(lent.list, 0) == 0;
        int same_text = write_out(lent.program, script, &length) == 0 && length == strlen(CASE_A) && memcmp(script.bytes, CASE_A, length) == 0;
        int same_copy = same(run(deep), (struct answer){STOPPED, 16, 0, 0, 2, deepest_turns});
        int same_walk = reach(deep, 0, &count, &line) == 0 && count == 256 && word(deep.list, 255) == 255;
        calling->right += same_run && same_report && same_text && same_copy && same_walk && same_calls(calling);
    }
    give_back(script);
    give_all_back(lent);
    give_all_back(deep);
    return NULL;
}

static void threads_on(size_t stack, struct calling *calling)
{
    pthread_t threads[THREADS];
    pthread_attr_t attributes;
    pthread_attr_init(&attributes);
    pthread_attr_setstacksize(&attributes, stack);
    for (int n = 0; n < THREADS; n++) {
        lend_calling(&calling[n]);
        if (pthread_create(&threads[n], &attributes, called, &calling[n]) != 0)
            exit(2);
    }
    for (int n = 0; n < THREADS; n++) {
        pthread_join(threads[n], NULL);
        check(calling[n].right == TIMES, "thread %d: %d calls of %d are right", n, calling[n].right, TIMES);
    }
    pthread_attr_destroy(&attributes);
}

static void several_threads(void)
{
    static struct calling small[THREADS], large[THREADS];
    chain(&deepest, "unsafe", 256, "(let (copy unsafe 2))\n", "", &deepest_turns);
    lend_calling(&expected);
    for (size_t n = 0; n < 2 * CALLS; n++)
        make(&expected.made[n]);
    threads_on(STACK, small);
    with_race = 1;
    threads_on(RACE_ROOM, large);
}

/* ---- The stack that a call takes, as the header says it ---- */

enum { PAINTED = 512 * 1024, READ_STACK = 24 * 1024, RACE_STACK = 224 * 1024, CALL_STACK = 72 * 1024 };

static size_t stack_of(const struct call *call)
{
    return strcmp(call->name, "box_read") == 0 ? READ_STACK : strcmp(call->name, "box_race") == 0 ? RACE_STACK : CALL_STACK;
}

struct on_stack { struct made *made; uintptr_t from; };

static void *make_on_stack(void *own)
{
    struct on_stack *one = own;
    one->from = (uintptr_t)__builtin_frame_address(0);
    make(one->made);
    return NULL;
}

/* How far below its caller a call wrote, on a stack that was painted before. */
static size_t stack_taken(struct made *made)
{
    struct on_stack one = {made, 0};
    pthread_t thread;
    pthread_attr_t attributes;
    size_t left = 0;
    uint8_t *stack = mmap(NULL, PAINTED, PROT_READ | PROT_WRITE, MAP_PRIVATE | MAP_ANONYMOUS, -1, 0);
    if (stack == MAP_FAILED)
        exit(2);
    memset(stack, FILL, PAINTED);
    pthread_attr_init(&attributes);
    pthread_attr_setstack(&attributes, stack, PAINTED);
    if (pthread_create(&thread, &attributes, make_on_stack, &one) != 0)
        exit(2);
    pthread_join(thread, NULL);
    pthread_attr_destroy(&attributes);
    while (left < PAINTED && stack[left] == FILL)
        left++;
    size_t taken = one.from - (uintptr_t)stack - left;
    munmap(stack, PAINTED);
    return taken;
}

/* The deepest chain is sent to a thread, which receives it. */
static void lend_sent(struct made *made)
{
    static struct text text;
    static char turns[MOST_RACE_TURNS];
    static size_t made_by;
    if (text.length == 0)
        chain(&text, "unsafe", 256, "(let (spawn 4))\n(let (send 3 (read 2)))\n", "(thread)\n(let (recv 0))\n(give (read 0))\n", &made_by);
    turns[made_by + 2] = 1;
    lend_instead(made, 0, lend_fixed(text.bytes, text.length));
    lend_instead(made, 1, lend_fixed(turns, made_by + 3));
}

/* Every call on its sample and on the deepest chain; and the question for races where that chain is a message. */
static void stacks(void)
{
    static struct calling calling;
    lend_calling(&calling);
    for (size_t n = 0; n < 2 * CALLS; n++) {
        const struct call *call = calling.made[n].call;
        size_t taken = stack_taken(&calling.made[n]);
        check(taken > 0 && taken < stack_of(call), "%s takes %zu bytes of stack, and not under %zu", call->name, taken, stack_of(call));
        if (n >= CALLS && strcmp(call->name, "box_race") == 0) {
            lend_sent(&calling.made[n]);
            taken = stack_taken(&calling.made[n]);
            check(calling.made[n].answer == 0 && got(&calling.made[n], "race") == 0, "a chain as a message has no race");
            check(word(calling.made[n].slices[3], 0) == 256 && word(calling.made[n].slices[3], 1) == 2, "a chain as a message: 256 objects");
            check(taken < RACE_STACK, "box_race takes %zu bytes of stack, and not under %d", taken, RACE_STACK);
        }
    }
}

int main(void)
{
    constants();
    versions();
    words();
    long_slices();
    short_slices();
    longer_slices();
    null_slices();
    reading();
    editions();
    runs();
    refusals();
    refusals_two();
    messages();
    rising();
    reports();
    holders();
    self_slots();
    many_holders();
    no_object();
    drawings();
    all_drawn();
    races();
    handed_on();
    race_turns();
    copies();
    copies_stop();
    copy_of_half();
    copies_too_many();
    foreign_and_too_many();
    writing();
    written_editions();
    not_scripts();
    line_finder();
    several_threads();
    stacks();
    printf("%u passed, %u failed\n", passed, failed);
    return failed != 0;
}
