/* The freezer box for a C host, x86-64: link libfreezerbox.a. `make` builds it, `make install` puts it where
 * `pkg-config --cflags --libs freezerbox` finds it, this header as freezerbox/box.h.
 *
 * Words cross as bytes, low byte first: word i of a table is table[2 * i] + 256 * table[2 * i + 1]. docs/LAYOUT.md has both tables to the word.
 *
 * Of every call:
 * - A slice is a pointer and its length in bytes. No pointer may be null unless it is a slice's and the length is 0.
 * - What is lent is lent for the call alone: nothing is kept after it, and nothing is carried from one call to the next.
 * - Slices and numbers that the call writes must overlap no other argument.
 * - The tables, the list and the buffers are written, never read: what they held does not matter. Bytes past BOX_TABLE_BYTES (BOX_LIST_BYTES)
 *   keep their value, and those of a buffer past its text. Only box_write reads a table, which may hold any bytes; it writes none.
 * - Every number that is lent by pointer is written by every call, 0 where there is nothing to say.
 * - A call takes under 72 KB of stack, of which the walk through a chain of 256 objects, for a copy or a report, takes 33 KB; box_read takes
 *   under 24 KB, and box_race under 224 KB. A call allocates nothing, and may be made by several threads at once, each on arguments of its own.
 * - Of the C library a call needs memcpy and memset, and nothing else.
 */
#ifndef BOX_H
#define BOX_H

#include <stddef.h>
#include <stdint.h>

#ifdef __cplusplus
extern "C" {
#endif

/* The version of this header. The minor number counts the requests that have landed since the base, the patch number any other change; in one
 * number each has two digits. Header and library belong together where box_version() is BOX_VERSION. */
#define BOX_VERSION_MAJOR 1
#define BOX_VERSION_MINOR 8
#define BOX_VERSION_PATCH 0
#define BOX_VERSION (10000 * BOX_VERSION_MAJOR + 100 * BOX_VERSION_MINOR + BOX_VERSION_PATCH)

/* The shortest table and list that may be lent, in bytes: 8,192 and 256 words. A shorter one is refused with BOX_SHORT_TABLE. */
#define BOX_TABLE_BYTES 16384
#define BOX_LIST_BYTES 512

/* The longest text, in bytes, and the most turns, a byte each; box_race takes fewer. More is refused with BOX_OVERLONG. */
#define BOX_TEXT_MOST 16384
#define BOX_TURNS_MOST 32768
#define BOX_RACE_TURNS_MOST 1024

/* The shortest buffer that may be lent for a script to be written, in bytes. A shorter one is refused with BOX_SHORT_TABLE. */
#define BOX_SCRIPT_BYTES 16384

/* The same for a drawing. No drawing is so long: it has at most 42,283 bytes. */
#define BOX_DRAWING_BYTES 65536

/* How a run ends. */
#define BOX_FINISHED 0 /* all threads finished */
#define BOX_STUCK 1    /* some unfinished, and each of these would wait */
#define BOX_OPEN 2     /* neither */
#define BOX_STOPPED 3  /* a turn stopped it */
#define BOX_REFUSED 4  /* it was turned away */

/* Refusals. 1 to 9 change no byte of a table, list or buffer. */
#define BOX_OVERLONG 1    /* text or turns too long */
#define BOX_STRAY_BYTE 2  /* a byte outside the list */
#define BOX_MALFORMED 3   /* not a form of the text's edition, out of its place, or without its LF */
#define BOX_OVER_COUNT 4  /* a most, or 255, exceeded */
#define BOX_UNBOUND 5     /* slot not yet filled in its block */
#define BOX_SELF_TAKEN 6  /* take of slot 0 in a method */
#define BOX_UNFINISHED 7  /* no block, or the last one open */
#define BOX_DANGLING 8    /* no such kind or block, wrong sort of block, operands unlike the kind's fields, block 0 not a thread */
#define BOX_SHORT_TABLE 9 /* a lent table, list or buffer under its length */

/* Stops. */
#define BOX_ABSENT 10      /* a slot that holds nothing */
#define BOX_NO_FIELD 11    /* no such field */
#define BOX_NO_METHOD 12   /* no such method */
#define BOX_WRONG_THING 13 /* a channel where an object is wanted, or an object where a channel is */
#define BOX_PERMISSION 14  /* the capabilities do not allow it, on another ground than 19 or 20 */
#define BOX_CAST 15        /* capability not K */
#define BOX_USED_UP 16     /* objects, threads or frames used up; too few objects left for all that a copy makes */
#define BOX_ALIAS 19       /* a second reference to an iso: a read of one, or of a field that holds one */
#define BOX_FOREIGN 20     /* something local to another thread: the target, a value for a new object or for a local, an object that a copy meets */

/* Refusals of a report alone; the run was made. */
#define BOX_NO_THREAD 17 /* report on a thread never started */
#define BOX_NO_OBJECT 21 /* holders of an object never made */

/* A refusal of box_write alone. */
#define BOX_NO_SCRIPT 18 /* no accepted text reads to this table */

/* The word of a number, 1 to 21, as box_run and the others tell it; "" for what is none of them. It stands here and not in the library. */
static inline const char *box_word(uint16_t number)
{
    switch (number) {
    case BOX_OVERLONG: return "overlong";
    case BOX_STRAY_BYTE: return "stray byte";
    case BOX_MALFORMED: return "malformed";
    case BOX_OVER_COUNT: return "over count";
    case BOX_UNBOUND: return "unbound";
    case BOX_SELF_TAKEN: return "self taken";
    case BOX_UNFINISHED: return "unfinished";
    case BOX_DANGLING: return "dangling";
    case BOX_SHORT_TABLE: return "short table";
    case BOX_ABSENT: return "absent";
    case BOX_NO_FIELD: return "no field";
    case BOX_NO_METHOD: return "no method";
    case BOX_WRONG_THING: return "wrong thing";
    case BOX_PERMISSION: return "permission";
    case BOX_CAST: return "cast";
    case BOX_USED_UP: return "used up";
    case BOX_NO_THREAD: return "no thread";
    case BOX_NO_SCRIPT: return "no script";
    case BOX_ALIAS: return "alias";
    case BOX_FOREIGN: return "foreign";
    case BOX_NO_OBJECT: return "no object";
    default: return "";
    }
}

/* The version of the library that was linked, as BOX_VERSION is that of this header. */
uint32_t box_version(void);

/* Reads a script into a program table. A text whose first line is `(script 2)` is of edition 2, which has `copy`; every other is of edition 1.
 *
 *   text      the script, lent to be read
 *   program   the program table, at least BOX_TABLE_BYTES
 *   line      gets the refusal's line: from 0, for BOX_UNFINISHED the number of lines, for BOX_OVERLONG and BOX_SHORT_TABLE 0. The line
 *             `(script 2)` counts, as line 0; in the table it does not
 *
 * Answers 0 where the script was read, and the table holds it; else the refusal's number, 1 to 9, and the table keeps every byte. */
uint16_t box_read(const uint8_t *text, size_t text_len,
                  uint8_t *program, size_t program_len,
                  size_t *line);

/* Writes a script back out from its program table. Every text that box_read accepts, of either edition, comes back byte for byte.
 *
 *   program   the program table, lent to be read, at least BOX_TABLE_BYTES; bytes past these are not looked at
 *   script    gets the text, at least BOX_SCRIPT_BYTES; bytes past the text keep their value
 *   length    gets how many bytes were written
 *
 * Answers 0 where the script was written. Else BOX_SHORT_TABLE, or BOX_NO_SCRIPT where no accepted text reads to this table; the buffer then
 * keeps every byte, and the length is 0. */
uint16_t box_write(const uint8_t *program, size_t program_len,
                   uint8_t *script, size_t script_len,
                   size_t *length);

/* Runs a script on a list of turns, from a fresh start. It reads the text itself.
 *
 *   text      the script, lent to be read
 *   turns     the turns, lent to be read: a byte is the number of the thread whose turn it is
 *   program   the program table, at least BOX_TABLE_BYTES
 *   state     the state table, at least BOX_TABLE_BYTES
 *   number    gets the number of the stop (10 to 16, 19 or 20) or of the refusal (1 to 9)
 *   thread    gets the thread of the stop
 *   block     gets the block of the stop
 *   line      gets the line of the stop, from 0 after the block's opener; or of the refusal, as box_read says it
 *   moves     gets the number of turns that moved
 *
 * Answers BOX_FINISHED, BOX_STUCK, BOX_OPEN or BOX_STOPPED, and the tables hold the script and the state, for a stop the one before that turn;
 * or BOX_REFUSED, and the tables keep every byte. */
uint16_t box_run(const uint8_t *text, size_t text_len,
                 const uint8_t *turns, size_t turns_len,
                 uint8_t *program, size_t program_len,
                 uint8_t *state, size_t state_len,
                 size_t *number, size_t *thread, size_t *block, size_t *line, size_t *moves);

/* Runs a script as box_run does, then lists every object that a thread reaches. The message that a waiting sender put counts as the sender's
 * as long as the channel still holds it.
 *
 *   text, turns, program, state   as for box_run
 *   thread    the number of the thread to report on
 *   list      gets the numbers of the objects, a word each, in rising order; then zeros. At least BOX_LIST_BYTES
 *   count     gets how many objects there are
 *   line      gets the refusal's line, as box_read says it; for BOX_NO_THREAD 0
 *
 * Answers 0 where it reported, also on a run that stopped; else the refusal's number. After 1 to 9 the tables and the list keep every byte;
 * after BOX_NO_THREAD the tables hold the run and the list keeps every byte. */
uint16_t box_reach(const uint8_t *text, size_t text_len,
                   const uint8_t *turns, size_t turns_len,
                   uint8_t *program, size_t program_len,
                   uint8_t *state, size_t state_len,
                   size_t thread,
                   uint8_t *list, size_t list_len,
                   size_t *count, size_t *line);

/* Runs a script as box_run does, then tells how many places hold an object: slots of all frames of all threads, slot 0 of a method's frame too,
 * fields of all objects, and messages in channels. The run keeps the count in the object's record; nothing is counted for the answer.
 *
 *   text, turns, program, state   as for box_run
 *   object    the number of the object
 *   count     gets how many places hold it
 *   line      gets the refusal's line, as box_read says it; for BOX_NO_OBJECT 0
 *
 * Answers 0 where it told, also on a run that stopped; else the refusal's number. After 1 to 9 the tables keep every byte; after BOX_NO_OBJECT
 * the tables hold the run. */
uint16_t box_holders(const uint8_t *text, size_t text_len,
                     const uint8_t *turns, size_t turns_len,
                     uint8_t *program, size_t program_len,
                     uint8_t *state, size_t state_len,
                     size_t object,
                     size_t *count, size_t *line);

/* Runs a script as box_run does, then draws the objects of the run, for support staff: a directed graph in the DOT language of Graphviz, with a node
 * for each object that was made, its label the number and the capability, and an edge for each field that holds an object, its label the field's
 * number. docs/DRAWING.md has the text to the byte. It ends in LF, not in 0.
 *
 *   text, turns, program, state   as for box_run
 *   graph     gets the text, at least BOX_DRAWING_BYTES; bytes past the text keep their value
 *   written   gets how many bytes were written
 *   line      gets the refusal's line, as box_read says it
 *
 * Answers 0 where it drew, also a run that stopped, as it stands; else the refusal's number, 1 to 9: tables and buffer then keep every byte, and
 * written gets 0. */
uint16_t box_draw(const uint8_t *text, size_t text_len,
                  const uint8_t *turns, size_t turns_len,
                  uint8_t *program, size_t program_len,
                  uint8_t *state, size_t state_len,
                  uint8_t *graph, size_t graph_len,
                  size_t *written, size_t *line);

/* Runs a script as box_run does, and tells whether the run has a race. Two turns that moved race when different threads made them, each reads or
 * swaps the same field of the same object, and at least one swaps; unless between them the first thread put a message from which the object was
 * reached and the second afterwards received one from which it was reached. A copy reads every field of every object that it meets. No run of a
 * script in which the word unsafe does not occur has a race. docs/RACES.md says more.
 *
 *   text, turns, program, state   as for box_run; at most BOX_RACE_TURNS_MOST turns
 *   race      gets 1 where the run has a race, else 0
 *   first     gets the place in the list, from 0, of the last turn before the second that it races with
 *   second    gets the place of the earliest turn that races with one before it
 *   object    gets the object that they race on
 *   field     gets its field
 *   line      gets the refusal's line, as box_read says it
 *
 * Answers 0 where it told, also on a run that stopped, and the tables hold the run; else the refusal's number, 1 to 9: the tables then keep every
 * byte. Where there is no race, and with a refusal, first, second, object and field get 0. */
uint16_t box_race(const uint8_t *text, size_t text_len,
                  const uint8_t *turns, size_t turns_len,
                  uint8_t *program, size_t program_len,
                  uint8_t *state, size_t state_len,
                  size_t *race, size_t *first, size_t *second, size_t *object, size_t *field, size_t *line);

/* Finds line n of a text, of any bytes and any length.
 *
 *   text      the text, lent to be read
 *   n         which line, from 0; `(script 2)` is a line like any other
 *   start     gets where the line starts in the text; past the last line, text_len
 *
 * Answers the line's length without its LF; past the last line, 0. The line is text + *start, and lives as long as the text does. */
size_t box_line(const uint8_t *text, size_t text_len, size_t n, size_t *start);

#ifdef __cplusplus
}
#endif

#endif
