/*
 * What must hold of every call, checked over the rows of include/calls.txt: what is too long or too short is refused, in the row's order, and
 * changes nothing; bytes past what a call needs stay; an empty slice may be null; every number that is lent is written.
 */
enum answers { ANSWERS_REFUSAL, ANSWERS_END, ANSWERS_LENGTH, ANSWERS_VERSION };
enum { MOST_SLICES = 8, MOST_NUMBERS = 4, MOST_GETS = 16 };

/* What a row says of a slice; `turn` is its place among those whose length is checked. */
struct slice { const char *name; int written; size_t least, most, turn; };

struct call {
    const char *name;
    size_t (*make)(const struct part *slices, const size_t *numbers, size_t *gets);
    enum answers answers;
    size_t slice_count, number_count, get_count;
    struct slice slices[MOST_SLICES];
    const char *numbers[MOST_NUMBERS], *gets[MOST_GETS];
};

#include "calls.h" /* by tests/calls.py */

enum { CALLS = sizeof calls / sizeof calls[0] };

/* A call with what is lent to it and what comes of it. */
struct made {
    const struct call *call;
    struct part slices[MOST_SLICES];
    size_t numbers[MOST_NUMBERS], gets[MOST_GETS], answer;
};

#define EACH_CALL(call) for (const struct call *call = calls; call < calls + CALLS; call++)
#define EACH_SLICE(call, n) for (size_t n = 0; n < (call)->slice_count; n++)

/* What the slices that are read hold, by their names. Nothing refuses the first of these. */
enum { SAMPLES = 3 };

static struct part sample(const char *name, size_t which, size_t extra)
{
    static const char *const texts[SAMPLES] = {CASE_A, "?", TWO}, *const turns[SAMPLES] = {"\0\0\0\1\0", "", "\377"};
    static const size_t turn_counts[SAMPLES] = {5, 0, 1};
    static const unsigned spare_words[SAMPLES] = {0, 1, 65535};
    if (strcmp(name, "text") == 0)
        return lend_fixed(texts[which], strlen(texts[which]));
    if (strcmp(name, "turns") == 0)
        return lend_fixed(turns[which], turn_counts[which]);
    if (strcmp(name, "program") == 0)
        return loaded(CASE_A, 4, spare_words[which], extra);
    check(0, "there is no sample of %s", name);
    return lend(0);
}

/* Samples, and for writing as many bytes as are needed; of some slices a few more. */
static struct made lend_call(const struct call *call, size_t which, size_t extra)
{
    struct made made = {.call = call};
    EACH_SLICE(call, n) {
        const struct slice *slice = &call->slices[n];
        size_t more = slice->least > 0 ? extra * (n + 1) % 4 : 0;
        made.slices[n] = slice->written ? lend(slice->least + more) : sample(slice->name, which, more);
    }
    return made;
}

static void lend_instead(struct made *made, size_t n, struct part part)
{
    give_back(made->slices[n]);
    made->slices[n] = part;
}

/* So many bytes of a slice. */
static void cut(struct made *made, size_t n, size_t length)
{
    lend_instead(made, n, made->call->slices[n].written ? lend(length) : lend_fixed(made->slices[n].bytes, length));
}

static void give_call_back(struct made *made)
{
    EACH_SLICE(made->call, n)
        give_back(made->slices[n]);
}

static void make(struct made *made)
{
    for (size_t n = 0; n < made->call->get_count; n++)
        made->gets[n] = UNSET;
    made->answer = made->call->make(made->slices, made->numbers, made->gets);
}

/* A number that the call writes, by its name; 0 where it writes none of that name. */
static size_t got(const struct made *made, const char *name)
{
    for (size_t n = 0; n < made->call->get_count; n++)
        if (strcmp(made->call->gets[n], name) == 0)
            return made->gets[n];
    return 0;
}

/* The number of the refusal; 0 for none. */
static size_t refusal_of(const struct made *made)
{
    switch (made->call->answers) {
    case ANSWERS_REFUSAL: return made->answer;
    case ANSWERS_END: return made->answer == BOX_REFUSED ? got(made, "number") : 0;
    default: return 0;
    }
}

/* The same answer, numbers and bytes, these as far as a call needs them. */
static int same_made(const struct made *made, const struct made *other)
{
    int same = made->answer == other->answer && memcmp(made->gets, other->gets, made->call->get_count * sizeof made->gets[0]) == 0;
    EACH_SLICE(made->call, n) {
        const struct slice *slice = &made->call->slices[n];
        if (slice->written && made->slices[n].length >= slice->least && other->slices[n].length >= slice->least)
            same = same && memcmp(made->slices[n].bytes, other->slices[n].bytes, slice->least) == 0;
    }
    return same;
}

/* It is refused, whatever its numbers are; every byte stays. All is given back. */
static void refuses(const char *name, struct made made, size_t number, size_t line)
{
    const struct call *call = made.call;
    for (int last = call->number_count == 0; last < 2; last++) {
        for (size_t n = 0; n < call->number_count; n++)
            made.numbers[n] = last ? SIZE_MAX : 0;
        make(&made);
        check(refusal_of(&made) == number, "%s, %s: %zu, and not %zu", call->name, name, refusal_of(&made), number);
        for (size_t n = 0; n < call->get_count; n++) {
            size_t expected = strcmp(call->gets[n], "number") == 0 ? number : strcmp(call->gets[n], "line") == 0 ? line : 0;
            check(made.gets[n] == expected, "%s, %s: %s gets %zu, and not %zu", call->name, name, call->gets[n], made.gets[n], expected);
        }
    }
    EACH_SLICE(call, n)
        if (call->slices[n].written)
            check(kept(made.slices[n], 0), "%s, %s: every byte of %s stays", call->name, name, call->slices[n].name);
    give_call_back(&made);
}

/* Every call that takes a text and may refuse it refuses this one; one that is not there is lent as null. */
static void refused_text(const char *name, const char *text, size_t number, size_t line)
{
    EACH_CALL(call)
        EACH_SLICE(call, n)
            if (strcmp(call->slices[n].name, "text") == 0 && call->answers != ANSWERS_LENGTH) {
                struct made made = lend_call(call, 0, 0);
                lend_instead(&made, n, text == NULL ? (struct part){NULL, 0} : lend_fixed(text, strlen(text)));
                refuses(name, made, number, line);
            }
}

/* Over its most a slice is refused with 1, also where one or all that are checked after it are too short; at its most it is not. */
static void long_slices(void)
{
    EACH_CALL(call)
        EACH_SLICE(call, n) {
            const struct slice *slice = &call->slices[n];
            if (slice->most == SIZE_MAX)
                continue;
            struct made at_most = lend_call(call, 0, 0), made = lend_call(call, 0, 0);
            lend_instead(&at_most, n, lend_old(slice->most));
            make(&at_most);
            check(refusal_of(&at_most) != 1, "%s: %zu bytes of %s are not too many", call->name, slice->most, slice->name);
            give_call_back(&at_most);
            lend_instead(&made, n, lend_old(slice->most + 1));
            refuses("a byte too many", made, 1, 0);
            for (size_t m = 0; m <= call->slice_count; m++)
                for (size_t less = 0; less < 2; less++) {
                    size_t number = 1;
                    made = lend_call(call, 0, 0);
                    lend_instead(&made, n, lend_old(slice->most + 1));
                    EACH_SLICE(call, other)
                        if (call->slices[other].least > 0 && (other == m || m == call->slice_count)) {
                            cut(&made, other, less ? 0 : call->slices[other].least - 1);
                            number = call->slices[other].turn < slice->turn ? 9 : number;
                        }
                    refuses("a byte too many, others short", made, number, 0);
                }
        }
}

/* Under its least a slice is refused with 9, alone and with all others, whatever else may be wrong. */
static void short_slices(void)
{
    EACH_CALL(call)
        EACH_SLICE(call, n) {
            size_t least = call->slices[n].least;
            const size_t lengths[] = {0, 1, 2, least / 2 - 1, least / 2, least - 2, least - 1};
            for (size_t tried = 0; least > 0 && tried < sizeof lengths / sizeof lengths[0]; tried++)
                for (size_t which = 0; which < SAMPLES; which++) {
                    struct made alone = lend_call(call, which, 0), all = lend_call(call, which, 0);
                    EACH_SLICE(call, m)
                        if (call->slices[m].least > lengths[tried])
                            cut(&all, m, lengths[tried]);
                    cut(&alone, n, lengths[tried]);
                    refuses("a short slice", alone, 9, 0);
                    refuses("short slices", all, 9, 0);
                }
        }
}

/* With a few bytes more than it needs a call answers and writes the same, and the bytes past that stay. */
static void longer_slices(void)
{
    EACH_CALL(call) {
        struct made exact = lend_call(call, 0, 0);
        make(&exact);
        check(refusal_of(&exact) == 0, "%s: the sample is refused with %zu", call->name, refusal_of(&exact));
        for (size_t extra = 1; extra < 4; extra++) {
            struct made longer = lend_call(call, 0, extra);
            make(&longer);
            check(same_made(&exact, &longer), "%s: longer slices, the same answer", call->name);
            EACH_SLICE(call, n)
                if (call->slices[n].written)
                    check(kept(longer.slices[n], call->slices[n].least), "%s: bytes past %s stay", call->name, call->slices[n].name);
            give_call_back(&longer);
        }
        give_call_back(&exact);
    }
}

/* Without a byte a slice may be null, alone and with all others. */
static void null_slices(void)
{
    EACH_CALL(call) {
        struct made none = {.call = call}, all_empty = lend_call(call, 0, 0);
        size_t needs = 0;
        EACH_SLICE(call, n) {
            needs += call->slices[n].least;
            struct made null = lend_call(call, 0, 0), empty = lend_call(call, 0, 0);
            lend_instead(&null, n, (struct part){NULL, 0});
            lend_instead(&empty, n, lend(0));
            lend_instead(&all_empty, n, lend(0));
            make(&null);
            make(&empty);
            check(same_made(&null, &empty), "%s: a null slice, %s", call->name, call->slices[n].name);
            give_call_back(&null);
            give_call_back(&empty);
        }
        make(&none);
        make(&all_empty);
        check(same_made(&none, &all_empty), "%s: all slices null", call->name);
        give_call_back(&all_empty);
        if (needs > 0)
            refuses("all slices null", none, 9, 0);
    }
}
