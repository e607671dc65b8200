#include "notes.h"

#include "configurations.h"
#include "frames.h"
#include "status.h"

#include <stdio.h>

/* A configuration where runs are cut off: its parts, and the place of the edge
 * that the automaton (paper: the rule) does not allow, or PALTHRENNI_NONE at a
 * return. */
struct cut_off {
    struct parts parts;
    uint32_t edge;
};

/* Puts what an edge asks for into words. */
static struct words asked_for(uint8_t label)
{
    struct words words;
    if (label < FIRST_CALL)
        say(&words, "action %u", label);
    else
        say(&words, "a call of routine %u", label - (unsigned)FIRST_CALL);
    return words;
}

/* Puts it all into words, after the words for the configuration; gives 0 where
 * the edge is not one that leads from there. */
static int why_cut_off(const struct check *check, const struct cut_off *cut_off,
                       struct words *words)
{
    const struct parts *parts = &cut_off->parts;
    struct frame frame;
    if (cut_off->edge == PALTHRENNI_NONE)
        return parts->node == 1
            && say(words, "the return from routine %lu is heard, and state %lu has no"
                          " transition for it",
                   (unsigned long)parts->routine, (unsigned long)parts->state);
    uint32_t line = check->marks.sizes.routines + 2 + cut_off->edge;
    if (!find_frame(lines_of(check->file.bytes, check->file.len), line, &frame)
        || frame.numbers[0] != EDGE_FRAME || frame.numbers[1] != parts->routine
        || frame.numbers[2] != parts->node)
        return 0;
    return say(words, "edge %s (line %lu) asks for %s, and state %lu has no transition"
                      " for it",
               shown(&frame).text, (unsigned long)line, asked_for(frame.numbers[3]).text,
               (unsigned long)parts->state);
}

/* Asks for the next configuration that is cut off, at or above a number. Sets
 * the number to the one after it, or to PALTHRENNI_NONE if there is none. */
static int next_cut_off(struct check *check, uint32_t *from, struct cut_off *cut_off)
{
    const struct input *file = &check->file;
    const struct marks *marks = &check->marks;
    uint32_t line, found;
    uint32_t refusal = palthrenni_next_blocked(file->bytes, file->len,
                                               marks->bytes, marks->sizes.marks,
                                               check->work, marks->sizes.marks,
                                               *from, &line, &found, &cut_off->edge);
    if (refusal != PALTHRENNI_OK)
        return wrong(file->name, "the marks of the analysis were refused");
    if (found != PALTHRENNI_NONE && (found < *from || found >= marks->sizes.marks))
        return wrong(file->name, "where a run is cut off was listed out of order");
    cut_off->parts = parts_of(found, &marks->sizes);
    *from = found == PALTHRENNI_NONE ? found : found + 1;
    return 0;
}

/* The note, with the first configuration in words where they are not listed. */
static void print_count(const struct check *check, uint32_t count, const char *first)
{
    if (count == 0 && check->arguments.blocked)
        printf("note: no run is cut off\n");
    if (count == 0)
        return;
    printf("note: runs are cut off at %lu configuration%s", (unsigned long)count,
           plural(count));
    if (!check->arguments.blocked)
        printf(" (--blocked lists them); %s", first);
    printf("\n");
}

/* Lists the configurations where runs are cut off, with --blocked, and counts
 * them. Each is asked for, which costs a full analysis of the program. */
static int print_cut_off(struct check *check)
{
    uint32_t count = 0, from = 0;
    struct words first = {""};
    for (;;) {
        struct cut_off cut_off;
        struct words why;
        if (next_cut_off(check, &from, &cut_off) != 0)
            return WRONG;
        if (from == PALTHRENNI_NONE)
            break;
        if (!why_cut_off(check, &cut_off, &why))
            return wrong(check->file.name, "a run is said to be cut off by an edge that"
                                           " is not there");
        if (check->arguments.blocked)
            printf("%s: %s\n", in_words("cut off", cut_off.parts).text, why.text);
        if (count++ == 0)
            say(&first, "%s: %s", in_words("the first", cut_off.parts).text, why.text);
    }
    print_count(check, count, first.text);
    return 0;
}

int print_notes(struct check *check)
{
    struct program program;
    if (print_cut_off(check) != 0)
        return WRONG;
    read_program(lines_of(check->file.bytes, check->file.len), UINT32_MAX, &program);
    if (program.initial == 0)
        printf("note: no state is initial (no frame 49), so there is no run\n");
    if (program.rejecting == 0)
        printf("note: no state is rejecting (no frame 46), so there is none to arrive in\n");
    return 0;
}
