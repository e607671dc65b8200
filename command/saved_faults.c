#include "saved_faults.h"

#include "configurations.h"
#include "line_faults.h"

#include <string.h>

/* So many transitions a program could have when old marks were saved. */
#define OLD_TRANSITIONS 256

/* The program is larger than any was when old marks were saved (24). */
static int too_large_to_save(const struct input *file, struct words *words)
{
    struct program program;
    read_program(lines_of(file->bytes, file->len), UINT32_MAX, &program);
    for (unsigned routine = 0; routine < ROUTINES_MOST; routine++) {
        if (program.nodes[routine] > old_sizes.nodes)
            return say(words, "routine %u has %lu nodes", routine,
                       (unsigned long)program.nodes[routine]);
    }
    if (program.states > old_sizes.states)
        return say(words, "there are %lu states", (unsigned long)program.states);
    if (program.transitions > OLD_TRANSITIONS)
        return say(words, "there are %lu transitions", (unsigned long)program.transitions);
    return 0;
}

/* Old marks have another length (9). */
static int bad_old_length(const struct sheet *sheet, struct words *words)
{
    if (sheet->len < PALTHRENNI_OLD_MARKS_SIZE)
        return say(words, "%lu byte%s, and old marks have %d", (unsigned long)sheet->len,
                   plural(sheet->len), PALTHRENNI_OLD_MARKS_SIZE);
    if (sheet->len > PALTHRENNI_OLD_MARKS_SIZE)
        return say(words, "more than the %d bytes that old marks have",
                   PALTHRENNI_OLD_MARKS_SIZE);
    return 0;
}

/* The first configuration whose byte is another one in the program's own old
 * marks (25). */
static int foreign_old_marks(const struct sheet *sheet, const struct saved *own,
                             struct words *words)
{
    struct words number;
    for (uint32_t at = 0; at < own->old_len && at < sheet->len; at++) {
        if (sheet->bytes[at] == own->old_marks[at])
            continue;
        say(&number, "number %lu", (unsigned long)at);
        return say(words, "%s: its byte is %02X, and the program's own old marks have"
                          " %02X there",
                   in_words(number.text, parts_of(at, &old_sizes)).text,
                   sheet->bytes[at], own->old_marks[at]);
    }
    return bad_old_length(sheet, words);
}

static int is_same_line(const struct frame *one, const struct frame *other)
{
    return one->len == other->len && one->has_end == other->has_end
        && memcmp(one->bytes, other->bytes, one->len) == 0;
}

/* What is wrong with a line that is not the one that is due; none is due after
 * the end frame. */
static struct words why_foreign(const struct frame *line, const struct frame *due)
{
    struct words why;
    if (due == NULL)
        say(&why, "%s follows the end frame, and nothing may",
            line->len > 0 ? "it" : "an empty line");
    else if (!bad_line(line, &why))
        say(&why, "the program's own frames have %s there", shown(due).text);
    return why;
}

/* The first line that is another one in the program's own frames (25). */
static int foreign_frames(const struct sheet *sheet, const struct saved *own,
                          struct words *words)
{
    struct lines given = lines_of(sheet->bytes, sheet->len);
    struct lines wanted = lines_of(own->frames, own->frames_len);
    struct frame line, due;
    for (unsigned long at = 1;; at++) {
        int is_there = next_frame(&given, &line), is_due = next_frame(&wanted, &due);
        if (!is_there && !is_due)
            return 0;
        if (!is_there)
            return say(words, "line %lu is missing: the program's own frames have %s"
                              " there", at, shown(&due).text);
        if (!is_due || !is_same_line(&line, &due))
            return say_of_line(words, at, &line,
                               why_foreign(&line, is_due ? &due : NULL).text);
    }
}

int saved_fault(const struct check *check, uint32_t refusal, struct words *words)
{
    const struct sheet *sheet = &check->sheet;
    int is_old = check->arguments.old_sheet != NULL;
    switch (refusal) {
    case PALTHRENNI_TOO_LARGE_TO_SAVE: return too_large_to_save(&check->file, words);
    case PALTHRENNI_MARKS_LENGTH: return is_old ? bad_old_length(sheet, words) : 0;
    case PALTHRENNI_FOREIGN_SAVED:
        return is_old ? foreign_old_marks(sheet, &check->own, words)
                      : foreign_frames(sheet, &check->own, words);
    default: return 0;
    }
}
