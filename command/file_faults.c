#include "file_faults.h"

#include "line_faults.h"
#include "palthrenni.h"

/* The frame of a routine that is not the one due. */
static int bad_routine_frame(const struct frame *frame, const struct program *before,
                             struct words *words)
{
    uint8_t routine = frame->numbers[1];
    uint32_t due = before->routine_frames;
    if (routine < due)
        return say(words, "routine %02X has its frame 52 already, line %u", routine,
                   routine + 2u);
    return say(words, "the frame 52 of routine %02lX is due, and this is that of"
                      " routine %02X", (unsigned long)due, routine);
}

/* Where there are transitions and rows. */
static int is_mixed(const struct frame *frame, const struct program *before)
{
    return (frame->numbers[0] == ROW_FRAME && before->transitions > 0)
        || (frame->numbers[0] == TRANSITION_FRAME && before->rows > 0);
}

/* The first frame, and a second 50. */
static int bad_first(const struct frame *frame, const struct program *before,
                     struct words *words)
{
    int is_sizes = frame->numbers[0] == SIZES_FRAME;
    if (before->frames == 0 && !is_sizes)
        return say(words, "a frame %02X, and the first frame of a file is a 50",
                   frame->numbers[0]);
    if (before->frames > 0 && is_sizes)
        return say(words, "a second frame 50, and a file has one, as its first");
    return 0;
}

/* The order is broken (4): whichever of its rules is, in words. */
static int bad_order(const struct frame *frame, const struct program *before,
                     struct words *words)
{
    uint8_t kind = frame->numbers[0], last = before->last.numbers[0];
    if (bad_first(frame, before, words))
        return 1;
    if (is_mixed(frame, before))
        return say(words, "a frame %02X in a file with frames %02X; a file has"
                          " transitions, 54, or rows, 55", kind,
                   kind == ROW_FRAME ? TRANSITION_FRAME : ROW_FRAME);
    if (place_of_kind(kind) < place_of_kind(last))
        return say(words, "a frame %02X after a frame %02X; the kinds come in the order"
                          " 50, 52, 53, 54 or 55, 49, 46, 45", kind, last);
    if (kind == ROUTINE_FRAME && frame->numbers[1] != before->routine_frames)
        return bad_routine_frame(frame, before, words);
    if (kind != ROUTINE_FRAME && before->routine_frames < before->routines)
        return say(words, "the frame 52 of routine %02lX is due; there are %lu routines",
                   (unsigned long)before->routine_frames,
                   (unsigned long)before->routines);
    return kind == last ? not_above(frame, &before->last, words) : 0;
}

/* There are as many of the kind as there may be (6). */
static int too_many(const struct frame *frame, struct words *words)
{
    switch (frame->numbers[0]) {
    case EDGE_FRAME: return say(words, "the 257th edge; there may be 256");
    case TRANSITION_FRAME: return say(words, "the 513th transition; there may be 512");
    case ROW_FRAME: return say(words, "the 257th row; there may be 256");
    default: return 0;
    }
}

/* The end frame has another count (7). */
static int bad_end_count(const struct frame *frame, uint32_t frames,
                         struct words *words)
{
    unsigned says = frame->numbers[1] * 256u + frame->numbers[2];
    return say(words, "the end frame says %u, there %s %lu frame%s: write 45%04lX", says,
               frames == 1 ? "is" : "are", (unsigned long)frames, plural(frames),
               (unsigned long)frames);
}

/* The file has no end frame: there is no line at all, or it stops (8). */
static int no_end(const struct program *before, struct words *words)
{
    if (before->frames == 0)
        return say(words, "the file is empty");
    return say(words, "the end frame is missing: write 45%04lX as the last line",
               (unsigned long)before->frames);
}

int file_fault(struct lines lines, uint32_t refusal, uint32_t line,
               struct words *words)
{
    struct program before;
    struct frame frame;
    if (line == 0)
        return 0;
    read_program(lines, line - 1, &before);
    if (!find_frame(lines, line, &frame))
        return refusal == PALTHRENNI_FILE_END ? no_end(&before, words) : 0;
    switch (refusal) {
    case PALTHRENNI_BAD_LINE: return bad_line(&frame, words);
    case PALTHRENNI_UNKNOWN_KIND: return bad_kind(&frame, words);
    case PALTHRENNI_WRONG_COUNT: return bad_count(&frame, before.states, words);
    case PALTHRENNI_ORDER: return bad_order(&frame, &before, words);
    case PALTHRENNI_RANGE: return bad_range(&frame, &before, words);
    case PALTHRENNI_TABLE_FULL: return too_many(&frame, words);
    case PALTHRENNI_END_COUNT: return bad_end_count(&frame, before.frames, words);
    case PALTHRENNI_FILE_END:
        return say(words, "%s follows the end frame, line %lu, and nothing may",
                   frame.len > 0 ? "it" : "an empty line", (unsigned long)line - 1);
    default: return 0;
    }
}

/* The lines of the first two rows that meet a pair; 0 for one that there is not. */
static void find_rows(struct lines lines, uint32_t state, uint32_t action,
                      unsigned long found[2])
{
    struct frame frame;
    int count = 0;
    found[0] = found[1] = 0;
    for (unsigned long line = 1; next_frame(&lines, &frame) && count < 2; line++) {
        if (frame.numbers[0] == ROW_FRAME && (row_states(&frame) >> state & 1)
            && (row_actions(&frame) >> action & 1))
            found[count++] = line;
    }
}

int pair_fault(struct lines lines, uint32_t refusal, uint32_t state,
               uint32_t action, struct words *words)
{
    struct program program;
    unsigned long found[2];
    if (state >= 16 || action >= 32)
        return 0;
    read_program(lines, UINT32_MAX, &program);
    find_rows(lines, state, action, found);
    if (refusal == PALTHRENNI_PAIR_MET_TWICE && found[1] != 0)
        return say(words, "state %lu, action %lu: the rows of lines %lu and %lu meet them",
                   (unsigned long)state, (unsigned long)action, found[0], found[1]);
    if (refusal == PALTHRENNI_PAIR_NOT_MET && found[0] == 0)
        return say(words, "state %lu, action %lu: a row is missing that has state bit"
                          " %0*lX and action bit %08lX",
                   (unsigned long)state, (unsigned long)action,
                   program.states > 8 ? 4 : 2, 1ul << state, 1ul << action);
    return say(words, "state %lu, action %lu", (unsigned long)state,
               (unsigned long)action);
}

int sizes_fault(const struct program *program, struct words *words)
{
    unsigned long nodes = longest_routine(program);
    unsigned long product = program->routines * nodes * program->states * program->states;
    return say(words, "%lu x %lu x %lu x %lu = %lu", (unsigned long)program->routines,
               nodes, (unsigned long)program->states, (unsigned long)program->states,
               product);
}
