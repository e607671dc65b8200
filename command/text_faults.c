#include "text_faults.h"

#include "file_faults.h"
#include "line_faults.h"
#include "palthrenni.h"

/* What a text is judged by: its first frame, and the program of the file, with
 * the count of nodes that the first frame says. */
struct exchange {
    struct frame first;
    struct program program;
};

/* Whether a line of the text has a fault, and which: the line, the one before
 * it, and what the text is judged by. */
typedef int fault(const struct frame *frame, const struct frame *last,
                  const struct exchange *exchange, struct words *words);

/* It is no line of a text (12). */
static int bad_text_line(const struct frame *frame, const struct frame *last,
                         const struct exchange *exchange, struct words *words)
{
    (void)last;
    (void)exchange;
    if (bad_line(frame, words))
        return 1;
    if (frame->numbers[0] != ROUTINE_FRAME && frame->numbers[0] != EDGE_FRAME)
        return say(words, "a frame %02X; a text has one 52 and then 53",
                   frame->numbers[0]);
    /* The count of neither kind goes by the states. */
    return bad_count(frame, 0, words);
}

/* A number is outside its range, or an edge leaves the exit (13). */
static int bad_text_range(const struct frame *frame, const struct frame *last,
                          const struct exchange *exchange, struct words *words)
{
    (void)last;
    return bad_range(frame, &exchange->program, words);
}

/* It is not the one frame 52, or no edge of its routine above the one before
 * (21). */
static int bad_text_order(const struct frame *frame, const struct frame *last,
                          const struct exchange *exchange, struct words *words)
{
    uint8_t kind = frame->numbers[0], routine = exchange->first.numbers[1];
    if (last == NULL)
        return kind == ROUTINE_FRAME ? 0 : say(words, "the first frame of a text is a 52");
    if (kind == ROUTINE_FRAME)
        return say(words, "a second frame 52; a text exchanges one routine");
    if (frame->numbers[1] != routine)
        return say(words, "an edge of routine %02X, and the text is for routine %02X",
                   frame->numbers[1], routine);
    return last->numbers[0] == EDGE_FRAME ? not_above(frame, last, words) : 0;
}

/* Finds the first line that has such a fault, and shows it. */
static int first_fault(struct lines text, fault *find, const struct exchange *exchange,
                       struct words *words)
{
    struct frame frame, last;
    struct words found;
    for (unsigned long line = 1; next_frame(&text, &frame); line++) {
        if (find(&frame, line == 1 ? NULL : &last, exchange, &found))
            return say_of_line(words, line, &frame, found.text);
        last = frame;
    }
    return 0;
}

static uint32_t count_edges(struct lines lines, uint8_t routine, int of_routine)
{
    struct frame frame;
    uint32_t count = 0;
    while (next_frame(&lines, &frame)) {
        if (frame.numbers[0] == EDGE_FRAME
            && (frame.numbers[1] == routine) == of_routine)
            count++;
    }
    return count;
}

/* How many edges the new program would have (16). */
static int too_many_edges(struct lines text, struct lines file, uint8_t routine,
                          struct words *words)
{
    unsigned long others = count_edges(file, routine, 0);
    unsigned long own = count_edges(text, routine, 1);
    return say(words, "%lu of other routines and %lu of the text are %lu", others, own,
               others + own);
}

int text_fault(struct lines text, struct lines file, uint32_t refusal,
               struct words *words)
{
    struct exchange exchange;
    struct lines from_first = text;
    if (!next_frame(&from_first, &exchange.first))
        return say(words, "the text is empty");
    const uint8_t *first = exchange.first.numbers;
    read_program(file, UINT32_MAX, &exchange.program);
    if (first[0] == ROUTINE_FRAME && first[1] < ROUTINES_MOST)
        exchange.program.nodes[first[1]] = first[2];
    switch (refusal) {
    case PALTHRENNI_EDIT_LINE: return first_fault(text, bad_text_line, &exchange, words);
    case PALTHRENNI_EDIT_RANGE: return first_fault(text, bad_text_range, &exchange, words);
    case PALTHRENNI_EXCHANGE_ORDER:
        return first_fault(text, bad_text_order, &exchange, words);
    case PALTHRENNI_EDGES_FULL: return too_many_edges(text, file, first[1], words);
    case PALTHRENNI_TOO_LARGE: return sizes_fault(&exchange.program, words);
    default: return 0;
    }
}
