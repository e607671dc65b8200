#include "line_faults.h"

#include <string.h>

/* A kind of frame: how many numbers it has, and which. */
struct kind {
    uint8_t number;
    size_t count;
    const char *form;
};

/* In the order of a file. A row stands here as in a program of 8 states or
 * fewer; a file has transitions or rows. */
static const struct kind kinds[] = {
    {SIZES_FRAME, 4, "50 routines states actions"},
    {ROUTINE_FRAME, 3, "52 routine nodes"},
    {EDGE_FRAME, 5, "53 routine node label node"},
    {TRANSITION_FRAME, 4, "54 state label state"},
    {ROW_FRAME, 7, "55 states actions actions actions actions state"},
    {INITIAL_FRAME, 2, "49 state"},
    {REJECTING_FRAME, 2, "46 state"},
    {END_FRAME, 3, "45 and how many frames came before, high number first"},
};

static const struct kind wide_row = {
    ROW_FRAME, 8, "55 states states actions actions actions actions state"
};

int place_of_kind(uint8_t kind)
{
    for (size_t i = 0; i < sizeof kinds / sizeof kinds[0]; i++) {
        if (kinds[i].number == kind)
            return (int)i + 1;
    }
    return 0;
}

/* What a byte is that is no digit. */
static struct words name_of_byte(uint8_t byte)
{
    struct words name;
    if (byte == ' ')
        say(&name, "a space");
    else if (byte == '\t')
        say(&name, "a tab");
    else if (byte == '\r')
        say(&name, "a carriage return (0D)");
    else if (byte >= 'a' && byte <= 'f')
        say(&name, "a small letter, %c", byte);
    else if (byte > 0x20 && byte < 0x7F)
        say(&name, "the character '%c'", byte);
    else
        say(&name, "the byte %02X", byte);
    return name;
}

/* Some editors put a mark before the first line, which is not seen in them. */
static int has_byte_order_mark(const struct frame *frame)
{
    return frame->len >= 3 && memcmp(frame->bytes, "\xEF\xBB\xBF", 3) == 0;
}

/* What is said of the first byte that is no digit. */
static int bad_byte(const struct frame *frame, size_t at, struct words *words)
{
    if (at == 0 && has_byte_order_mark(frame))
        return say(words, "it begins with a byte order mark (EF BB BF),"
                          " which no line has");
    if (frame->bytes[at] == '\r' && at + 1 == frame->len && frame->has_end)
        return say(words, "it ends with a carriage return (0D) and 0A;"
                          " a line ends with 0A alone");
    return say(words, "byte %lu is %s; the digits are 0-9 A-F",
               (unsigned long)at + 1, name_of_byte(frame->bytes[at]).text);
}

int bad_line(const struct frame *frame, struct words *words)
{
    for (size_t i = 0; i < frame->len; i++) {
        if (!is_digit(frame->bytes[i]))
            return bad_byte(frame, i, words);
    }
    if (frame->len == 0)
        return say(words, "the line is empty");
    if (!frame->has_end)
        return say(words, "no line end (0A) follows it");
    if (frame->len % 2 != 0)
        return say(words, "%lu digit%s; every number has two",
                   (unsigned long)frame->len, plural(frame->len));
    return 0;
}

int bad_kind(const struct frame *frame, struct words *words)
{
    if (place_of_kind(frame->numbers[0]) != 0)
        return 0;
    return say(words, "%02X is no kind; the kinds are 50, 52, 53, 54, 55, 49, 46 and 45",
               frame->numbers[0]);
}

int bad_count(const struct frame *frame, uint32_t states, struct words *words)
{
    int place = place_of_kind(frame->numbers[0]);
    if (place == 0)
        return 0;
    const struct kind *kind = &kinds[place - 1];
    if (kind->number == ROW_FRAME && states > 8)
        kind = &wide_row;
    if (frame->count == kind->count)
        return 0;
    return say(words, "it has %lu number%s, and a frame %02X has %lu: %s",
               (unsigned long)frame->count, plural(frame->count), kind->number,
               (unsigned long)kind->count, kind->form);
}

int not_above(const struct frame *frame, const struct frame *last,
              struct words *words)
{
    int order = compare_frames(frame, last);
    if (order > 0)
        return 0;
    if (order == 0)
        return say(words, "the line before it is the same");
    return say(words, "it is not above the line before it, %s;"
                      " frames of a kind ascend, compared left to right", shown(last).text);
}

/* There is no such routine or state. */
static int not_there(const char *what, uint8_t number, uint32_t count,
                     struct words *words)
{
    if (number < count)
        return 0;
    return say(words, "there is no %s %02X; the program has %lu, %s", what, number,
               (unsigned long)count, range_of(0, count).text);
}

/* A count that a file may not say. */
static int bad_total(const char *what, uint8_t number, uint32_t least, uint32_t most,
                     struct words *words)
{
    if (number >= least && number <= most)
        return 0;
    return say(words, "%02X (%u) %s; there may be %02lX to %02lX (%lu to %lu)", number,
               number, what, (unsigned long)least, (unsigned long)most,
               (unsigned long)least, (unsigned long)most);
}

/* A label has a range for edges, and a wider one for transitions. */
static int bad_label(uint8_t label, const struct program *program, int of_edge,
                     struct words *words)
{
    uint32_t called = (uint32_t)label - FIRST_CALL;
    uint32_t returned = (uint32_t)label - FIRST_RETURN;
    int is_return = label >= FIRST_RETURN && returned < program->routines;
    if (label < program->actions || (label >= FIRST_CALL && called < program->routines)
        || (is_return && !of_edge))
        return 0;
    struct words actions = range_of(0, program->actions);
    struct words calls = range_of(FIRST_CALL, program->routines);
    struct words returns = range_of(FIRST_RETURN, program->routines);
    const char *fault = is_return ? "is a return's" : "is none of the program";
    if (of_edge)
        return say(words, "label %02X %s; an edge has an action, %s, or a call, %s",
                   label, fault, actions.text, calls.text);
    return say(words, "label %02X %s; a transition has an action, %s, a call, %s,"
                      " or a return, %s",
               label, fault, actions.text, calls.text, returns.text);
}

static int bad_node(uint8_t node, uint8_t routine, const struct program *program,
                    struct words *words)
{
    uint32_t nodes = routine < ROUTINES_MOST ? program->nodes[routine] : 0;
    if (node < nodes)
        return 0;
    return say(words, "there is no node %02X; routine %02X has %lu, %s", node, routine,
               (unsigned long)nodes, range_of(0, nodes).text);
}

static int bad_edge(const uint8_t *numbers, const struct program *program,
                    struct words *words)
{
    if (not_there("routine", numbers[1], program->routines, words)
        || bad_node(numbers[2], numbers[1], program, words)
        || bad_node(numbers[4], numbers[1], program, words)
        || bad_label(numbers[3], program, 1, words))
        return 1;
    return numbers[2] == 1 ? say(words, "it leads from node 01, the exit,"
                                        " and no edge leaves the exit") : 0;
}

static int bad_transition(const uint8_t *numbers, const struct program *program,
                          struct words *words)
{
    return not_there("state", numbers[1], program->states, words)
        || bad_label(numbers[2], program, 0, words)
        || not_there("state", numbers[3], program->states, words);
}

/* The bits of so many states or actions, which are 32 at most. */
static uint32_t low_bits(uint32_t count)
{
    return count < 32 ? (1u << count) - 1 : UINT32_MAX;
}

static int bad_bits(const char *what, uint32_t bits, uint32_t count, int digits,
                    struct words *words)
{
    if ((bits & ~low_bits(count)) == 0)
        return 0;
    return say(words, "%s bits %0*lX; there are %lu of them, the bits %0*lX", what,
               digits, (unsigned long)bits, (unsigned long)count, digits,
               (unsigned long)low_bits(count));
}

static int bad_row(const struct frame *row, const struct program *program,
                   struct words *words)
{
    int wide = row->count == wide_row.count;
    return bad_bits("state", row_states(row), program->states, wide ? 4 : 2, words)
        || bad_bits("action", row_actions(row), program->actions, 8, words)
        || not_there("state", row->numbers[wide ? 7 : 6], program->states, words);
}

int bad_range(const struct frame *frame, const struct program *program,
              struct words *words)
{
    const uint8_t *numbers = frame->numbers;
    switch (numbers[0]) {
    case SIZES_FRAME:
        return bad_total("routines", numbers[1], 1, 16, words)
            || bad_total("states", numbers[2], 1, 16, words)
            || bad_total("actions", numbers[3], 1, 32, words);
    case ROUTINE_FRAME:
        return not_there("routine", numbers[1], program->routines, words)
            || bad_total("nodes", numbers[2], 2, 64, words);
    case EDGE_FRAME:
        return bad_edge(numbers, program, words);
    case TRANSITION_FRAME:
        return bad_transition(numbers, program, words);
    case ROW_FRAME:
        return bad_row(frame, program, words);
    case INITIAL_FRAME:
    case REJECTING_FRAME:
        return not_there("state", numbers[1], program->states, words);
    default:
        return 0;
    }
}
