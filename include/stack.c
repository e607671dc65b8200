/*
 * How much stack each function of the header takes, at most. Each call is made
 * on a stack of its own, which is painted before it; afterwards the paint is
 * gone down to the deepest byte that the call has touched. The calls are those
 * of the largest programs, of edits of every kind, of the longest texts of an
 * exchange, of saved marks in both forms, and of what is refused. For each
 * function it prints a line with its name and that depth in bytes; include/test
 * compares it with the header.
 */
#define _XOPEN_SOURCE 700

#include "palthrenni.h"

#include <stdio.h>
#include <stdlib.h>
#include <string.h>
#include <ucontext.h>

/* More than any call takes, by far; a call that takes all of it is an error. */
#define AREA (1 << 17)

/* A file, or a text of an exchange; there is room for one that is too long. */
struct text {
    uint8_t bytes[1 << 16];
    size_t len;
};

/* What is lent to every call, and the numbers that it sets. */
static struct text file, text;
static uint8_t marks[PALTHRENNI_MARKS_MOST], new_marks[PALTHRENNI_MARKS_MOST];
static uint8_t work[PALTHRENNI_MARKS_MOST], output[PALTHRENNI_OUTPUT_SIZE];
static size_t marks_len, new_len, work_len, output_len = sizeof output;
static uint64_t limit = PALTHRENNI_NO_LIMIT;
static uint32_t from;
static uint32_t refusal, line, one, two, three, four;

/* Saved marks, in both forms, with room for frames that are too long, and no
 * configuration at first; and where the other form is written. */
static uint8_t old_marks[PALTHRENNI_OLD_MARKS_SIZE];
static uint8_t frames[PALTHRENNI_FRAMES_MOST + 1] = "450000\n";
static uint8_t moved[PALTHRENNI_FRAMES_MOST];
static size_t old_len = sizeof old_marks, frames_len = 7;
static size_t moved_len = sizeof moved;

static void call_read(void)
{
    refusal = palthrenni_read(file.bytes, file.len, &line);
}

static void call_faulty_pair(void)
{
    refusal = palthrenni_faulty_pair(file.bytes, file.len, &line, &one, &two);
}

static void call_sizes(void)
{
    refusal = palthrenni_sizes(file.bytes, file.len, &line, &one, &two, &three,
                               &four);
}

static void call_write(void)
{
    refusal = palthrenni_write(file.bytes, file.len, output, output_len, &line,
                               &one);
}

static void call_analyze(void)
{
    refusal = palthrenni_analyze(file.bytes, file.len, marks, marks_len, work,
                                 work_len, limit, &line, &one, &two, &three);
}

static void call_next_violation(void)
{
    refusal = palthrenni_next_violation(file.bytes, file.len, marks, marks_len,
                                        work, work_len, from, &line, &one);
}

static void call_next_blocked(void)
{
    refusal = palthrenni_next_blocked(file.bytes, file.len, marks, marks_len,
                                      work, work_len, from, &line, &one, &two);
}

static void call_prune(void)
{
    refusal = palthrenni_prune(file.bytes, file.len, marks, marks_len, work,
                               work_len, &line);
}

static void call_repair_forward(void)
{
    refusal = palthrenni_repair_forward(file.bytes, file.len, marks, marks_len,
                                        text.bytes, text.len, output,
                                        output_len, work, work_len, &line,
                                        &one);
}

static void call_repair_inside_out(void)
{
    refusal = palthrenni_repair_inside_out(file.bytes, file.len, marks,
                                           marks_len, text.bytes, text.len,
                                           output, output_len, work, work_len,
                                           &line, &one, &two);
}

static void call_exchange_sizes(void)
{
    refusal = palthrenni_exchange_sizes(file.bytes, file.len, text.bytes,
                                        text.len, &line, &one, &two, &three);
}

static void call_exchange_forward(void)
{
    refusal = palthrenni_exchange_forward(file.bytes, file.len, marks,
                                          marks_len, text.bytes, text.len,
                                          output, output_len, work, work_len,
                                          new_marks, new_len, &line, &one);
}

static void call_exchange_inside_out(void)
{
    refusal = palthrenni_exchange_inside_out(file.bytes, file.len, marks,
                                             marks_len, text.bytes, text.len,
                                             output, output_len, work,
                                             work_len, new_marks, new_len,
                                             &line, &one, &two);
}

static void call_marks_to_frames(void)
{
    refusal = palthrenni_marks_to_frames(file.bytes, file.len, old_marks,
                                         old_len, moved, moved_len, work,
                                         work_len, &line, &one);
}

static void call_frames_to_marks(void)
{
    refusal = palthrenni_frames_to_marks(file.bytes, file.len, frames,
                                         frames_len, moved, moved_len, work,
                                         work_len, &line, &one);
}

/* What a function is lent beside the file: nothing that has to be tried anew,
 * an edit line, a text of an exchange, or saved marks. */
enum lent { FILE_ONLY = 1, EDIT = 2, EXCHANGE = 4, SAVED = 8, ALL = 15 };

/* Each function, with the deepest that a call of it has come, and how many of
 * its calls were accepted. */
static struct function {
    const char *name;
    void (*call)(void);
    enum lent lent;
    size_t depth;
    unsigned accepted;
} functions[] = {
    {"palthrenni_read", call_read, FILE_ONLY, 0, 0},
    {"palthrenni_faulty_pair", call_faulty_pair, FILE_ONLY, 0, 0},
    {"palthrenni_sizes", call_sizes, FILE_ONLY, 0, 0},
    {"palthrenni_write", call_write, FILE_ONLY, 0, 0},
    {"palthrenni_analyze", call_analyze, FILE_ONLY, 0, 0},
    {"palthrenni_next_violation", call_next_violation, FILE_ONLY, 0, 0},
    {"palthrenni_next_blocked", call_next_blocked, FILE_ONLY, 0, 0},
    {"palthrenni_prune", call_prune, FILE_ONLY, 0, 0},
    {"palthrenni_repair_forward", call_repair_forward, EDIT, 0, 0},
    {"palthrenni_repair_inside_out", call_repair_inside_out, EDIT, 0, 0},
    {"palthrenni_exchange_sizes", call_exchange_sizes, EXCHANGE, 0, 0},
    {"palthrenni_exchange_forward", call_exchange_forward, EXCHANGE, 0, 0},
    {"palthrenni_exchange_inside_out", call_exchange_inside_out, EXCHANGE, 0,
     0},
    {"palthrenni_marks_to_frames", call_marks_to_frames, SAVED, 0, 0},
    {"palthrenni_frames_to_marks", call_frames_to_marks, SAVED, 0, 0},
};

static void stop(const char *what)
{
    fprintf(stderr, "stack: %s\n", what);
    exit(1);
}

/* The stack that calls are made on. It grows downwards. */
static _Alignas(16) uint8_t area[AREA];

/* Makes a call there. */
static void call_there(void (*call)(void))
{
    static ucontext_t here, there;
    if (getcontext(&there) != 0)
        stop("there is no context");
    there.uc_stack.ss_sp = area;
    there.uc_stack.ss_size = sizeof area;
    there.uc_link = &here;
    makecontext(&there, call, 0);
    if (swapcontext(&here, &there) != 0)
        stop("the context could not be entered");
}

/* How many bytes of the stack have lost this paint, from the deepest on. */
static size_t depth_by(uint8_t paint)
{
    size_t untouched = 0;
    while (untouched < sizeof area && area[untouched] == paint)
        untouched++;
    if (untouched == 0)
        stop("a call took the whole stack");
    return sizeof area - untouched;
}

/* Makes a call of a function on the painted stack, and leaves the marks as they
 * are. What is measured has the few bytes in it of what calls the function
 * here. The paint is another one from call to call, so that a byte which a
 * function leaves in the colour of the paint shows at the next call. */
static void measure(struct function *function)
{
    static uint8_t kept[PALTHRENNI_MARKS_MOST];
    static uint8_t paint = 0xA5;
    paint ^= 0xFF;
    memcpy(kept, marks, sizeof kept);
    memset(area, paint, sizeof area);
    call_there(function->call);
    memcpy(marks, kept, sizeof kept);
    size_t depth = depth_by(paint);
    if (depth > function->depth)
        function->depth = depth;
    function->accepted += refusal == PALTHRENNI_OK;
}

/* Measures the functions to which one of these is lent. */
static void measure_each(unsigned lent)
{
    for (size_t i = 0; i < sizeof functions / sizeof functions[0]; i++) {
        if (functions[i].lent & lent)
            measure(&functions[i]);
    }
}

/* The numbers of one frame, the kind first, as a line at the end of a text. */
static void put(struct text *to, size_t count, const unsigned *numbers)
{
    if (to->len + 2 * count + 2 > sizeof to->bytes)
        stop("there is no room for a line");
    for (size_t i = 0; i < count; i++, to->len += 2)
        sprintf((char *)to->bytes + to->len, "%02X", numbers[i] & 0xFF);
    to->bytes[to->len++] = '\n';
}

#define PUT(to, ...) \
    put(to, sizeof((unsigned[]){__VA_ARGS__}) / sizeof(unsigned), \
        (unsigned[]){__VA_ARGS__})

/* A program that is made: its sizes, how many edges it has, and how many
 * actions, calls and returns each state has a transition for; or how many rows
 * it has. */
struct shape {
    unsigned routines, nodes, states, actions, edges;
    unsigned by_action, by_call, by_return;
    unsigned rows;
};

static const struct shape shapes[] = {
    /* The longest marks, with as many edges and transitions as there may be. */
    {16, 4, 16, 16, 256, 16, 8, 8, 0},
    {16, 16, 8, 32, 256, 32, 16, 16, 0},
    /* And with as many transitions as marks may be saved with. */
    {16, 16, 8, 16, 256, 16, 8, 8, 0},
    {1, 64, 16, 32, 256, 30, 1, 1, 0},
    {4, 64, 8, 32, 256, 32, 4, 4, 0},
    {4, 16, 16, 32, 256, 32, 0, 0, 0},
    /* As many rows as there may be, with two numbers of state bits and one. */
    {16, 4, 16, 32, 256, 0, 0, 0, 256},
    {16, 16, 8, 32, 256, 0, 0, 0, 256},
    /* Long routines and many of them, and few states. */
    {16, 64, 4, 32, 256, 32, 16, 16, 0},
    /* Short marks, which an exchange can make the longest. */
    {4, 4, 8, 32, 64, 32, 4, 4, 0},
    /* The smallest. */
    {1, 2, 1, 1, 1, 1, 0, 0, 0},
    {1, 2, 1, 1, 0, 0, 0, 0, 0},
};

/* Programs that are refused: too large (23), a row too few (19), an edge or a
 * transition too many (6). */
static const struct shape refused[] = {
    {16, 64, 16, 32, 256, 32, 0, 0, 0},
    {16, 4, 16, 32, 256, 0, 0, 0, 255},
    {16, 4, 16, 32, 257, 32, 0, 0, 0},
    {16, 4, 16, 32, 256, 32, 1, 0, 0},
};

/* The edges from one node, by ascending labels: half of them calls, as far as
 * there are so many routines. */
static void put_edges_from(struct text *to, const struct shape *shape,
                           unsigned routine, unsigned node, unsigned count)
{
    unsigned calls = count / 2 < shape->routines ? count / 2 : shape->routines;
    for (unsigned i = 0; i < count; i++) {
        unsigned label = i < count - calls ? i : 0x40 + i - (count - calls);
        PUT(to, 0x53, routine, node, label, (node + i + 1) % shape->nodes);
    }
}

/* So many edges of a routine, as many from each of its nodes as from any other,
 * or one more; none from the exit. */
static void put_edges(struct text *to, const struct shape *shape,
                      unsigned routine, unsigned count)
{
    unsigned sources = shape->nodes - 1;
    for (unsigned i = 0; i < sources; i++) {
        unsigned node = i == 0 ? 0 : i + 1;
        put_edges_from(to, shape, routine, node,
                       count / sources + (i < count % sources));
    }
}

static void put_transitions(struct text *to, const struct shape *shape)
{
    for (unsigned state = 0; state < shape->states; state++) {
        for (unsigned i = 0; i < shape->by_action; i++)
            PUT(to, 0x54, state, i, (state + i) % shape->states);
        for (unsigned i = 0; i < shape->by_call; i++)
            PUT(to, 0x54, state, 0x40 + i, (state + i) % shape->states);
        for (unsigned i = 0; i < shape->by_return; i++)
            PUT(to, 0x54, state, 0x60 + i, (state + i + 1) % shape->states);
    }
}

/* Rows, of which 256 meet each pair of 8 or 16 states and 32 actions once. */
static void put_rows(struct text *to, const struct shape *shape)
{
    unsigned width = shape->states / 8, rows_of_state = 32 / width;
    for (unsigned i = 0; i < shape->rows; i++) {
        unsigned states = 1u << i / rows_of_state;
        unsigned bits = ((1u << width) - 1) << i % rows_of_state * width;
        unsigned next = i % shape->states;
        if (shape->states > 8)
            PUT(to, 0x55, states >> 8, states, bits >> 24, bits >> 16,
                bits >> 8, bits, next);
        else
            PUT(to, 0x55, states, bits >> 24, bits >> 16, bits >> 8, bits,
                next);
    }
}

static unsigned lines_of(const struct text *of)
{
    unsigned lines = 0;
    for (size_t at = 0; at < of->len; at++)
        lines += of->bytes[at] == '\n';
    return lines;
}

/* The file of a program with so many edges; each state is initial and
 * rejecting. */
static void make_file(const struct shape *shape, unsigned edges)
{
    file.len = 0;
    PUT(&file, 0x50, shape->routines, shape->states, shape->actions);
    for (unsigned f = 0; f < shape->routines; f++)
        PUT(&file, 0x52, f, shape->nodes);
    for (unsigned f = 0; f < shape->routines; f++)
        put_edges(&file, shape, f, edges / shape->routines
                                       + (f < edges % shape->routines));
    if (shape->rows > 0)
        put_rows(&file, shape);
    else
        put_transitions(&file, shape);
    for (unsigned q = 0; q < shape->states; q++)
        PUT(&file, 0x49, q);
    for (unsigned q = 0; q < shape->states; q++)
        PUT(&file, 0x46, q);
    unsigned frames = lines_of(&file);
    PUT(&file, 0x45, frames >> 8, frames);
}

/* Lends what the file needs, and sets its marks. */
static void analyze(void)
{
    uint32_t routines, nodes, states, size;
    refusal = palthrenni_sizes(file.bytes, file.len, &line, &routines, &nodes,
                               &states, &size);
    if (refusal != PALTHRENNI_OK) {
        fprintf(stderr, "stack: line %lu: ", (unsigned long)line);
        stop(palthrenni_reason(refusal));
    }
    marks_len = work_len = new_len = size;
    call_analyze();
}

/* An edit line of these numbers. */
static void measure_edit(size_t count, const unsigned *numbers)
{
    text.len = 0;
    put(&text, count, numbers);
    measure_each(EDIT);
}

#define MEASURE_EDIT(...) \
    measure_edit(sizeof((unsigned[]){__VA_ARGS__}) / sizeof(unsigned), \
                 (unsigned[]){__VA_ARGS__})

/* Adds, drops and replaces, of an action and of a call, and edits that are
 * refused. The last routine has an edge 0 from its entry to the node after
 * the first, and is called where there are edges enough. */
static void measure_edits(const struct shape *shape)
{
    unsigned f = shape->routines - 1, call = 0x40 + f;
    unsigned last = shape->nodes - 1, action = shape->actions - 1;
    for (unsigned in = 0; in <= f; in += f > 0 ? f : 1) {
        MEASURE_EDIT(0x2B, in, 0, action, last);
        MEASURE_EDIT(0x2B, in, 0, call, last);
        MEASURE_EDIT(0x2D, in, 0, 0, 1);
        MEASURE_EDIT(0x2D, in, 0, 0x40, last > 1 ? 2 : 0);
        MEASURE_EDIT(0x3D, in, 0, 0, 1, call);
        MEASURE_EDIT(0x3D, in, 0, 0, 1, action);
        MEASURE_EDIT(0x2D, in, 0, action, 0);
        MEASURE_EDIT(0x2B, in, 1, 0, 0);
        MEASURE_EDIT(0x2B, in, 0, 0x60, 0);
    }
    MEASURE_EDIT(0x2B);
    measure_each(EXCHANGE);
}

/* The text that gives a routine so many nodes and edges. */
static void measure_exchange(const struct shape *shape, unsigned routine,
                             unsigned nodes, unsigned edges)
{
    struct shape other = *shape;
    uint32_t size, room, count;
    other.nodes = nodes;
    text.len = 0;
    PUT(&text, 0x52, routine, nodes);
    put_edges(&text, &other, routine, edges);
    if (palthrenni_exchange_sizes(file.bytes, file.len, text.bytes, text.len,
                                  &line, &count, &size, &room) == 0) {
        new_len = size;
        work_len = room;
    }
    measure_each(EXCHANGE);
    new_len = work_len = marks_len;
}

/* Main and the last routine, with no edge and with as many as there may be, and
 * with the fewest nodes, as many as before, and the most. */
static void measure_exchanges(const struct shape *shape, unsigned edges)
{
    unsigned free = 256 - edges + edges / shape->routines;
    unsigned nodes[] = {2, shape->nodes, 64};
    for (unsigned i = 0; i < 3; i++) {
        unsigned most = (nodes[i] - 1) * shape->actions;
        unsigned count = free < most ? free : most;
        measure_exchange(shape, 0, nodes[i], 0);
        measure_exchange(shape, 0, nodes[i], count);
        measure_exchange(shape, shape->routines - 1, nodes[i], count);
        measure_exchange(shape, shape->routines - 1, nodes[i], count + 2);
    }
}

/* An exchange with a working buffer that is too short (11), and one whose text
 * has a second frame 52 (21). */
static void measure_refused_exchanges(const struct shape *shape)
{
    text.len = 0;
    PUT(&text, 0x52, 0, shape->nodes);
    work_len = 0;
    measure_each(EXCHANGE);
    work_len = marks_len;
    PUT(&text, 0x52, 0, shape->nodes);
    measure_each(EXCHANGE);
}

/* Marks that are not the program's own. */
static void measure_foreign(const struct shape *shape)
{
    memset(marks, 1, sizeof marks);
    measure_each(FILE_ONLY);
    MEASURE_EDIT(0x2D, 0, 0, 0, 1);
    measure_exchange(shape, 0, shape->nodes, 0);
    call_analyze();
}

/* Today's marks in the old numbers, and their frames; of a program that marks
 * are not saved of, what was there before. */
static void make_saved(uint32_t nodes, uint32_t states)
{
    if (nodes > 16 || states > 8)
        return;
    memset(old_marks, 0, sizeof old_marks);
    for (uint32_t i = 0; i < marks_len; i++) {
        uint32_t at = PALTHRENNI_ROUTINE(i, nodes, states) * 16
                    + PALTHRENNI_NODE(i, nodes, states);
        at = at * 8 + PALTHRENNI_ROOT(i, nodes, states);
        old_marks[at * 8 + PALTHRENNI_STATE(i, nodes, states)] = marks[i];
    }
    call_marks_to_frames();
    if (refusal == PALTHRENNI_OK)
        memcpy(frames, moved, frames_len = one);
}

/* Saved marks that are the program's own; with an output that is too short, by
 * a byte or by all of it; and old marks of another length. */
static void measure_saved(const struct shape *shape)
{
    make_saved(shape->nodes, shape->states);
    measure_each(SAVED);
    moved_len = frames_len - 1;
    measure_each(SAVED);
    moved_len = 0;
    measure_each(SAVED);
    moved_len = sizeof moved;
    old_len--;
    measure_each(SAVED);
    old_len = sizeof old_marks;
}

/* Saved marks that are not the program's own: a byte is another one, here and
 * there, or the frames end there; and frames that are too long. */
static void measure_saved_foreign(void)
{
    size_t whole = frames_len;
    for (size_t i = 0; i < 12; i++) {
        size_t at = i * (whole - 1) / 11, old = i * (old_len - 1) / 11;
        frames[at] ^= 1;
        old_marks[old] ^= 1;
        measure_each(SAVED);
        frames[at] ^= 1;
        old_marks[old] ^= 1;
        frames_len = at;
        measure_each(SAVED);
        frames_len = whole;
    }
    frames_len = sizeof frames;
    measure_each(SAVED);
    frames_len = whole;
}

/* Every function with buffers that are too short, from the last number on, and
 * with a limit that is too small. */
static void measure_lent(void)
{
    size_t whole = marks_len;
    for (from = 0; from < 2 * whole; from += (uint32_t)whole)
        measure_each(ALL);
    from = 0;
    limit = 1;
    output_len = 0;
    measure_each(ALL);
    limit = PALTHRENNI_NO_LIMIT;
    output_len = sizeof output;
    marks_len = 0;
    measure_each(ALL);
    marks_len = whole;
    work_len = new_len = 0;
    measure_each(ALL);
    work_len = new_len = whole;
}

/* The file with a byte of it spoiled, here and there, and cut short there. */
static void measure_spoiled(void)
{
    static const char spoilt[] = "G0F\n";
    size_t whole = file.len;
    for (size_t i = 0; i < 12; i++) {
        size_t at = i * (whole - 1) / 11;
        uint8_t was = file.bytes[at];
        file.bytes[at] = (uint8_t)spoilt[i % 4];
        measure_each(ALL);
        file.bytes[at] = was;
        file.len = at;
        measure_each(ALL);
        file.len = whole;
    }
}

static void measure_shape(const struct shape *shape, unsigned edges)
{
    make_file(shape, edges);
    analyze();
    measure_saved(shape);
    measure_saved_foreign();
    measure_lent();
    measure_foreign(shape);
    measure_edits(shape);
    measure_exchanges(shape, edges);
    measure_refused_exchanges(shape);
    measure_spoiled();
}

/* Files that are no program's: as long as there is room for, of lines and of
 * one line. */
static void measure_long(void)
{
    file.len = sizeof file.bytes;
    memset(file.bytes, 'F', sizeof file.bytes);
    measure_each(ALL);
    for (size_t at = 8; at < sizeof file.bytes; at += 9)
        file.bytes[at] = '\n';
    measure_each(ALL);
}

int main(void)
{
    for (size_t i = 0; i < sizeof shapes / sizeof shapes[0]; i++) {
        measure_shape(&shapes[i], shapes[i].edges);
        if (shapes[i].edges > 1)
            measure_shape(&shapes[i], shapes[i].edges - 1);
    }
    for (size_t i = 0; i < sizeof refused / sizeof refused[0]; i++) {
        make_file(&refused[i], refused[i].edges);
        measure_each(ALL);
    }
    measure_long();
    for (size_t i = 0; i < sizeof functions / sizeof functions[0]; i++) {
        if (functions[i].accepted == 0)
            stop("a function was never accepted");
        printf("%s %lu\n", functions[i].name,
               (unsigned long)functions[i].depth);
    }
    return 0;
}
