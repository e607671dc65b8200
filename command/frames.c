#include "frames.h"

#include <string.h>

struct lines lines_of(const uint8_t *bytes, size_t len)
{
    struct lines lines = {bytes, bytes + len};
    return lines;
}

int is_digit(uint8_t byte)
{
    return (byte >= '0' && byte <= '9') || (byte >= 'A' && byte <= 'F');
}

static uint8_t value_of(uint8_t digit)
{
    return digit >= 'A' ? digit - 'A' + 10 : digit - '0';
}

/* Reads the numbers of a frame, if its line is pairs of digits with an end. */
static void read_numbers(struct frame *frame)
{
    frame->count = 0;
    memset(frame->numbers, 0, sizeof frame->numbers);
    for (size_t i = 0; i < frame->len; i++) {
        if (!is_digit(frame->bytes[i]))
            return;
    }
    if (!frame->has_end || frame->len % 2 != 0)
        return;
    frame->count = frame->len / 2;
    for (size_t i = 0; i < frame->count && i < NUMBERS_MOST; i++) {
        frame->numbers[i] = value_of(frame->bytes[2 * i]) * 16
                          + value_of(frame->bytes[2 * i + 1]);
    }
}

int next_frame(struct lines *lines, struct frame *frame)
{
    if (lines->at == lines->end)
        return 0;
    size_t left = (size_t)(lines->end - lines->at);
    const uint8_t *end = memchr(lines->at, 0x0A, left);
    frame->bytes = lines->at;
    frame->has_end = end != NULL;
    frame->len = end != NULL ? (size_t)(end - lines->at) : left;
    lines->at = end != NULL ? end + 1 : lines->end;
    read_numbers(frame);
    return 1;
}

int find_frame(struct lines lines, uint32_t line, struct frame *frame)
{
    for (uint32_t at = 1; next_frame(&lines, frame); at++) {
        if (at == line)
            return 1;
    }
    return 0;
}

int compare_frames(const struct frame *one, const struct frame *other)
{
    return memcmp(one->numbers, other->numbers, sizeof one->numbers);
}

static void take_routine(struct program *program, const uint8_t *numbers)
{
    if (numbers[1] < ROUTINES_MOST)
        program->nodes[numbers[1]] = numbers[2];
    program->routine_frames++;
}

static void take_sizes(struct program *program, const uint8_t *numbers)
{
    program->routines = numbers[1];
    program->states = numbers[2];
    program->actions = numbers[3];
}

static void take_frame(struct program *program, const struct frame *frame)
{
    const uint8_t *numbers = frame->numbers;
    switch (numbers[0]) {
    case SIZES_FRAME: take_sizes(program, numbers); break;
    case ROUTINE_FRAME: take_routine(program, numbers); break;
    case EDGE_FRAME: program->edges++; break;
    case TRANSITION_FRAME: program->transitions++; break;
    case ROW_FRAME: program->rows++; break;
    case INITIAL_FRAME: program->initial |= 1u << numbers[1] % 32; break;
    case REJECTING_FRAME: program->rejecting |= 1u << numbers[1] % 32; break;
    default: break;
    }
    program->frames++;
    program->last = *frame;
}

void read_program(struct lines lines, uint32_t count, struct program *program)
{
    struct frame frame;
    memset(program, 0, sizeof *program);
    while (program->frames < count && next_frame(&lines, &frame))
        take_frame(program, &frame);
}

uint32_t longest_routine(const struct program *program)
{
    uint32_t longest = 0;
    for (int routine = 0; routine < ROUTINES_MOST; routine++) {
        if (program->nodes[routine] > longest)
            longest = program->nodes[routine];
    }
    return longest;
}

/* A row of eight numbers has two of states, and of seven one. */
uint32_t row_states(const struct frame *row)
{
    const uint8_t *numbers = row->numbers;
    return row->count == 8 ? numbers[1] * 256u + numbers[2] : numbers[1];
}

uint32_t row_actions(const struct frame *row)
{
    const uint8_t *numbers = row->numbers + (row->count == 8 ? 3 : 2);
    return (uint32_t)numbers[0] << 24 | (uint32_t)numbers[1] << 16
         | (uint32_t)numbers[2] << 8 | numbers[3];
}
