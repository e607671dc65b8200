/*
 * The frames of a file as the command itself reads them: to show a fault, and
 * for what is said beside the checker's answers. Whether a file is accepted, and
 * by which number and line it is refused, the checker alone decides.
 */
#ifndef FRAMES_H
#define FRAMES_H

#include <stddef.h>
#include <stdint.h>

/* The kinds of frames. */
enum {
    SIZES_FRAME = 0x50,
    ROUTINE_FRAME = 0x52,
    EDGE_FRAME = 0x53,
    TRANSITION_FRAME = 0x54,
    ROW_FRAME = 0x55,
    INITIAL_FRAME = 0x49,
    REJECTING_FRAME = 0x46,
    END_FRAME = 0x45
};

/* The first label of a call, and of a return. */
enum { FIRST_CALL = 0x40, FIRST_RETURN = 0x60 };

/* How many routines there may be, and how many numbers the longest frame has. */
enum { ROUTINES_MOST = 16, NUMBERS_MOST = 8 };

/* A line, without its byte 0A, and whether that follows. Its numbers, the kind
 * first, or a count of 0 where it is not pairs of digits; of more than
 * NUMBERS_MOST only the first are kept. */
struct frame {
    const uint8_t *bytes;
    size_t len;
    int has_end;
    size_t count;
    uint8_t numbers[NUMBERS_MOST];
};

/* The bytes from which lines are taken one by one. */
struct lines {
    const uint8_t *at;
    const uint8_t *end;
};

struct lines lines_of(const uint8_t *bytes, size_t len);

/* Takes the next line, if there is one. */
int next_frame(struct lines *lines, struct frame *frame);

/* Finds a line by its number, counted from 1, if it is there. */
int find_frame(struct lines lines, uint32_t line, struct frame *frame);

/* Whether a byte is one of the digits 0-9 A-F. */
int is_digit(uint8_t byte);

/* Whether two frames are the same; whether one stands before the other in a
 * file, where both have the same kind. */
int compare_frames(const struct frame *one, const struct frame *other);

/* What some lines of a file say, which are taken to be without a fault. */
struct program {
    uint32_t routines, states, actions;
    uint32_t nodes[ROUTINES_MOST];
    uint32_t routine_frames, edges, transitions, rows;
    uint32_t initial, rejecting;  /* a bit for each state */
    uint32_t frames;
    struct frame last;            /* its count is 0 before the first frame */
};

/* Reads the first so many lines of a file, or all, if there are fewer. */
void read_program(struct lines lines, uint32_t count, struct program *program);

/* The largest count of nodes of its routines. */
uint32_t longest_routine(const struct program *program);

/* The states and the actions of a row, a bit for each. */
uint32_t row_states(const struct frame *row);
uint32_t row_actions(const struct frame *row);

#endif
