/* What the command works on, from its arguments to its last line. */
#ifndef CHECK_H
#define CHECK_H

#include "arguments.h"
#include "input.h"
#include "palthrenni.h"

/* How many violations, or configurations (paper: standings), are printed without
 * --all. */
#define FIRST 20

/* The sizes of a program: its routines, the nodes (paper: places) of the longest
 * of them, and its states; and how many bytes its marks have. */
struct sizes {
    uint32_t routines, nodes, states, marks;
};

/* The marks (paper: the sheet) of a program, with its sizes. There is room for
 * any program; as many bytes are lent as this one has. */
struct marks {
    struct sizes sizes;
    uint8_t bytes[PALTHRENNI_MARKS_MOST];
};

/* Marks of a program as they are saved (paper: saved sheets), in both forms: the
 * old marks, from before programs had sizes of their own, and frames. */
struct saved {
    uint8_t old_marks[PALTHRENNI_OLD_MARKS_SIZE];
    uint32_t old_len;
    uint8_t frames[PALTHRENNI_FRAMES_MOST];
    uint32_t frames_len;
};

/* The arguments, the program file and the text of an exchange, the saved marks
 * that were read, the marks of the program file, what is saved of them, and room
 * to work in. After an exchange the file is the new one. */
struct check {
    struct arguments arguments;
    struct input file, text;
    struct sheet sheet;
    struct marks marks;
    struct saved own;
    uint8_t work[PALTHRENNI_MARKS_MOST];
};

#endif
