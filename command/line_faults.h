/*
 * What is wrong with one line, in words: of a file, or of the text of an
 * exchange. Each function gives 1 and says what it finds, or gives 0; it asks
 * nothing of what the others find.
 */
#ifndef LINE_FAULTS_H
#define LINE_FAULTS_H

#include "frames.h"
#include "words.h"

/* The line is not pairs of digits ended by 0A (1). */
int bad_line(const struct frame *frame, struct words *words);

/* Its kind is none (2). */
int bad_kind(const struct frame *frame, struct words *words);

/* Its kind has another count of numbers, in a program of so many states (3). */
int bad_count(const struct frame *frame, uint32_t states, struct words *words);

/* It does not stand above a frame of the same kind (4). */
int not_above(const struct frame *frame, const struct frame *last,
              struct words *words);

/* A number is outside its range, or an edge leaves the exit (5). */
int bad_range(const struct frame *frame, const struct program *program,
              struct words *words);

/* The place of a kind in the order of the kinds, from 1; 0 if it is none. */
int place_of_kind(uint8_t kind);

#endif
