/* Words for people, put together before they are printed. */
#ifndef WORDS_H
#define WORDS_H

#include "frames.h"

/* One sentence. What would be longer is cut. */
struct words {
    char text[400];
};

/* Puts the sentence together, as printf does; gives 1, for "there is a fault". */
int say(struct words *words, const char *format, ...)
    __attribute__((format(printf, 2, 3)));

/* So many numbers from the first on, as a file has them: "00 to 02", or "00". */
struct words range_of(uint32_t first, uint32_t count);

/* The bytes of a line to be shown: unprintable ones escaped, a long line cut. */
struct words shown(const struct frame *frame);

/* What was found in a line, counted from 1, after the line itself; gives 1. */
int say_of_line(struct words *words, unsigned long line, const struct frame *frame,
                const char *found);

/* The ending of a word that is counted. */
const char *plural(uint64_t count);

#endif
