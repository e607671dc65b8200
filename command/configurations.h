/* Printing configurations (paper: standings). */
#ifndef CONFIGURATIONS_H
#define CONFIGURATIONS_H

#include "check.h"
#include "words.h"

/* The parts of a configuration, which its number has by the sizes. */
struct parts {
    uint32_t routine, node, root, state;
};

struct parts parts_of(uint32_t number, const struct sizes *sizes);

/* The number of these parts, by the sizes, which have to hold them. */
uint32_t number_of(struct parts parts, const struct sizes *sizes);

/* The sizes by which every program's configurations had their numbers before a
 * program had sizes of its own. */
extern const struct sizes old_sizes;

/* A configuration, after a word that says what is the matter with it. */
struct words in_words(const char *word, struct parts parts);

/* Prints this, on a line of its own. */
void print_configuration(const char *word, struct parts parts);

/* Says how many were left out, if any were. */
void print_more(uint32_t more);

#endif
