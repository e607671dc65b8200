/* What is wrong with the text of an exchange, in words, after the checker has
 * refused it. */
#ifndef TEXT_FAULTS_H
#define TEXT_FAULTS_H

#include "frames.h"
#include "words.h"

/* What a refusal of this text, for the program of this accepted file, means:
 * gives 1 and says it, with the first line at fault where it is one line's, or
 * gives 0. */
int text_fault(struct lines text, struct lines file, uint32_t refusal,
               struct words *words);

#endif
