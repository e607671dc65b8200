/* What is wrong with a file, in words, after the checker has refused it. */
#ifndef FILE_FAULTS_H
#define FILE_FAULTS_H

#include "frames.h"
#include "words.h"

/* What a refusal 1 to 8 by this line, counted from 1, means in this file: gives
 * 1 and says it, or gives 0. */
int file_fault(struct lines lines, uint32_t refusal, uint32_t line,
               struct words *words);

/* Which row would meet a state-action pair that none meets (19), or which rows
 * meet it (20). */
int pair_fault(struct lines lines, uint32_t refusal, uint32_t state,
               uint32_t action, struct words *words);

/* What the sizes of the program come to (23). */
int sizes_fault(const struct program *program, struct words *words);

#endif
