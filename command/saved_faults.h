/* What is wrong with saved marks, in words, after the checker has refused them. */
#ifndef SAVED_FAULTS_H
#define SAVED_FAULTS_H

#include "check.h"
#include "words.h"

/* What a refusal of the saved marks that were read means, or of saving any of
 * this program: gives 1 and says it, or gives 0. They are compared with the
 * program's own, which have to be made before, but for 24. */
int saved_fault(const struct check *check, uint32_t refusal, struct words *words);

#endif
