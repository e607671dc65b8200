/* Saved marks (paper: saved sheets): old ones, frames, and moving them over. */
#ifndef SAVED_H
#define SAVED_H

#include "check.h"

/* If the arguments speak of saved marks: makes those of the analyzed file, and
 * says whether those that were read, if any were, are the same. Gives REFUSED or
 * WRONG, else 0. */
int check_saved(struct check *check);

/* Writes the saved marks where the arguments say, if they do, and says so. It
 * comes last, so that nothing is written where anything else is wrong. Gives
 * WRONG, else 0. */
int write_saved(const struct check *check);

#endif
