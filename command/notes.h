/* The notes: what a pass does not say, beside the conclusion. */
#ifndef NOTES_H
#define NOTES_H

#include "check.h"

/* Says at which configurations (paper: standings) runs are cut off, and whether
 * no state is initial (paper: start) or none rejecting (paper: forbidden), of
 * the analyzed file. Gives WRONG where the checker contradicts itself, else
 * 0. */
int print_notes(struct check *check);

#endif
