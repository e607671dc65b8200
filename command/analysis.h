/* The analysis of the accepted file. */
#ifndef ANALYSIS_H
#define ANALYSIS_H

#include "check.h"

/* Analyzes the accepted file, which sets the marks, and says its sizes and what
 * was counted. Gives GAVE_UP, or WRONG, else 0. */
int analyze(struct check *check, uint32_t *violations);

#endif
