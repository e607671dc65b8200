/* Printing violations (paper: findings). */
#ifndef VIOLATIONS_H
#define VIOLATIONS_H

#include "check.h"

/* Prints the violations, of which the analysis has counted so many: the first
 * ones, or all. Gives WRONG where they are not as many, else 0. */
int print_violations(struct check *check, uint32_t violations);

#endif
