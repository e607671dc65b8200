/* Printing refusals. */
#ifndef REFUSALS_H
#define REFUSALS_H

#include "check.h"

/* Says that the file is refused, by the checker's number and line, and what the
 * command finds there. Gives REFUSED, or WRONG where the checker contradicts
 * itself. */
int print_file_refusal(const struct input *file, uint32_t number, uint32_t line);

/* Says that the exchange is refused, by the checker's number, and what the
 * command finds in the text; gives REFUSED. */
int print_exchange_refusal(const struct check *check, uint32_t refusal);

/* Says that saved marks are refused, by the checker's number, and what the
 * command finds in them, or in the program. Gives REFUSED, or WRONG where it
 * finds nothing: the checker contradicts itself then. */
int print_sheet_refusal(const struct check *check, uint32_t refusal);

#endif
