/* The exchange of a whole routine. */
#ifndef EXCHANGE_H
#define EXCHANGE_H

#include "check.h"

/* Exchanges a routine of the accepted file, by the text, says what has changed,
 * and goes on with the new file in the place of the old one, which is analyzed
 * and written where --output says. Gives the status where it ends there, else
 * 0. */
int check_exchange(struct check *check, uint32_t *violations);

#endif
