/* Writing an accepted file back. */
#ifndef COPY_H
#define COPY_H

#include "input.h"

/*
 * Writes the accepted file back, and says so. Without rows it comes back as its
 * own bytes. With rows it comes back with transitions (paper: rule lines) in
 * their place, and what is written then comes back as its own bytes. Gives WRONG
 * where it does not, else 0.
 */
int check_copy(const struct input *file);

#endif
