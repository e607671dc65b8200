#include "status.h"

#include <stdio.h>

int wrong(const char *where, const char *what)
{
    /* What was said before stands before it, where both streams go to one. */
    fflush(stdout);
    fprintf(stderr, "check: %s: %s\n", where, what);
    return WRONG;
}
