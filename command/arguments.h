/* The arguments of the command. */
#ifndef ARGUMENTS_H
#define ARGUMENTS_H

#include <stdint.h>

/* What the arguments ask for. A name or a value is NULL until it is given. */
struct arguments {
    const char *file;
    const char *text;            /* --exchange */
    const char *output;          /* --output */
    const char *old_sheet;       /* --old-sheet, and what it is moved to: */
    const char *save_sheet;      /* --save-sheet, which may be alone */
    const char *saved_sheet;     /* --saved-sheet, and what it is moved to: */
    const char *save_old_sheet;  /* --save-old-sheet */
    const char *limit_given;     /* --limit, as it is given, and as a number */
    uint64_t limit;
    int all;                     /* --all */
    int blocked;                 /* --blocked */
    int answered;                /* --help or --version, which is all that is done */
};

/* Reads the arguments, and answers --help and --version. Gives WRONG where they
 * do not fit together, else 0. */
int read_arguments(int argc, char **argv, struct arguments *arguments);

#endif
