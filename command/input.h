/* Reading the program file, the text of an exchange, and saved marks. */
#ifndef INPUT_H
#define INPUT_H

#include "palthrenni.h"

/* So much is read at most. No accepted file is as long, nor the text of an
 * accepted exchange; what is longer than these, and not longer than this, is
 * handed over all the same, so that the checker names its fault. */
#define LONGEST 16384

/* What is read: its name, its bytes, with room for one that is too many, and
 * how many bytes may be accepted, which is for messages alone. */
struct input {
    const char *name;
    const char *what;
    size_t most;
    size_t len;
    uint8_t bytes[LONGEST + 1];
};

/* Saved marks that are read (paper: a saved sheet), old ones or frames: their
 * name, and their bytes, with room for one more than any program's have. What is
 * longer is cut there, since the checker refuses it all the same. */
struct sheet {
    const char *name;
    size_t len;
    uint8_t bytes[PALTHRENNI_FRAMES_MOST + 1];
};

/* Reads what has this name, "-" for standard input; gives WRONG where it cannot
 * be read or has more than LONGEST bytes, else 0. */
int read_input(struct input *input, const char *name);

/* So for saved marks, of any length. */
int read_sheet(struct sheet *sheet, const char *name);

#endif
