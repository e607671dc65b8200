/* The exit statuses of the command, and how it says what is wrong. */
#ifndef STATUS_H
#define STATUS_H

enum status {
    PASSED = 0,    /* no run arrives in a rejecting state */
    REFUSED = 1,   /* the file, the exchange or the saved marks are refused */
    WRONG = 2,     /* anything else is wrong */
    VIOLATED = 3,  /* some run arrives in a rejecting state */
    GAVE_UP = 4    /* an analysis gave up at its limit */
};

/* Says on standard error what is wrong with an argument, a file or an answer of
 * the checker; gives WRONG. */
int wrong(const char *where, const char *what);

#endif
