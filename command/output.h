/* Writing a new program file, or saved marks, so that nothing is lost. */
#ifndef OUTPUT_H
#define OUTPUT_H

#include <stddef.h>
#include <stdint.h>

/*
 * Writes these bytes to the file of this name. They are written beside it, and
 * take its place only when all of them are on the disk: where anything goes
 * wrong, a file that was there is as it was, and else none is made. A symbolic
 * link is followed, and the permissions of a file that was there are kept.
 * What is no regular file, such as a pipe, is written straight to, and so is the
 * file that standard output goes to, after all that was said before.
 *
 * Says what is wrong and what was kept, and gives WRONG; else gives 0.
 */
int write_output(const char *name, const uint8_t *bytes, size_t len);

/* Whether that would replace the file that is read by this other name, "-" for
 * standard input. */
int would_replace(const char *name, const char *input);

#endif
