/*
 * Says of a program file whether the checker accepts it, and whether some run of
 * its program arrives in a rejecting state (paper: a forbidden one). help.txt
 * says how it is called and what it prints.
 */
#define _XOPEN_SOURCE 700

#include "analysis.h"
#include "copy.h"
#include "exchange.h"
#include "notes.h"
#include "refusals.h"
#include "saved.h"
#include "status.h"
#include "violations.h"
#include "words.h"

#include <signal.h>
#include <stdio.h>
#include <stdlib.h>

/* Says what the analysis of the file has found. */
static int conclude(struct check *check, uint32_t violations)
{
    if (print_violations(check, violations) != 0 || print_notes(check) != 0)
        return WRONG;
    if (violations == 0) {
        printf("no run arrives in a rejecting state\n");
        return PASSED;
    }
    printf("some run arrives in a rejecting state: %lu violation%s\n",
           (unsigned long)violations, plural(violations));
    return VIOLATED;
}

static int check_file(struct check *check)
{
    uint32_t line, violations;
    uint32_t refusal = palthrenni_read(check->file.bytes, check->file.len, &line);
    if (refusal != PALTHRENNI_OK)
        return print_file_refusal(&check->file, refusal, line);
    if (check_copy(&check->file) != 0)
        return WRONG;
    int status = analyze(check, &violations);
    if (status == 0 && check->arguments.text != NULL)
        status = check_exchange(check, &violations);
    if (status == 0)
        status = check_saved(check);
    if (status != 0)
        return status;
    status = conclude(check, violations);
    return status != WRONG && write_saved(check) != 0 ? WRONG : status;
}

/* Reads the text of an exchange or saved marks, if they are named, and the
 * program file: without a name the one that the script `check` says, or standard
 * input. */
static int read_inputs(struct check *check)
{
    const char *text = check->arguments.text, *file = check->arguments.file;
    const char *sheet = check->arguments.old_sheet;
    if (sheet == NULL)
        sheet = check->arguments.saved_sheet;
    if (file == NULL)
        file = getenv("PALTHRENNI_SAMPLE");
    check->file.what = "an accepted file";
    check->file.most = PALTHRENNI_OUTPUT_SIZE;
    check->text.what = "the text of an accepted exchange";
    /* A frame 52 and as many edges as there may be. */
    check->text.most = 7 + 256 * 11;
    if (text != NULL && read_input(&check->text, text) != 0)
        return WRONG;
    if (sheet != NULL && read_sheet(&check->sheet, sheet) != 0)
        return WRONG;
    return read_input(&check->file, file != NULL ? file : "-");
}

int main(int argc, char **argv)
{
    static struct check check;
    /* A limit on the size of files is an error then, and no death. */
    signal(SIGXFSZ, SIG_IGN);
    int status = read_arguments(argc, argv, &check.arguments);
    if (status == 0 && !check.arguments.answered) {
        status = read_inputs(&check);
        if (status == 0)
            status = check_file(&check);
    }
    if (fflush(stdout) != 0 || ferror(stdout))
        return wrong("standard output", "not all could be written");
    return status;
}
