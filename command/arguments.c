#include "arguments.h"

#include "output.h"
#include "palthrenni.h"
#include "status.h"

#include <errno.h>
#include <stdio.h>
#include <stdlib.h>
#include <string.h>

/* command/help.txt, line by line as C has texts; the script `check` makes it. */
static const char help[] =
#include "help.inc"
    ;

static int misused(const char *argument, const char *what)
{
    wrong(argument, what);
    fprintf(stderr, "usage: check [--all] [--blocked] [--limit N]"
                    " [--exchange TEXT [--output NEW]] [--] [FILE]\n"
                    "       check [--all] [--blocked] [--limit N]"
                    " [--old-sheet SHEET] --save-sheet FRAMES [--] FILE\n"
                    "       check [--all] [--blocked] [--limit N]"
                    " --saved-sheet FRAMES [--save-old-sheet SHEET] [--] FILE\n"
                    "       check --help | --version\n");
    return WRONG;
}

/* Reads the limit: digits and nothing else, since strtoull would also take a
 * space or a sign before them. */
static int read_limit(struct arguments *arguments)
{
    const char *given = arguments->limit_given;
    size_t digits = strspn(given, "0123456789");
    errno = 0;
    arguments->limit = strtoull(given, NULL, 10);
    if (digits == 0 || given[digits] != '\0' || errno != 0)
        return misused("--limit", "not a number from 0 to 18446744073709551615");
    return 0;
}

/* Answers an option after which nothing else is done; whether it is one. */
static int answers(const char *option)
{
    if (strcmp(option, "--help") == 0)
        fputs(help, stdout);
    else if (strcmp(option, "--version") == 0)
        printf("check %s\n", PALTHRENNI_VERSION);
    else
        return 0;
    return 1;
}

/* What an option without a value sets; NULL if there is no such option. */
static int *flag_of(struct arguments *arguments, const char *option)
{
    if (strcmp(option, "--all") == 0)
        return &arguments->all;
    return strcmp(option, "--blocked") == 0 ? &arguments->blocked : NULL;
}

/* Where the value goes that follows an option; NULL if there is no such
 * option. */
static const char **value_of(struct arguments *arguments, const char *option)
{
    const struct {
        const char *option;
        const char **value;
    } values[] = {
        {"--limit", &arguments->limit_given},
        {"--exchange", &arguments->text},
        {"--output", &arguments->output},
        {"--old-sheet", &arguments->old_sheet},
        {"--save-sheet", &arguments->save_sheet},
        {"--saved-sheet", &arguments->saved_sheet},
        {"--save-old-sheet", &arguments->save_old_sheet},
    };
    for (size_t i = 0; i < sizeof values / sizeof values[0]; i++) {
        if (strcmp(option, values[i].option) == 0)
            return values[i].value;
    }
    return NULL;
}

/* Reads an option, and the value that follows it, NULL if nothing does. Sets
 * whether it took the value. */
static int read_option(struct arguments *arguments, const char *option,
                       const char *next, int *took)
{
    int *flag = flag_of(arguments, option);
    const char **value = value_of(arguments, option);
    if (flag == NULL && value == NULL)
        return misused(option, "no such option");
    if (flag != NULL ? *flag : *value != NULL)
        return misused(option, "given twice");
    if (flag != NULL) {
        *flag = 1;
        return 0;
    }
    if (next == NULL)
        return misused(option, "nothing follows");
    *value = next;
    *took = 1;
    return 0;
}

static int read_file_name(struct arguments *arguments, const char *name)
{
    if (arguments->file != NULL)
        return misused(name, "a second file, and one is checked at a time");
    arguments->file = name;
    return 0;
}

/* Whether a name is that of standard input. */
static int is_input(const char *name)
{
    return name != NULL && strcmp(name, "-") == 0;
}

/* Whether the options of saved marks fit together. */
static int check_sheets(const struct arguments *arguments)
{
    if (arguments->old_sheet != NULL && arguments->save_sheet == NULL)
        return misused("--old-sheet", "only with --save-sheet");
    if (arguments->save_old_sheet != NULL && arguments->saved_sheet == NULL)
        return misused("--save-old-sheet", "only with --saved-sheet");
    if (arguments->save_sheet != NULL && arguments->saved_sheet != NULL)
        return misused("--save-sheet", "not with --saved-sheet");
    return 0;
}

/* Whether they fit to the rest. The file has to be named: whoever gave its name
 * alone would have it replaced by the marks of the sample. */
static int check_sheet_file(const struct arguments *arguments)
{
    int saves = arguments->save_sheet != NULL;
    const char *option = saves ? "--save-sheet" : "--saved-sheet";
    const char *read = saves ? arguments->old_sheet : arguments->saved_sheet;
    const char *written = saves ? arguments->save_sheet : arguments->save_old_sheet;
    if (read == NULL && written == NULL)
        return 0;
    if (arguments->text != NULL)
        return misused(option, "not with --exchange");
    if (arguments->file == NULL)
        return misused(option, "only with a FILE that is named");
    if (is_input(read) && is_input(arguments->file))
        return misused("-", "standard input cannot be both the sheet and the file");
    if (written != NULL && would_replace(written, arguments->file))
        return misused(written, "the program file itself, which would be lost");
    return 0;
}

/* Whether what was given fits together. */
static int check_arguments(struct arguments *arguments)
{
    if (arguments->output != NULL && arguments->text == NULL)
        return misused("--output", "only with --exchange");
    if (is_input(arguments->text) && is_input(arguments->file))
        return misused("-", "standard input cannot be both the text and the file");
    if (check_sheets(arguments) != 0 || check_sheet_file(arguments) != 0)
        return WRONG;
    return arguments->limit_given != NULL ? read_limit(arguments) : 0;
}

int read_arguments(int argc, char **argv, struct arguments *arguments)
{
    int options = 1;
    arguments->limit = PALTHRENNI_NO_LIMIT;
    for (int i = 1; i < argc; i++) {
        int status, took = 0;
        if (options && strcmp(argv[i], "--") == 0) {
            options = 0;
            continue;
        }
        if (options && answers(argv[i])) {
            arguments->answered = 1;
            return 0;
        }
        if (options && argv[i][0] == '-' && argv[i][1] != '\0')
            status = read_option(arguments, argv[i], argv[i + 1], &took);
        else
            status = read_file_name(arguments, argv[i]);
        if (status != 0)
            return status;
        i += took;
    }
    return check_arguments(arguments);
}
