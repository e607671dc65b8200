#include "violations.h"

#include "configurations.h"
#include "frames.h"
#include "status.h"

/*
 * Prints the first violations as the checker lists them, the lowest first.
 * Each call costs a full analysis of the program, so it makes FIRST calls at
 * most.
 */
static int print_first(struct check *check, uint32_t *printed)
{
    const struct input *file = &check->file;
    const struct marks *marks = &check->marks;
    uint32_t from = 0;
    for (*printed = 0; *printed < FIRST; ++*printed) {
        uint32_t line, found;
        uint32_t refusal = palthrenni_next_violation(file->bytes, file->len,
                                                     marks->bytes, marks->sizes.marks,
                                                     check->work, marks->sizes.marks,
                                                     from, &line, &found);
        if (refusal != PALTHRENNI_OK)
            return wrong(file->name, "the marks of the analysis were refused");
        if (found == PALTHRENNI_NONE)
            break;
        if (found < from || found >= marks->sizes.marks)
            return wrong(file->name, "a violation was listed out of order");
        print_configuration("violation", parts_of(found, &marks->sizes));
        from = found + 1;
    }
    return 0;
}

/* Prints every violation straight from the marks, without another analysis: a
 * violation is a marked configuration whose state is rejecting. */
static void print_all(const struct check *check, uint32_t *printed)
{
    const struct marks *marks = &check->marks;
    struct program program;
    read_program(lines_of(check->file.bytes, check->file.len), UINT32_MAX, &program);
    *printed = 0;
    for (uint32_t number = 0; number < marks->sizes.marks; number++) {
        struct parts parts = parts_of(number, &marks->sizes);
        if (marks->bytes[number] == 1 && (program.rejecting >> parts.state & 1)) {
            print_configuration("violation", parts);
            ++*printed;
        }
    }
}

int print_violations(struct check *check, uint32_t violations)
{
    int all = check->arguments.all;
    uint32_t wanted = all || violations < FIRST ? violations : FIRST;
    uint32_t printed;
    if (all)
        print_all(check, &printed);
    else if (print_first(check, &printed) != 0)
        return WRONG;
    if (printed != wanted)
        return wrong(check->file.name,
                     "the violations are not as many as were counted");
    print_more(violations - printed);
    return 0;
}
