#include "refusals.h"

#include "file_faults.h"
#include "saved_faults.h"
#include "status.h"
#include "text_faults.h"

#include <stdio.h>

/* What the checker says of a refused file: the number and the line, and on 19
 * and 20 the faulty state-action pair. */
struct file_refusal {
    uint32_t number, line, state, action;
};

/* An input that is longer than any that is accepted is called so. */
static void print_length(const struct input *input, const char *what)
{
    if (input->len > input->most)
        printf("note: the %s has %lu bytes; %s has %lu at most\n", what,
               (unsigned long)input->len, input->what, (unsigned long)input->most);
}

/* What the command finds in a file that is refused so: gives 1 and says it, or
 * gives 0. */
static int find_fault(struct lines lines, const struct file_refusal *refusal,
                      struct words *words)
{
    struct program program;
    switch (refusal->number) {
    case PALTHRENNI_PAIR_NOT_MET:
    case PALTHRENNI_PAIR_MET_TWICE:
        return pair_fault(lines, refusal->number, refusal->state, refusal->action,
                          words);
    case PALTHRENNI_TOO_LARGE:
        read_program(lines, UINT32_MAX, &program);
        return sizes_fault(&program, words);
    default:
        return file_fault(lines, refusal->number, refusal->line, words);
    }
}

int print_file_refusal(const struct input *file, uint32_t number, uint32_t line)
{
    struct file_refusal refusal;
    struct lines lines = lines_of(file->bytes, file->len);
    struct words words;
    struct frame frame;
    refusal.number = palthrenni_faulty_pair(file->bytes, file->len, &refusal.line,
                                            &refusal.state, &refusal.action);
    if (refusal.number != number || refusal.line != line)
        return wrong(file->name, "refused, and not alike when asked again");
    print_length(file, "file");
    printf("refused: %lu", (unsigned long)number);
    if (line != 0)
        printf(" at line %lu", (unsigned long)line);
    printf(" (%s)", palthrenni_reason(number));
    if (find_frame(lines, line, &frame) && frame.len > 0)
        printf(": %s", shown(&frame).text);
    if (find_fault(lines, &refusal, &words))
        printf(": %s", words.text);
    printf("\n");
    return REFUSED;
}

int print_exchange_refusal(const struct check *check, uint32_t refusal)
{
    struct words words;
    print_length(&check->text, "text");
    printf("exchange refused: %lu (%s)", (unsigned long)refusal,
           palthrenni_reason(refusal));
    if (text_fault(lines_of(check->text.bytes, check->text.len),
                   lines_of(check->file.bytes, check->file.len), refusal, &words))
        printf(": %s", words.text);
    printf("\n");
    return REFUSED;
}

int print_sheet_refusal(const struct check *check, uint32_t refusal)
{
    struct words words;
    if (!saved_fault(check, refusal, &words))
        return wrong(check->file.name, "its saved marks were refused,"
                                       " and nothing is wrong with them");
    printf("sheet refused: %lu (%s): %s\n", (unsigned long)refusal,
           palthrenni_reason(refusal), words.text);
    return REFUSED;
}
