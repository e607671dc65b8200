/*
 * Checks a program file, to show how a C program calls Palthrenni:
 *
 *     check_file FILE [EDIT]
 *
 * It says why the file is refused, and where; or the sizes of its program, each
 * violation, and each configuration at which a run is cut off. With an edit,
 * such as 2B00000102, it says this of the edited program. The status is 0
 * without a violation, 3 with one, 1 after a refusal, and 2 if the file cannot
 * be read. include/palthrenni.h says what each function does.
 */
#include "palthrenni.h"

#include <inttypes.h>
#include <stdio.h>
#include <string.h>

/* A file, its sizes, and room for the marks of any program. No accepted file
 * is longer than an output: of one that fills this room, a part is enough. */
static uint8_t first[2 * PALTHRENNI_OUTPUT_SIZE], edited[PALTHRENNI_OUTPUT_SIZE];
static const uint8_t *file = first;
static size_t file_len;
static uint32_t routines, nodes, states, size;
static uint8_t marks[PALTHRENNI_MARKS_MOST], work[PALTHRENNI_MARKS_MOST];

/* Says what is refused and why; of a table also for which state and action. */
static int refused(const char *what, uint32_t refusal, uint32_t line)
{
    uint32_t state, action;
    printf("%s refused: %" PRIu32 " (%s)", what, refusal, palthrenni_reason(refusal));
    if (line != 0)
        printf(" at line %" PRIu32, line);
    refusal = palthrenni_faulty_pair(file, file_len, &line, &state, &action);
    if (refusal == PALTHRENNI_PAIR_NOT_MET || refusal == PALTHRENNI_PAIR_MET_TWICE)
        printf(": state %" PRIu32 ", action %" PRIu32, state, action);
    printf("\n");
    return 1;
}

static void print_configuration(uint32_t number)
{
    printf("routine %" PRIu32 ", node %" PRIu32 ", root %" PRIu32 ", state %" PRIu32 "\n",
           PALTHRENNI_ROUTINE(number, nodes, states),
           PALTHRENNI_NODE(number, nodes, states),
           PALTHRENNI_ROOT(number, nodes, states),
           PALTHRENNI_STATE(number, nodes, states));
}

/* Asks for the sizes, lends marks of that length, and analyzes the program. */
static int analyze(void)
{
    uint32_t line, configurations, violations, iterations;
    uint32_t refusal = palthrenni_sizes(file, file_len, &line,
                                        &routines, &nodes, &states, &size);
    if (refusal == PALTHRENNI_OK)
        refusal = palthrenni_analyze(file, file_len, marks, size, work, size,
                                     PALTHRENNI_NO_LIMIT, &line,
                                     &configurations, &violations, &iterations);
    if (refusal != PALTHRENNI_OK)
        return refused("file", refusal, line);
    printf("accepted: routines %" PRIu32 ", nodes %" PRIu32 ", states %" PRIu32
           ", configurations %" PRIu32 ", violations %" PRIu32 "\n",
           routines, nodes, states, configurations, violations);
    return 0;
}

/* Makes an edit, which repairs the marks, and goes on with the new file. Once
 * only: for a second edit, file and output would be the same buffer, which is
 * not noticed. A chain swaps two buffers (palthrenni_repair_forward). */
static int repair(const char *edit)
{
    uint8_t text[64]; /* longer than any edit: one that is cut is refused too */
    size_t len = strlen(edit) < sizeof text ? strlen(edit) : sizeof text - 1;
    uint32_t refusal, line, written;
    memcpy(text, edit, len);
    text[len] = '\n';
    refusal = palthrenni_repair_forward(file, file_len, marks, size, text, len + 1,
                                        edited, sizeof edited, work, size,
                                        &line, &written);
    if (refusal != PALTHRENNI_OK)
        return refused("edit", refusal, line);
    printf("edited: %" PRIu32 " bytes\n", written);
    file = edited;
    file_len = written;
    return 0;
}

/* Lists the violations: each call begins after the last that was found. Then
 * lists where a run is cut off, as the automaton has no transition there: what
 * would come after was not checked. */
static int list(void)
{
    uint32_t refusal, line, found, edge, from;
    int status = 0;
    for (from = 0;; from = found + 1) {
        refusal = palthrenni_next_violation(file, file_len, marks, size, work, size,
                                            from, &line, &found);
        if (refusal != PALTHRENNI_OK)
            return refused("marks", refusal, line);
        if (found == PALTHRENNI_NONE)
            break;
        printf("violation: ");
        print_configuration(found);
        status = 3;
    }
    for (from = 0;; from = found + 1) {
        refusal = palthrenni_next_blocked(file, file_len, marks, size, work, size,
                                          from, &line, &found, &edge);
        if (refusal != PALTHRENNI_OK)
            return refused("marks", refusal, line);
        if (found == PALTHRENNI_NONE)
            return status;
        if (edge == PALTHRENNI_NONE)
            printf("cut off at the return: ");
        else
            printf("cut off at the edge of line %" PRIu32 ": ", routines + 2 + edge);
        print_configuration(found);
    }
}

int main(int argc, char **argv)
{
    FILE *in = argc == 2 || argc == 3 ? fopen(argv[1], "rb") : NULL;
    if (in != NULL)
        file_len = fread(first, 1, sizeof first, in);
    if (in == NULL || ferror(in)) {
        fprintf(stderr, "usage: check_file FILE [EDIT], with a file that can be read\n");
        return 2;
    }
    fclose(in);
    if (analyze() != 0 || (argc == 3 && repair(argv[2]) != 0))
        return 1;
    return list();
}
