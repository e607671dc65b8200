#include "analysis.h"

#include "status.h"
#include "words.h"

#include <inttypes.h>
#include <stdio.h>

/* Says that the analysis gave up. */
static int gave_up(uint64_t limit)
{
    printf("gave up: more than %" PRIu64 " iteration%s"
           " (a larger --limit, or none, may give an answer)\n",
           limit, plural(limit));
    return GAVE_UP;
}

/* Asks for the sizes of the accepted file's program, by which its marks and the
 * room to work in are lent, and says them. */
static int ask_sizes(const struct input *file, struct sizes *sizes)
{
    uint32_t line;
    uint32_t refusal = palthrenni_sizes(file->bytes, file->len, &line, &sizes->routines,
                                        &sizes->nodes, &sizes->states, &sizes->marks);
    if (refusal != PALTHRENNI_OK || sizes->marks > PALTHRENNI_MARKS_MOST)
        return wrong(file->name, "accepted, but its sizes are refused");
    printf("sizes: routines %lu, nodes %lu, states %lu; marks %lu bytes\n",
           (unsigned long)sizes->routines, (unsigned long)sizes->nodes,
           (unsigned long)sizes->states, (unsigned long)sizes->marks);
    return 0;
}

int analyze(struct check *check, uint32_t *violations)
{
    const struct input *file = &check->file;
    struct marks *marks = &check->marks;
    uint64_t limit = check->arguments.limit;
    uint32_t line, configurations, iterations;
    if (ask_sizes(file, &marks->sizes) != 0)
        return WRONG;
    uint32_t refusal = palthrenni_analyze(file->bytes, file->len,
                                          marks->bytes, marks->sizes.marks,
                                          check->work, marks->sizes.marks, limit,
                                          &line, &configurations, violations,
                                          &iterations);
    if (refusal == PALTHRENNI_GAVE_UP && limit != PALTHRENNI_NO_LIMIT)
        return gave_up(limit);
    if (refusal != PALTHRENNI_OK)
        return wrong(file->name, "accepted, but not analyzed");
    printf("analyzed: configurations %lu, violations %lu, iterations %lu\n",
           (unsigned long)configurations, (unsigned long)*violations,
           (unsigned long)iterations);
    return 0;
}
