#include "exchange.h"

#include "analysis.h"
#include "configurations.h"
#include "output.h"
#include "refusals.h"
#include "status.h"

#include <stdio.h>
#include <string.h>

/* What an exchange gives back: its refusal, the new marks, and the new file. */
struct exchanged {
    uint32_t refusal;
    struct marks marks;
    uint8_t bytes[PALTHRENNI_OUTPUT_SIZE];
    uint32_t len;
};

static int is_same_marks(const struct marks *one, const struct marks *other)
{
    return one->sizes.routines == other->sizes.routines
        && one->sizes.nodes == other->sizes.nodes
        && one->sizes.states == other->sizes.states
        && one->sizes.marks == other->sizes.marks
        && memcmp(one->bytes, other->bytes, one->sizes.marks) == 0;
}

static int is_same(const struct exchanged *one, const struct exchanged *other)
{
    return one->refusal == other->refusal
        && is_same_marks(&one->marks, &other->marks)
        && one->len == other->len && memcmp(one->bytes, other->bytes, one->len) == 0;
}

/* Asks for the sizes that the new program will have, and for the length of the
 * room to work in; both lengths are 0 if the exchange is refused. An exchange
 * leaves the routines and the states as many as they are. */
static uint32_t ask_exchange_sizes(const struct check *check, struct sizes *sizes,
                                   uint32_t *work_size)
{
    uint32_t line;
    sizes->routines = check->marks.sizes.routines;
    sizes->states = check->marks.sizes.states;
    return palthrenni_exchange_sizes(check->file.bytes, check->file.len,
                                     check->text.bytes, check->text.len, &line,
                                     &sizes->nodes, &sizes->marks, work_size);
}

static void exchange_forward(struct check *check, uint32_t work_size,
                             struct exchanged *result)
{
    uint32_t line;
    result->refusal = palthrenni_exchange_forward(
        check->file.bytes, check->file.len, check->marks.bytes, check->marks.sizes.marks,
        check->text.bytes, check->text.len, result->bytes, sizeof result->bytes,
        check->work, work_size, result->marks.bytes, result->marks.sizes.marks, &line,
        &result->len);
}

/* Which routines were reanalyzed, only this one says. */
static void exchange_inside_out(struct check *check, uint32_t work_size,
                                struct exchanged *result, uint32_t *reanalyzed)
{
    uint32_t line;
    result->refusal = palthrenni_exchange_inside_out(
        check->file.bytes, check->file.len, check->marks.bytes, check->marks.sizes.marks,
        check->text.bytes, check->text.len, result->bytes, sizeof result->bytes,
        check->work, work_size, result->marks.bytes, result->marks.sizes.marks, &line,
        &result->len, reanalyzed);
}

/* Makes the exchange by both repairs, each with new marks and an output of its
 * own. What the sizes are refused for, both refuse, before they look at the
 * lengths. */
static int exchange(struct check *check, struct exchanged *result, uint32_t *reanalyzed)
{
    static struct exchanged inward;
    const char *name = check->text.name;
    uint32_t work_size;
    uint32_t refusal = ask_exchange_sizes(check, &result->marks.sizes, &work_size);
    if (result->marks.sizes.marks > PALTHRENNI_MARKS_MOST
        || work_size > PALTHRENNI_MARKS_MOST)
        return wrong(name, "the marks or the room to work in would be too long");
    inward.marks.sizes = result->marks.sizes;
    exchange_forward(check, work_size, result);
    exchange_inside_out(check, work_size, &inward, reanalyzed);
    if (result->len > sizeof result->bytes || !is_same(result, &inward))
        return wrong(name, "the two repairs do not come to the same");
    if (result->refusal != refusal)
        return wrong(name, "the sizes and the exchange are not refused alike");
    return 0;
}

/* Whether these marks have a configuration. Its parts may be those of a program
 * with more nodes. */
static int has(const struct marks *there, struct parts parts)
{
    return parts.node < there->sizes.nodes
        && there->bytes[number_of(parts, &there->sizes)];
}

/* Prints the configurations that are marked here and not there, the first FIRST
 * or all, and says how many they are. They are compared by their parts: where
 * the sizes are others, the same number stands for other parts. */
static uint32_t print_only(const char *word, const struct marks *here,
                           const struct marks *there, int all)
{
    uint32_t count = 0, printed = 0;
    for (uint32_t number = 0; number < here->sizes.marks; number++) {
        struct parts parts = parts_of(number, &here->sizes);
        if (here->bytes[number] == 0 || has(there, parts))
            continue;
        count++;
        if (all || printed < FIRST) {
            print_configuration(word, parts);
            printed++;
        }
    }
    print_more(count - printed);
    return count;
}

/* Says what the exchange has changed; the marks are still the old ones. */
static void print_changes(const struct check *check, const struct exchanged *result,
                          uint32_t reanalyzed)
{
    int all = check->arguments.all;
    printf("exchanged: %lu bytes, reanalyzed routines", (unsigned long)result->len);
    for (int routine = 0; routine < 16; routine++) {
        if (reanalyzed >> routine & 1)
            printf(" %d", routine);
    }
    printf("\n");
    uint32_t new = print_only("new", &result->marks, &check->marks, all);
    uint32_t gone = print_only("gone", &check->marks, &result->marks, all);
    if (new == 0 && gone == 0)
        printf("no configuration is new, and none is gone\n");
}

/* Puts the new file in the place of the old one, and analyzes it: it has to have
 * the sizes, and its analysis to set the marks, that the exchange left. */
static int go_on(struct check *check, const struct exchanged *result,
                 uint32_t *violations)
{
    memcpy(check->file.bytes, result->bytes, result->len);
    check->file.len = result->len;
    int status = analyze(check, violations);
    if (status == 0 && !is_same_marks(&result->marks, &check->marks))
        return wrong(check->text.name,
                     "the marks left are not those of the new program");
    return status;
}

int check_exchange(struct check *check, uint32_t *violations)
{
    static struct exchanged result;
    const char *output = check->arguments.output;
    uint32_t reanalyzed;
    if (exchange(check, &result, &reanalyzed) != 0)
        return WRONG;
    if (result.refusal != PALTHRENNI_OK)
        return print_exchange_refusal(check, result.refusal);
    print_changes(check, &result, reanalyzed);
    int status = go_on(check, &result, violations);
    if (status != 0 || output == NULL)
        return status;
    return write_output(output, check->file.bytes, check->file.len);
}
