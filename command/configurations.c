#include "configurations.h"

#include <stdio.h>

struct parts parts_of(uint32_t number, const struct sizes *sizes)
{
    struct parts parts = {
        PALTHRENNI_ROUTINE(number, sizes->nodes, sizes->states),
        PALTHRENNI_NODE(number, sizes->nodes, sizes->states),
        PALTHRENNI_ROOT(number, sizes->nodes, sizes->states),
        PALTHRENNI_STATE(number, sizes->nodes, sizes->states),
    };
    return parts;
}

uint32_t number_of(struct parts parts, const struct sizes *sizes)
{
    uint32_t number = parts.routine * sizes->nodes + parts.node;
    number = number * sizes->states + parts.root;
    return number * sizes->states + parts.state;
}

const struct sizes old_sizes = {16, 16, 8, PALTHRENNI_OLD_MARKS_SIZE};

struct words in_words(const char *word, struct parts parts)
{
    struct words words;
    say(&words, "%s: routine %lu, node %lu, root %lu, state %lu", word,
        (unsigned long)parts.routine, (unsigned long)parts.node,
        (unsigned long)parts.root, (unsigned long)parts.state);
    return words;
}

void print_configuration(const char *word, struct parts parts)
{
    puts(in_words(word, parts).text);
}

void print_more(uint32_t more)
{
    if (more > 0)
        printf("and %lu more (--all prints them)\n", (unsigned long)more);
}
