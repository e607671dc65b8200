/*
 * What the header says without the archive: the version, the words for each
 * number, and the parts of a number. It is built as C and as C++ and has to
 * print the same.
 */
#include "palthrenni.h"

#include <inttypes.h>
#include <stdio.h>

/* Whether the parts of each number of these sizes make that number again. */
static int parts_fit(uint32_t routines, uint32_t nodes, uint32_t states)
{
    uint32_t number;
    for (number = 0; number < routines * nodes * states * states; number++) {
        uint32_t routine = PALTHRENNI_ROUTINE(number, nodes, states);
        uint32_t node = PALTHRENNI_NODE(number, nodes, states);
        uint32_t root = PALTHRENNI_ROOT(number, nodes, states);
        uint32_t state = PALTHRENNI_STATE(number, nodes, states);
        uint32_t made = ((routine * nodes + node) * states + root) * states + state;
        if (made != number || routine >= routines || node >= nodes
            || root >= states || state >= states)
            return 0;
    }
    return 1;
}

int main(void)
{
    uint32_t number;
    /* The macros take numbers of any width. With 3 nodes and 3 states, 59 is
     * routine 2, node 0, root 1, state 2. */
    uint8_t nodes = 3;
    uint64_t wide = 59;
    printf("version %s\n", PALTHRENNI_VERSION);
    printf("parts %" PRIu32 " %" PRIu32 " %" PRIu32 " %" PRIu32 "\n",
           PALTHRENNI_ROUTINE(wide, nodes, 1 + 2), PALTHRENNI_NODE(wide, nodes, 1 + 2),
           PALTHRENNI_ROOT(wide, nodes, 1 + 2), PALTHRENNI_STATE(wide, nodes, 1 + 2));
    printf("fit %d %d %d\n", parts_fit(16, 4, 16), parts_fit(3, 5, 3), parts_fit(1, 64, 16));
    for (number = 0; number <= 26; number++)
        printf("%" PRIu32 " %s\n", number, palthrenni_reason(number));
    printf("%" PRIu32 " %s\n", PALTHRENNI_NONE, palthrenni_reason(PALTHRENNI_NONE));
    return PALTHRENNI_NO_LIMIT == UINT64_MAX ? 0 : 1;
}
