/* Explains case h of document 01, three flags that all differ: prints the branches of its search, and checks their record. */
#include "guarddesk.h"
#include <stdio.h>

static const uint8_t file[] = {
    1, 2, 0, 0,                           /* type 0: two variants without fields */
    3, 0, 0, 0, 0, 0, 0,                  /* terms 0, 1 and 2: variables of type 0 */
    3, 1, 0, 1, 1, 0, 2, 1, 1, 2};        /* three lines: each two of them are unequal */
static int32_t rows[GUARDDESK_ROWS_LENGTH], places[GUARDDESK_PLACES_LENGTH];
static uint8_t record[1000 * GUARDDESK_RECORD_BYTES_PER_NODE];

/* Prints the branch at the front of a record, as deep as this; returns where the next one begins. Numbers are one byte each. */
static const uint8_t *print_branch(const uint8_t *node, int depth, const char *begin)
{
    printf("%*s%s", 2 * depth, "", begin);
    switch (node[0]) {
    case GUARDDESK_EMPTY_LABEL:
        printf("closed: no variant left for term %d\n", node[1]);
        return node + 2;
    case GUARDDESK_BROKEN_LINE:
        printf("closed: both sides of line %d are equal\n", node[1]);
        return node + 2;
    case GUARDDESK_UNLIKE_CONSTANTS:
        printf("closed: term %d is equal to two numbers\n", node[1]);
        return node + 2;
    case GUARDDESK_INSIDE_ITSELF:
        printf("closed: term %d would contain itself\n", node[1]);
        return node + 2;
    default: /* GUARDDESK_SPLIT */
        printf("term %d is variant %d?\n", node[1], node[2]);
        node = print_branch(node + 3, depth + 1, "yes: ");
        return print_branch(node, depth + 1, "no: ");
    }
}

int main(void)
{
    uint32_t answer[GUARDDESK_ANSWER_LENGTH];
    const size_t length =
        guarddesk_explain(file, sizeof file, 1000, rows, GUARDDESK_ROWS_LENGTH, places, GUARDDESK_PLACES_LENGTH,
                          record, sizeof record, answer, GUARDDESK_ANSWER_LENGTH);
    if (length == GUARDDESK_EXPLAIN_TOO_SHORT || answer[0] != GUARDDESK_UNSAT)
        return 1;
    printf("UNSAT %u\n", (unsigned)answer[1]);
    printf("splits: %u of the first kind, %u of the second\n", (unsigned)answer[3], (unsigned)answer[4]);
    print_branch(record, 0, "");
    if (guarddesk_check(file, sizeof file, record, length) != GUARDDESK_ACCEPTED)
        return 1;
    printf("%u bytes, accepted\n", (unsigned)length);
    return 0;
}
