/* Merges the guard of a procedure with those of two procedures inside it, and asks the desk whether both can hold. */
#include "guarddesk.h"
#include <stdio.h>

/* Type 0: numbers; type 1: nil, or cons of a type 0 and a type 1. */
#define TYPES 2, 0, 2, 0, 2, 0, 1
static const uint8_t outer[] = {
    TYPES, 3, 0, 1, 3, 0, 1, 0, 1, 0, 6,    /* term 0: a variable of type 1; term 1: its field 0 as a cons; term 2: 3 */
    1, 0, 1, 2};                            /* one line: term 1 equals term 2 */
static const uint8_t longer[] = {
    TYPES, 3, 0, 1, 3, 0, 1, 1, 2, 1, 0,    /* the same variable, being the first here too; its field 1 as a cons; nil */
    1, 1, 1, 2};                            /* one line: these are unequal */
static const uint8_t four[] = {
    TYPES, 3, 0, 1, 3, 0, 1, 0, 1, 0, 8,    /* the same variable; its field 0 as a cons; 4 */
    1, 0, 1, 2};                            /* one line: these are equal */
static const uint8_t other_types[] = {0, 0, 0};
static int32_t rows[GUARDDESK_ROWS_LENGTH], places[GUARDDESK_PLACES_LENGTH];

/* Whether both guards can hold, at once. */
static int both(const uint8_t *inner, size_t inner_length)
{
    static const char *const verdicts[] = {"REFUSED", "SAT", "UNSAT", "SPENT"};
    uint8_t file[GUARDDESK_FILE_LENGTH];
    uint32_t answer[GUARDDESK_ANSWER_LENGTH];
    const int64_t length = guarddesk_merge(outer, sizeof outer, inner, inner_length, file, sizeof file);
    if (length < 0) {
        printf("refused: question %d\n", (int)-length);
        return 1;
    }
    for (int64_t i = 0; i < length; i++)
        printf("%02x%c", (unsigned)file[i], i + 1 < length ? ' ' : '\n');
    if (guarddesk_decide(file, (size_t)length, 1000, rows, GUARDDESK_ROWS_LENGTH, places, GUARDDESK_PLACES_LENGTH,
                         answer, GUARDDESK_ANSWER_LENGTH) != GUARDDESK_ANSWERED)
        return 1;
    printf("%s %u\n", verdicts[answer[0]], (unsigned)answer[1]);
    return 0;
}

int main(void)
{
    uint8_t two[2];
    if (both(longer, sizeof longer) != 0 || both(four, sizeof four) != 0)
        return 1;

    /* With a guard that has no types, and into too short a buffer. */
    both(other_types, sizeof other_types);
    printf("refused: question %d\n", (int)-guarddesk_merge(outer, sizeof outer, four, sizeof four, two, sizeof two));
    return 0;
}
