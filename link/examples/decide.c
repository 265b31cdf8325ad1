/* Decides case c of document 01, a list x that equals its own tail, and shows the message of each of its two terms. */
#include "guarddesk.h"
#include <stdio.h>

static const uint8_t file[] = {
    2, 0, 2, 0, 2, 0, 1,       /* type 0: numbers; type 1: nil, or cons of a type 0 and a type 1 */
    2, 0, 1, 3, 0, 1, 1,       /* term 0: a variable of type 1; term 1: its field 1 as a cons */
    1, 0, 0, 1};               /* one line: term 0 equals term 1 */
static int32_t rows[GUARDDESK_ROWS_LENGTH], places[GUARDDESK_PLACES_LENGTH];

int main(void)
{
    static const char *const verdicts[] = {"REFUSED", "SAT", "UNSAT", "SPENT"};
    uint32_t answer[GUARDDESK_ANSWER_LENGTH];
    if (guarddesk_decide(file, sizeof file, 3, rows, GUARDDESK_ROWS_LENGTH, places, GUARDDESK_PLACES_LENGTH,
                         answer, GUARDDESK_ANSWER_LENGTH) != GUARDDESK_ANSWERED)
        return 1;
    printf("%s %u\n", verdicts[answer[0]], (unsigned)answer[1]);
    printf("splits: %u of the first kind, %u of the second\n", (unsigned)answer[3], (unsigned)answer[4]);
    for (int term = 0; answer[0] == GUARDDESK_SAT && term < 2; term++) {
        const int32_t tag = rows[4 * places[term]];
        printf("term %d: type %d variant %d\n", term, (int)tag / 16, (int)tag % 16);
    }
    return 0;
}
