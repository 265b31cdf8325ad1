/* The flight loader's call, with a quarter of the memory: case c of document 01, a list x that equals its own tail; then a guard of
 * nine terms, which only the desk's own call takes. */
#include "guarddesk.h"
#include <stdio.h>

static const uint8_t list[] = {
    2, 0, 2, 0, 2, 0, 1,       /* type 0: numbers; type 1: nil, or cons of a type 0 and a type 1 */
    2, 0, 1, 3, 0, 1, 1,       /* term 0: a variable of type 1; term 1: its field 1 as a cons */
    1, 0, 0, 1};               /* one line: term 0 equals term 1 */
static const uint8_t nine[] = {
    1, 0,                                                     /* type 0: numbers */
    9, 0, 0, 0, 0, 0, 0, 0, 0, 0, 0, 0, 0, 0, 0, 0, 0, 0, 0,   /* nine variables of it */
    0};                                                       /* no line */
static int32_t rows[GUARDDESK_LOADER_ROWS_LENGTH], places[GUARDDESK_LOADER_PLACES_LENGTH];

static void load(const uint8_t *file, size_t length)
{
    static const char *const verdicts[] = {"REFUSED", "SAT", "UNSAT", "SPENT"};
    uint32_t answer[GUARDDESK_ANSWER_LENGTH];
    if (guarddesk_load(file, length, 3, rows, GUARDDESK_LOADER_ROWS_LENGTH, places, GUARDDESK_LOADER_PLACES_LENGTH,
                       answer, GUARDDESK_ANSWER_LENGTH) != GUARDDESK_ANSWERED)
        return;
    printf("%s %u\n", verdicts[answer[0]], (unsigned)answer[1]);
    for (int term = 0; answer[0] == GUARDDESK_SAT && term < 2; term++) {
        const int32_t tag = rows[4 * places[term]];
        printf("term %d: type %d variant %d\n", term, (int)tag / 16, (int)tag % 16);
    }
}

int main(void)
{
    load(list, sizeof list);
    load(nine, sizeof nine);
    return 0;
}
