/* Stores a guard file by column, as slow memory keeps it, gives it back and asks the desk about it; then bytes that were damaged there. */
#include "guarddesk.h"
#include <stdio.h>
#include <string.h>

/* Type 0: numbers; type 1: nil, or cons of a type 0 and a type 1. */
static const uint8_t file[] = {
    2, 0, 2, 0, 2, 0, 1,
    4, 0, 1, 3, 0, 1, 0, 1, 0, 6, 1, 0, 8,    /* four terms: a variable of type 1; its field 0 as a cons; 3; 4 */
    2, 0, 1, 2, 1, 1, 3};                     /* two lines: field 0 is 3, and isn't 4 */
static int32_t rows[GUARDDESK_ROWS_LENGTH], places[GUARDDESK_PLACES_LENGTH];

static void show(const char *name, const uint8_t *bytes, int64_t length)
{
    printf("%s", name);
    for (int64_t i = 0; i < length; i++)
        printf(" %02x", (unsigned)bytes[i]);
    printf("\n");
}

int main(void)
{
    static const char *const verdicts[] = {"REFUSED", "SAT", "UNSAT", "SPENT"};
    uint8_t stored[GUARDDESK_FILE_LENGTH], back[GUARDDESK_FILE_LENGTH], two[2];
    uint32_t answer[GUARDDESK_ANSWER_LENGTH];
    const int64_t length = guarddesk_store(file, sizeof file, stored, sizeof stored);
    if (length < 0)
        return 1;
    show("file  ", file, sizeof file);
    show("stored", stored, length);
    const int64_t again = guarddesk_restore(stored, (size_t)length, back, sizeof back);
    if (again < 0)
        return 1;
    printf("same bytes: %s\n", again == sizeof file && memcmp(back, file, sizeof file) == 0 ? "yes" : "no");
    if (guarddesk_decide(back, (size_t)again, 1000, rows, GUARDDESK_ROWS_LENGTH, places, GUARDDESK_PLACES_LENGTH,
                         answer, GUARDDESK_ANSWER_LENGTH) != GUARDDESK_ANSWERED)
        return 1;
    printf("%s %u\n", verdicts[answer[0]], (unsigned)answer[1]);

    /* The kind of the last term, which stands behind the other kinds; and too short a buffer. */
    stored[11] = 9;
    printf("refused: question %d\n", (int)-guarddesk_restore(stored, (size_t)length, back, sizeof back));
    printf("refused: question %d\n", (int)-guarddesk_store(file, sizeof file, two, sizeof two));
    return 0;
}
