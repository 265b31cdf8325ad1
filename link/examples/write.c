/* Writes the guard file of a list of numbers, and asks the desk about it. */
#include "guarddesk.h"
#include <inttypes.h>
#include <stdio.h>

static const int64_t list[] = {
    2, 0, 2, 0, 2, 0, 1,                    /* type 0: numbers; type 1: nil, or cons of a type 0 and a type 1 */
    3, 0, 1, 3, 0, 1, 0,                    /* term 0: a variable of type 1; term 1: its field 0 as a cons; */
    1, 0, -300000000000,                    /* term 2: a time tag, five minutes before 0 in nanoseconds */
    1, 0, 1, 2};                            /* one line: term 1 equals term 2 */
enum { NUMBERS = sizeof list / sizeof *list };
static int32_t rows[GUARDDESK_ROWS_LENGTH], places[GUARDDESK_PLACES_LENGTH];

/* The number that a row shows. */
static int64_t number(const int32_t *row)
{
    return row[2] * INT64_C(4294967296) + (uint32_t)row[1];
}

int main(void)
{
    uint8_t file[GUARDDESK_FILE_LENGTH];
    uint32_t answer[GUARDDESK_ANSWER_LENGTH];
    const int64_t length = guarddesk_write(list, NUMBERS, file, sizeof file);
    if (length < 0)
        return 1;
    for (int64_t i = 0; i < length; i++)
        printf("%02x%c", (unsigned)file[i], i + 1 < length ? ' ' : '\n');
    if (guarddesk_decide(file, (size_t)length, 1000, rows, GUARDDESK_ROWS_LENGTH, places, GUARDDESK_PLACES_LENGTH,
                         answer, GUARDDESK_ANSWER_LENGTH) != GUARDDESK_ANSWERED || answer[0] != GUARDDESK_SAT)
        return 1;
    printf("SAT %u, term 1 is %" PRId64 "\n", (unsigned)answer[1], number(rows + 4 * places[1]));

    /* Without the last number, and into too short a buffer. */
    printf("refused: question %d\n", (int)-guarddesk_write(list, NUMBERS - 1, file, sizeof file));
    printf("refused: question %d\n", (int)-guarddesk_write(list, NUMBERS, file, (size_t)length - 1));
    return 0;
}
