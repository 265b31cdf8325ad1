/*
 * stack HEX BUDGET: how much stack each call takes on a guard file, given in hexadecimal; the writer's is the same for every list
 * that it takes, the merge's for every two files, and so those of the store and of the way back. Each runs in a thread of its own on a painted stack, and the thread's own share is in the numbers. Link with -pthread -Wl,-z,now, so that no call looks for memcpy.
 */
#include "guarddesk.h"
#include <pthread.h>
#include <stdio.h>
#include <stdlib.h>
#include <string.h>

enum { STACK = 1 << 21, PAINT = 0xa5, LEVELS = 2048 };

static uint8_t file[1024], *record;
static size_t file_length, record_room, record_length;
static uint32_t budget, answer[GUARDDESK_ANSWER_LENGTH], question;
static int32_t rows[GUARDDESK_ROWS_LENGTH], places[GUARDDESK_PLACES_LENGTH];
static uint8_t written[GUARDDESK_FILE_LENGTH], merged[GUARDDESK_FILE_LENGTH];
static uint8_t stored[GUARDDESK_FILE_LENGTH], restored[GUARDDESK_FILE_LENGTH];
static int64_t written_length, merged_length, stored_length, restored_length;

static void *decide(void *nothing)
{
    guarddesk_decide(file, file_length, budget, rows, GUARDDESK_ROWS_LENGTH, places, GUARDDESK_PLACES_LENGTH,
                     answer, GUARDDESK_ANSWER_LENGTH);
    return nothing;
}

static void *explain(void *nothing)
{
    record_length = guarddesk_explain(file, file_length, budget, rows, GUARDDESK_ROWS_LENGTH, places, GUARDDESK_PLACES_LENGTH,
                                      record, record_room, answer, GUARDDESK_ANSWER_LENGTH);
    return nothing;
}

static void *check(void *nothing)
{
    question = guarddesk_check(file, file_length, record, record_length);
    return nothing;
}

/* Writes a guard with a row and a line of each kind. */
static void *write_file(void *nothing)
{
    static const int64_t list[] = {2, 0, 2, 0, 2, 0, 1, 4, 0, 1, 1, 0, -300, 2, 1, 1, 1, 0, 3, 0, 1, 1,
                                   4, 0, 0, 2, 1, 0, 3, 2, 0, 1, 3, 3, 0};
    written_length = guarddesk_write(list, sizeof list / sizeof *list, written, sizeof written);
    return nothing;
}

/* Merges the written file with itself. */
static void *merge(void *nothing)
{
    merged_length = guarddesk_merge(written, (size_t)written_length, written, (size_t)written_length, merged, sizeof merged);
    return nothing;
}

/* Stores the written file by column. */
static void *store(void *nothing)
{
    stored_length = guarddesk_store(written, (size_t)written_length, stored, sizeof stored);
    return nothing;
}

/* Gives it back. */
static void *restore(void *nothing)
{
    restored_length = guarddesk_restore(stored, (size_t)stored_length, restored, sizeof restored);
    return nothing;
}

static uint8_t procedure[sizeof file + 2], codes[GUARDDESK_BRANCHES_LENGTH];
static uint16_t summary[GUARDDESK_SUMMARY_LENGTH];
static int64_t branches_told;
static uint32_t summary_question;
static size_t line_count_at;

/* Makes a procedure of the file, with its lines as one branch and none in another, so that the pair has these lines too. Lines are three
 * bytes each. */
static int make_procedure(void)
{
    for (size_t lines = 0; lines <= 32 && 3 * lines < file_length; lines++) {
        line_count_at = file_length - 3 * lines - 1;
        memcpy(procedure, file, line_count_at);
        procedure[line_count_at] = 2;
        memcpy(procedure + line_count_at + 1, file + line_count_at, file_length - line_count_at);
        procedure[file_length + 1] = 0;
        if (file[line_count_at] == lines && guarddesk_branches(procedure, file_length + 2, 1, codes, sizeof codes) == 2)
            return 1;
    }
    return 0;
}

static void *branches(void *nothing)
{
    branches_told = guarddesk_branches(procedure, file_length + 2, budget, codes, sizeof codes);
    return nothing;
}

static void *summarize(void *nothing)
{
    summary_question = guarddesk_summarize(file, file_length, budget, summary, GUARDDESK_SUMMARY_LENGTH);
    return nothing;
}

/* Adds the last line of the file, which has one, to the others. */
static void *add_line(void *nothing)
{
    static uint8_t front[sizeof file];
    memcpy(front, file, file_length);
    front[line_count_at]--;
    memset(summary, 0, sizeof summary);
    summary_question = guarddesk_add_line(front, file_length - 3, file + file_length - 3, 3, budget,
                                          summary, GUARDDESK_SUMMARY_LENGTH);
    return nothing;
}

/* Runs a call and returns the bytes of its stack that were written. */
static size_t used(void *(*call)(void *))
{
    pthread_attr_t attributes;
    pthread_t thread;
    unsigned char *stack;
    size_t clean = 0;
    if (posix_memalign((void **)&stack, 4096, STACK) != 0)
        exit(2);
    memset(stack, PAINT, STACK);
    if (pthread_attr_init(&attributes) != 0 || pthread_attr_setstack(&attributes, stack, STACK) != 0 ||
        pthread_create(&thread, &attributes, call, NULL) != 0 || pthread_join(thread, NULL) != 0)
        exit(2);
    while (clean < STACK && stack[clean] == PAINT)
        clean++;
    free(stack);
    return STACK - clean;
}

/* How many nodes lie on the longest path of the record. */
static size_t levels(void)
{
    static size_t pending[LEVELS];
    size_t many = 1, most = 0;
    pending[0] = 1;
    for (size_t at = 0; at < record_length;) {
        const size_t level = pending[--many];
        most = level > most ? level : most;
        if (record[at] == GUARDDESK_SPLIT) {
            pending[many++] = level + 1;
            pending[many++] = level + 1;
        }
        at += record[at] == GUARDDESK_SPLIT ? 3 : 2;
    }
    return most;
}

int main(int many, char **words)
{
    unsigned byte;
    if (many != 3)
        return 2;
    for (const char *hex = words[1]; file_length < sizeof file && sscanf(hex, "%2x", &byte) == 1; hex += 2)
        file[file_length++] = (uint8_t)byte;
    budget = (uint32_t)strtoul(words[2], NULL, 10);

    const size_t write_used = used(write_file);
    printf("write %zu bytes: a file of %d bytes\n", write_used, (int)written_length);
    if (written_length < 0)
        return 1;
    const size_t merge_used = used(merge);
    printf("merge %zu bytes: a file of %d bytes\n", merge_used, (int)merged_length);
    if (merged_length < 0)
        return 1;
    const size_t store_used = used(store);
    printf("store %zu bytes: %d bytes\n", store_used, (int)stored_length);
    if (stored_length < 0)
        return 1;
    const size_t restore_used = used(restore);
    printf("restore %zu bytes: a file of %d bytes\n", restore_used, (int)restored_length);
    if (restored_length != written_length || memcmp(restored, written, (size_t)written_length) != 0)
        return 1;
    if (make_procedure() && file[line_count_at] > 0) {
        const size_t branches_used = used(branches);
        printf("branches %zu bytes: %d of them, verdict %u\n", branches_used, (int)branches_told, (unsigned)codes[0]);
        const size_t summarize_used = used(summarize);
        printf("summarize %zu bytes: %u\n", summarize_used, (unsigned)summary_question);
        const size_t add_line_used = used(add_line);
        printf("add_line %zu bytes: %u\n", add_line_used, (unsigned)summary_question);
        if (branches_told != 2 || summary_question != 0)
            return 1;
    }
    const size_t decided = used(decide);
    printf("decide %zu bytes: verdict %u, %u\n", decided, (unsigned)answer[0], (unsigned)answer[1]);
    if (answer[0] != GUARDDESK_UNSAT)
        return 0;
    record_room = GUARDDESK_RECORD_BYTES_PER_NODE * (size_t)answer[1];
    record = malloc(record_room);
    if (record == NULL)
        return 2;
    const size_t explained = used(explain);
    printf("explain %zu bytes: %zu levels, a record of %zu bytes\n", explained, levels(), record_length);
    const size_t checked = used(check);
    printf("check %zu bytes: %u\n", checked, (unsigned)question);
    free(record);
    return (int)question;
}
