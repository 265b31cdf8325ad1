/*
 * The guard desk: whether a guard over message fields can hold at all and, where it can, messages that make it hold; where it
 * cannot, a record of every branch that was tried, and a check of such records. And a writer of guard files, for programs that
 * make guards, a merge of two guards that have to hold at once, and a store of guard files by column. guarddesk_load is the desk's
 * call for less memory. And the branches of a procedure, which of them can run and which two together; and a guard's summary, which
 * variants each term can have.
 *
 * Eleven functions, in libdesklink.a (x86-64 Linux). What they give is proved for every file, budget, record, list and buffer length;
 * docs/EMBEDDING.md says what rests on what.
 *
 *   - They allocate nothing, keep nothing between calls and call nothing but memcpy and memset. Calls in several
 *     threads at once are fine, each with its own buffers.
 *   - They always end. The budget bounds the time of guarddesk_decide and guarddesk_load: no more nodes than that are searched. At the limits of a
 *     guard a node was measured at 1 to 1.8 microseconds (docs/BENCHMARKS.md). guarddesk_explain visits the nodes of a closed search
 *     once more, guarddesk_check at most those of the record. guarddesk_branches searches at most 36 guards, guarddesk_summarize and
 *     guarddesk_add_line one for each variant of each term's type (384 at the most), each within the budget. The others search nothing.
 *   - Each needs 820 KB of stack or less, guarddesk_load 260 KB, guarddesk_write, guarddesk_merge, guarddesk_store and guarddesk_restore 13 KB
 *     (docs/EMBEDDING.md counts the bytes).
 */
#ifndef GUARDDESK_H
#define GUARDDESK_H

#include <stddef.h>
#include <stdint.h>

#ifdef __cplusplus
extern "C" {
#endif

/* How many numbers each buffer has to hold. Longer ones are fine; a longer row or place buffer is cleared to its end. */
#define GUARDDESK_ROWS_LENGTH 16384
#define GUARDDESK_PLACES_LENGTH 24
#define GUARDDESK_ANSWER_LENGTH 5

/* The same for guarddesk_load. */
#define GUARDDESK_LOADER_ROWS_LENGTH 4096
#define GUARDDESK_LOADER_PLACES_LENGTH 8

/* What guarddesk_decide and guarddesk_load return. */
#define GUARDDESK_ANSWERED 0
#define GUARDDESK_ANSWER_TOO_SHORT 1

/* The verdict, answer[0]. */
#define GUARDDESK_REFUSED 0 /* the file is no guard file, or a buffer is too short; answer[1] is the question that got a no */
#define GUARDDESK_SAT 1     /* the guard can hold; answer[1] is the node count, answer[2] the number of rows */
#define GUARDDESK_UNSAT 2   /* it cannot; answer[1] is the node count */
#define GUARDDESK_SPENT 3   /* the search takes more nodes than the budget; answer[1] is the budget */

/*
 * What the nodes went on: the splits at the nodes that were visited, after SPENT those within the budget, the last of them
 * included even if neither of its branches was. 0 after REFUSED; after UNSAT answer[1] is 2 * (answer[3] + answer[4]) + 1.
 *   answer[3]  splits of the first kind: whether a term is the variant that a field is read of
 *   answer[4]  splits of the second kind: whether a term with only variants without fields left is the lowest of them
 */

/* What guarddesk_explain returns if the answer buffer is too short. */
#define GUARDDESK_EXPLAIN_TOO_SHORT SIZE_MAX

/* How many bytes of a record suffice for each node of the node count. */
#define GUARDDESK_RECORD_BYTES_PER_NODE 3

/* How many bytes of output always suffice for the calls that write a file or store one: no guard file is longer. */
#define GUARDDESK_FILE_LENGTH 585

/* How many bytes guarddesk_branches has to be lent: 8 branches and 28 pairs. Longer buffers are fine; they are cleared to their end. */
#define GUARDDESK_BRANCHES_LENGTH 36

/* How many numbers a summary has: two for each of 24 terms. Longer buffers are fine; numbers behind the summary stay as they were. */
#define GUARDDESK_SUMMARY_LENGTH 48

/* The nodes of a record, by their first number. */
#define GUARDDESK_EMPTY_LABEL 0      /* a term: no variant is left for it */
#define GUARDDESK_BROKEN_LINE 1      /* a line "unequal": its two terms are equal */
#define GUARDDESK_UNLIKE_CONSTANTS 2 /* a term: it is equal to two different numbers */
#define GUARDDESK_INSIDE_ITSELF 3    /* a term: it would be a part of itself */
#define GUARDDESK_SPLIT 4            /* a term and a variant: first the branch where it is that variant, then the other */

/* What guarddesk_check returns for a record that shows that the guard cannot hold. */
#define GUARDDESK_ACCEPTED 0

/*
 * Decides the guard file of file_length bytes within a budget of nodes.
 *
 * If it returns GUARDDESK_ANSWER_TOO_SHORT, answer_length is below 5 and nothing was written. Otherwise it returns
 * GUARDDESK_ANSWERED, and answer[0] to answer[4] are the verdict, its number, the number of rows (0 but after SAT), and the splits
 * of the first and of the second kind. Numbers of answer past the fifth stay as they were. Verdict, node count and splits are the
 * same for every budget that suffices.
 *
 * answer[1] after REFUSED:
 *    1  the row buffer has fewer than 16,384 numbers, or the place buffer fewer than 24
 *    2  the file ends within a number          6  a kind is none of those listed
 *    3  a number is not in its one form        7  a type does not fit
 *    4  a count is outside its limits          8  a type has no default
 *    5  something named is not there           9  a variant with fields has none of infinite type
 *   10  bytes follow the last line
 *
 * After SAT, row i is rows[4 * i] to rows[4 * i + 3]:
 *   a number of type t:      -1 - t, its low 32 bits as a signed number, the number divided by 4294967296 rounded down, 0;
 *                            so it is rows[4 * i + 2] * INT64_C(4294967296) + (uint32_t)rows[4 * i + 1]
 *   variant v of type t:     16 * t + v, then the rows of its parts, one for each field, all lower than i; 0 where unused
 * and places[j] is the row of term j of the file. No two rows are alike, so terms show the same message exactly if they
 * have the same place. Rows and places behind the last one are 0. After every other verdict both buffers are all 0.
 *
 * The caller sees to it that each pointer is aligned, not null, and points to as many numbers as the length after it
 * says, that no two of the four overlap, and that nothing else writes them, or reads the three that are written, during
 * the call.
 */
uint32_t guarddesk_decide(const uint8_t *file, size_t file_length, uint32_t budget,
                          int32_t *rows, size_t rows_length,
                          int32_t *places, size_t places_length,
                          uint32_t *answer, size_t answer_length);

/*
 * Decides as guarddesk_decide, for a caller with less memory: a file of at most 3 types, 8 terms and 8 lines, with a row buffer of
 * 4,096 numbers and a place buffer of 8. What it returns and writes is as described there, but for two questions:
 *    1  the row buffer has fewer than 4,096 numbers, or the place buffer fewer than 8
 *    4  a count is outside its limits, 3 types, 8 terms and 8 lines among them
 * A file within these limits gets the same verdict, node count and splits, or the same refusal, from both calls, with the same budget and
 * buffers long enough for each. Which messages are shown is left open by both.
 */
uint32_t guarddesk_load(const uint8_t *file, size_t file_length, uint32_t budget,
                        int32_t *rows, size_t rows_length,
                        int32_t *places, size_t places_length,
                        uint32_t *answer, size_t answer_length);

/*
 * Decides as guarddesk_decide, and after UNSAT writes the record of the search, which shows why: all its branches, each
 * closed for a reason.
 *
 * If it returns GUARDDESK_EXPLAIN_TOO_SHORT, answer_length is below 5 and nothing was written. Otherwise it returns the number
 * of bytes of the record, 0 but after UNSAT; answer, rows and places are as after guarddesk_decide, but for one refusal more:
 *   11  the guard cannot hold, and its record has more than record_length bytes
 * 3 bytes for each node suffice: answer[1] of guarddesk_decide after UNSAT, times GUARDDESK_RECORD_BYTES_PER_NODE.
 *
 * The record has the nodes in the order of the search, each as two or three numbers, from its root on. A number is written as in a
 * guard file, seven bits to a byte; terms and lines are below 128, so each number of these records is one byte:
 *   0 term            no variant is left for the term
 *   1 line            the two terms of this unequal line are equal
 *   2 term            the term is equal to two different numbers
 *   3 term            the term would be a part of itself
 *   4 term variant    the branch where the term is of this variant, from its first node to its last, then that where it is not
 * Lines are counted from 0. Terms 0 to 23 are those of the file; 24 + 2 * r and 25 + 2 * r are the other fields of the variant
 * that term r reads a field of, in order of position; 72 + t is the default of type t.
 * Bytes behind the record are 0, and all of the buffer is after every other answer.
 *
 * The caller owes what guarddesk_decide asks, for five areas.
 */
size_t guarddesk_explain(const uint8_t *file, size_t file_length, uint32_t budget,
                         int32_t *rows, size_t rows_length,
                         int32_t *places, size_t places_length,
                         uint8_t *record, size_t record_length,
                         uint32_t *answer, size_t answer_length);

/*
 * Checks a record, from wherever it comes, against a guard file. After GUARDDESK_ACCEPTED the file is a guard file and no messages
 * make its guard hold. Every record that guarddesk_explain writes is accepted, and so are those of searches that split otherwise.
 * Otherwise it returns the first question that got a no:
 *    2 to 10  of the file, as for guarddesk_decide
 *   12        a node is cut short, is none of those listed, or claims what does not hold
 *   13        the record ends before its last branch is closed, or goes on after it
 *
 * record_length is the record's own length, not that of a buffer with zeros behind it. Both areas are only read: each pointer is
 * not null and points to as many bytes as its length says, and nothing writes them during the call.
 */
uint32_t guarddesk_check(const uint8_t *file, size_t file_length, const uint8_t *record, size_t record_length);

/*
 * Writes the guard file of a list of its numbers: counts, kinds and names as they are, in file order, and the constants as their
 * values, whatever these are. The other calls take what it writes, and read these numbers from it; the numbers of a file that
 * they take are written as that file, byte for byte, if at most one of its types is a number type.
 *
 * It returns how many bytes the file has. They stand in front of out, and bytes behind them are 0. GUARDDESK_FILE_LENGTH bytes
 * always suffice. Otherwise it returns a number below 0, minus the first question that got a no, and all of out is 0:
 *    -2  the list ends before the guard does     -7  a type does not fit
 *    -4  a count is outside its limits           -8  a type has no default
 *    -5  something named is not there            -9  a variant with fields has none of infinite type
 *    -6  a kind is none of those listed         -10  numbers follow the last line
 *   -14  the file has more than out_length bytes; this is asked last
 *   -18  more than one number type; this is asked after -9
 * A negative number where a count, a name or a kind stands gets -4, -5 or -6, as one that is too large does.
 *
 * The caller owes what guarddesk_decide asks, for these two areas.
 */
int64_t guarddesk_write(const int64_t *list, size_t list_length, uint8_t *out, size_t out_length);

/*
 * Merges two guard files with the same types into one, for a procedure inside another: messages make the merged guard hold exactly
 * if they make both hold. The other calls take what it writes.
 *
 * The variables of the second are those of the first, in order: its variable k, counted from 0 among its variables alone, is the
 * first's variable k, as long as both have one. The merged file has the first's rows as they are, then the second's but for these
 * variables, with the terms that they name renumbered, then the first's lines, then the second's, renumbered too. So term j of the
 * first is term j of the merged guard, and the second's variables that the first has no partner for become variables of it.
 *
 * It returns how many bytes the merged file has. They stand in front of out, and bytes behind them are 0. GUARDDESK_FILE_LENGTH
 * bytes always suffice. Otherwise it returns a number below 0, minus the first question that got a no, and all of out is 0:
 *    -2 to -10  of the first file, then of the second, as for guarddesk_decide
 *   -15  the types differ: the bytes before the number of terms are not the same in both
 *   -16  two variables taken as one differ in type
 *    -4  the merged guard has more than 24 terms or 32 lines
 *   -14  the merged file has more than out_length bytes; this is asked last
 *
 * The caller owes what guarddesk_decide asks, for these three areas; the two files may overlap each other.
 */
int64_t guarddesk_merge(const uint8_t *first, size_t first_length, const uint8_t *second, size_t second_length,
                        uint8_t *out, size_t out_length);

/*
 * Stores a guard file with its term rows by column, for slow memory: behind the number of terms all kinds in row order, then all second
 * numbers, then third to sixth, missing ones left out; all other numbers keep their order. guarddesk_restore gives the file back.
 *
 * It returns how many bytes are stored, as many as the file has. They stand in front of out, and bytes behind them are 0.
 * GUARDDESK_FILE_LENGTH bytes always suffice. Otherwise it returns a number below 0, minus the first question that got a no, and all of out
 * is 0: -2 to -10 as for guarddesk_decide, then -14 if the stored bytes are more than out_length.
 *
 * The caller owes what guarddesk_decide asks, for these two areas.
 */
int64_t guarddesk_store(const uint8_t *file, size_t file_length, uint8_t *out, size_t out_length);

/*
 * The way back: the file that these bytes are stored of, in front of out, with the same result as guarddesk_store's. Bytes that are
 * stored of no file get -2 to -10: up to the number of terms as a file does; in the columns each number is asked 2 and 3, each kind 6, and a
 * built term's type and variant 5 and 7; then the restored file is asked whole; -14 last.
 */
int64_t guarddesk_restore(const uint8_t *stored, size_t stored_length, uint8_t *out, size_t out_length);

/*
 * Decides the branches of a procedure, and each pair of them, within a budget of nodes for each. The file of a procedure has types and
 * terms as a guard file, then the number of branches, 1 to 8, and for each branch the number of its lines and these lines.
 *
 * It returns the number of branches, b. out[0] to out[b - 1] are then the verdicts on the branches, as GUARDDESK_SAT, GUARDDESK_UNSAT
 * and GUARDDESK_SPENT: a branch that is UNSAT can never run. Behind them is one byte for each pair, by lower branch and then higher (0 1,
 * 0 2, .., 1 2, ..): a pair is decided with the lines of both, those of the lower branch first, and two that are SAT can run together.
 * Bytes behind the last pair are 0. Otherwise it returns a number below 0, minus the first question that got a no, and all of out is 0:
 *    -1  out has fewer than 36 bytes
 *    -2 to -10  of the file, as for guarddesk_decide; each branch has at most 32 lines, and 10 is asked after the last branch
 *   -19  the number of branches is 0 or above 8; this is asked after 2 and 3 of that number
 *
 * The caller owes what guarddesk_decide asks, for these two areas.
 */
int64_t guarddesk_branches(const uint8_t *procedure, size_t procedure_length, uint32_t budget,
                           uint8_t *out, size_t out_length);

/*
 * Makes the summary of a guard: which variants its terms can have. summary[2 * i] are the variants of term i that are settled, bit v for
 * variant v, and summary[2 * i + 1] those of them that can occur: with the line "term i is variant v" the guard can hold. A variant is
 * unsettled exactly if the search with that line takes more nodes than the budget. Both are 0 for a term of number type, and for one that
 * the file doesn't have.
 *
 * It returns 0, or the first question that got a no; then summary is as it was:
 *    1  summary has fewer than 48 numbers
 *    2 to 10  of the file, as for guarddesk_decide
 *
 * The caller owes what guarddesk_decide asks, for these two areas.
 */
uint32_t guarddesk_summarize(const uint8_t *file, size_t file_length, uint32_t budget,
                             uint16_t *summary, size_t summary_length);

/*
 * Brings the summary of a guard up to date with a line that is added to it; line has the bytes of that line as they would stand in the
 * file. Variants that the lent summary has as settled and not as possible are kept so without a search, and every other one is searched
 * for anew, in the guard with the line. If the lent summary is true of the guard in the file, the new one is true of the guard with
 * the line.
 *
 * It returns 0, or the first question that got a no; then summary is as it was:
 *    1  summary has fewer than 48 numbers
 *    2 to 10  of the file, as for guarddesk_decide
 *    4  the file has 32 lines
 *    2, 3, 5, 6, 7 and 10  of the line's bytes, as for a line of the file
 *
 * The caller owes what guarddesk_decide asks, for these three areas; file and line may overlap each other.
 */
uint32_t guarddesk_add_line(const uint8_t *file, size_t file_length, const uint8_t *line, size_t line_length,
                            uint32_t budget, uint16_t *summary, size_t summary_length);

#ifdef __cplusplus
}
#endif

#endif
