//! The library's functions over the caller's own buffers, for programs that keep buffers between calls or look at every
//! number of them. The only unsafe code of the crate. [`decide`](crate::decide), [`load`](crate::load), [`explain`](crate::explain),
//! [`check`](crate::check), [`write`](crate::write), [`merge`](crate::merge), [`store`](crate::store),
//! [`restore`](crate::restore), [`branches`](crate::branches), [`summarize`](crate::summarize) and
//! [`add_line`](crate::add_line) are easier to use.
//!
//! ```
//! use guarddesk::raw::{decide_into, ANSWERED, ANSWER_LENGTH, PLACES_LENGTH, ROWS_LENGTH, SAT};
//!
//! let mut rows = [0; ROWS_LENGTH];
//! let mut places = [0; PLACES_LENGTH];
//! let mut answer = [0; ANSWER_LENGTH];
//! // The guard without types, terms or lines: SAT, one node, no rows, no splits.
//! let code = decide_into(&[0, 0, 0], 1, &mut rows, &mut places, &mut answer);
//! assert_eq!((code, answer), (ANSWERED, [SAT, 1, 0, 0, 0]));
//! ```

/// How many numbers the row buffer has to hold.
pub const ROWS_LENGTH: usize = 16384;
/// How many numbers the place buffer has to hold.
pub const PLACES_LENGTH: usize = 24;
/// How many numbers the row buffer of [`load_into`] has to hold.
pub const LOADER_ROWS_LENGTH: usize = 4096;
/// How many numbers the place buffer of [`load_into`] has to hold.
pub const LOADER_PLACES_LENGTH: usize = 8;
/// How many numbers the answer has.
pub const ANSWER_LENGTH: usize = 5;
/// How many bytes of a record suffice for each node of the node count.
pub const RECORD_BYTES_PER_NODE: usize = 3;

/// How many bytes suffice for every guard file.
pub const FILE_LENGTH: usize = 585;

/// How many bytes [`branches_into`] has to be lent: 8 branches and 28 pairs.
pub const BRANCHES_LENGTH: usize = 36;
/// How many numbers a summary has: two for each of 24 terms.
pub const SUMMARY_LENGTH: usize = 48;

/// The call was answered.
pub const ANSWERED: u32 = 0;
/// The answer buffer is too short; nothing was written.
pub const ANSWER_TOO_SHORT: u32 = 1;
/// The record shows that the guard cannot hold.
pub const ACCEPTED: u32 = 0;

/// The verdict on what is no guard file, or on short buffers; the answer's second number is the question that got a no.
pub const REFUSED: u32 = 0;
/// The verdict on a guard that can hold; node count, number of rows and splits follow.
pub const SAT: u32 = 1;
/// The verdict on a guard that cannot hold; the node count, 0 and splits follow.
pub const UNSAT: u32 = 2;
/// The verdict on a search of more nodes than the budget; the budget, 0 and splits follow.
pub const SPENT: u32 = 3;

// As link/guarddesk.h has it.
extern "C" {
    fn guarddesk_decide(
        file: *const u8,
        file_length: usize,
        budget: u32,
        rows: *mut i32,
        rows_length: usize,
        places: *mut i32,
        places_length: usize,
        answer: *mut u32,
        answer_length: usize,
    ) -> u32;

    fn guarddesk_load(
        file: *const u8,
        file_length: usize,
        budget: u32,
        rows: *mut i32,
        rows_length: usize,
        places: *mut i32,
        places_length: usize,
        answer: *mut u32,
        answer_length: usize,
    ) -> u32;

    fn guarddesk_explain(
        file: *const u8,
        file_length: usize,
        budget: u32,
        rows: *mut i32,
        rows_length: usize,
        places: *mut i32,
        places_length: usize,
        record: *mut u8,
        record_length: usize,
        answer: *mut u32,
        answer_length: usize,
    ) -> usize;

    fn guarddesk_check(
        file: *const u8,
        file_length: usize,
        record: *const u8,
        record_length: usize,
    ) -> u32;

    fn guarddesk_write(
        list: *const i64,
        list_length: usize,
        out: *mut u8,
        out_length: usize,
    ) -> i64;

    fn guarddesk_merge(
        first: *const u8,
        first_length: usize,
        second: *const u8,
        second_length: usize,
        out: *mut u8,
        out_length: usize,
    ) -> i64;

    fn guarddesk_store(file: *const u8, file_length: usize, out: *mut u8, out_length: usize)
        -> i64;

    fn guarddesk_restore(
        stored: *const u8,
        stored_length: usize,
        out: *mut u8,
        out_length: usize,
    ) -> i64;

    fn guarddesk_branches(
        procedure: *const u8,
        procedure_length: usize,
        budget: u32,
        out: *mut u8,
        out_length: usize,
    ) -> i64;

    fn guarddesk_summarize(
        file: *const u8,
        file_length: usize,
        budget: u32,
        summary: *mut u16,
        summary_length: usize,
    ) -> u32;

    fn guarddesk_add_line(
        file: *const u8,
        file_length: usize,
        line: *const u8,
        line_length: usize,
        budget: u32,
        summary: *mut u16,
        summary_length: usize,
    ) -> u32;
}

/// Decides a guard file within a budget of nodes. Buffers of any length are safe.
///
/// [`ANSWER_TOO_SHORT`] says that `answer` has fewer than five numbers; then nothing is written. Otherwise the code is
/// [`ANSWERED`], and the first five numbers of `answer` are the verdict, its number, the number of rows (0 but after [`SAT`]),
/// and the splits of the first and of the second kind (0 after [`REFUSED`]); the others stay as they were. After [`SAT`] the
/// rows and places are laid out as `link/guarddesk.h` says, with zeros to the end of both buffers; after every other verdict
/// both are all zero.
#[allow(unsafe_code)]
pub fn decide_into(
    file: &[u8],
    budget: u32,
    rows: &mut [i32],
    places: &mut [i32],
    answer: &mut [u32],
) -> u32 {
    // SAFETY: each pointer and length is that of a slice, so it is aligned, not null and points to so many numbers; the
    // three that are written are borrowed mutably, so they overlap nothing and nobody else looks at them. The function has
    // no other condition, keeps no pointer and does not unwind.
    unsafe {
        guarddesk_decide(
            file.as_ptr(),
            file.len(),
            budget,
            rows.as_mut_ptr(),
            rows.len(),
            places.as_mut_ptr(),
            places.len(),
            answer.as_mut_ptr(),
            answer.len(),
        )
    }
}

/// Decides as [`decide_into`], for a caller with less memory: [`LOADER_ROWS_LENGTH`] and [`LOADER_PLACES_LENGTH`] numbers are long
/// enough, and a file of more than 3 types, 8 terms or 8 lines is [`REFUSED`], question 4.
#[allow(unsafe_code)]
pub fn load_into(
    file: &[u8],
    budget: u32,
    rows: &mut [i32],
    places: &mut [i32],
    answer: &mut [u32],
) -> u32 {
    // SAFETY: as in `decide_into`.
    unsafe {
        guarddesk_load(
            file.as_ptr(),
            file.len(),
            budget,
            rows.as_mut_ptr(),
            rows.len(),
            places.as_mut_ptr(),
            places.len(),
            answer.as_mut_ptr(),
            answer.len(),
        )
    }
}

/// Decides as [`decide_into`], and after [`UNSAT`] writes the record of the search in front of `record`. Buffers of any length
/// are safe.
///
/// Nothing says that `answer` has fewer than five numbers; then nothing is written. Otherwise it is the number of bytes of the
/// record, 0 but after [`UNSAT`], and bytes behind the record are zero. [`RECORD_BYTES_PER_NODE`] times the node count suffice; a
/// record that doesn't fit is [`REFUSED`], question 11, with all three buffers zero. `link/guarddesk.h` has a record's numbers.
#[allow(unsafe_code)]
pub fn explain_into(
    file: &[u8],
    budget: u32,
    rows: &mut [i32],
    places: &mut [i32],
    record: &mut [u8],
    answer: &mut [u32],
) -> Option<usize> {
    // SAFETY: as in `decide_into`; four are written, all borrowed mutably.
    let many = unsafe {
        guarddesk_explain(
            file.as_ptr(),
            file.len(),
            budget,
            rows.as_mut_ptr(),
            rows.len(),
            places.as_mut_ptr(),
            places.len(),
            record.as_mut_ptr(),
            record.len(),
            answer.as_mut_ptr(),
            answer.len(),
        )
    };
    (many != usize::MAX).then_some(many)
}

/// Checks a record against a guard file: [`ACCEPTED`], or the first question that got a no, 2 to 10 of the file, 12 or 13 of the
/// record.
#[allow(unsafe_code)]
pub fn check(file: &[u8], record: &[u8]) -> u32 {
    // SAFETY: each pointer and length is that of a slice that nobody writes meanwhile. The function has no other condition, keeps
    // no pointer and does not unwind.
    unsafe { guarddesk_check(file.as_ptr(), file.len(), record.as_ptr(), record.len()) }
}

/// Writes the guard file of a list of its numbers in front of `out`, constants as their values. A list and a buffer of any length
/// are safe.
///
/// It returns the number of bytes of the file; those behind them are zero. [`FILE_LENGTH`] bytes always suffice. A number below 0 is
/// minus the first question that got a no, 2 to 10 of the list, 18 after 9 if more than one type is a number type, or 14 if the file
/// outgrows `out`; then all of `out` is zero.
#[allow(unsafe_code)]
pub fn write_into(list: &[i64], out: &mut [u8]) -> i64 {
    // SAFETY: as in `decide_into`; `out` is written and borrowed mutably.
    unsafe { guarddesk_write(list.as_ptr(), list.len(), out.as_mut_ptr(), out.len()) }
}

/// Merges two guard files in front of `out`: the first's rows, then the second's but for the variables that both have, then the
/// lines of both. Files and a buffer of any length are safe.
///
/// It returns the number of bytes of the merged file; those behind them are zero. [`FILE_LENGTH`] bytes always suffice. A number
/// below 0 is minus the first question that got a no, 2 to 10 of the first file and then of the second, 15 if the types differ, 16
/// if two variables taken as one differ in type, 4 if there are too many rows or lines, or 14 if the merged file outgrows `out`;
/// then all of `out` is zero. `link/guarddesk.h` has the details.
#[allow(unsafe_code)]
pub fn merge_into(first: &[u8], second: &[u8], out: &mut [u8]) -> i64 {
    // SAFETY: as in `decide_into`; `out` is written and borrowed mutably, the files may overlap since they are only read.
    unsafe {
        guarddesk_merge(
            first.as_ptr(),
            first.len(),
            second.as_ptr(),
            second.len(),
            out.as_mut_ptr(),
            out.len(),
        )
    }
}

/// Stores a guard file with its term rows by column in front of `out`. A file and a buffer of any length are safe.
///
/// It returns the number of stored bytes, which is that of the file; those behind them are zero. [`FILE_LENGTH`] bytes always
/// suffice. A number below 0 is minus the first question that got a no, 2 to 10 of the file, or 14 if `out` is shorter than the
/// stored bytes; then all of `out` is zero.
#[allow(unsafe_code)]
pub fn store_into(file: &[u8], out: &mut [u8]) -> i64 {
    // SAFETY: as in `decide_into`; `out` is written and borrowed mutably.
    unsafe { guarddesk_store(file.as_ptr(), file.len(), out.as_mut_ptr(), out.len()) }
}

/// Gives back the guard file that these bytes are stored of, in front of `out`. Stored bytes and a buffer of any length are safe.
///
/// It returns what [`store_into`] does, of the file. The questions 2 to 10 are asked up to the number of terms as of a file, then
/// in the columns, then of the restored file; `link/guarddesk.h` has the details.
#[allow(unsafe_code)]
pub fn restore_into(stored: &[u8], out: &mut [u8]) -> i64 {
    // SAFETY: as in `decide_into`; `out` is written and borrowed mutably.
    unsafe { guarddesk_restore(stored.as_ptr(), stored.len(), out.as_mut_ptr(), out.len()) }
}

/// Decides each branch of a procedure and each pair of them within a budget of nodes. A file and a buffer of any length are safe.
///
/// It returns the number of branches; in front of `out` are the verdicts on the branches, then those on the pairs, by lower branch and
/// then higher, as [`SAT`], [`UNSAT`] and [`SPENT`]; bytes behind them are zero. A number below 0 is minus the first question that got a
/// no, 1 if `out` has fewer than [`BRANCHES_LENGTH`] bytes, 2 to 10 of the file, or 19 after 3 if there is no branch or more than 8; then
/// all of `out` is zero.
#[allow(unsafe_code)]
pub fn branches_into(procedure: &[u8], budget: u32, out: &mut [u8]) -> i64 {
    // SAFETY: as in `decide_into`; `out` is written and borrowed mutably.
    unsafe {
        guarddesk_branches(
            procedure.as_ptr(),
            procedure.len(),
            budget,
            out.as_mut_ptr(),
            out.len(),
        )
    }
}

/// Makes the summary of a guard, its first [`SUMMARY_LENGTH`] numbers; those behind them stay as they were. A file and a buffer of any
/// length are safe.
///
/// It returns 0, or the first question that got a no, 1 if `summary` is too short or 2 to 10 of the file; then all of it is as it was.
/// Numbers 2 × i and 2 × i + 1 are the settled variants of term i, bit v for variant v, and those of them that can occur.
#[allow(unsafe_code)]
pub fn summarize_into(file: &[u8], budget: u32, summary: &mut [u16]) -> u32 {
    // SAFETY: as in `decide_into`; `summary` is written and borrowed mutably.
    unsafe {
        guarddesk_summarize(
            file.as_ptr(),
            file.len(),
            budget,
            summary.as_mut_ptr(),
            summary.len(),
        )
    }
}

/// Brings the summary of a guard up to date with a line that is added to it, given as its bytes. Files, lines and buffers of any length are
/// safe.
///
/// It returns 0, or the first question that got a no, those of [`summarize_into`], 4 if the file has 32 lines, then those of the line's
/// bytes, 10 included; then all of `summary` is as it was.
#[allow(unsafe_code)]
pub fn add_line_into(file: &[u8], line: &[u8], budget: u32, summary: &mut [u16]) -> u32 {
    // SAFETY: as in `decide_into`; `summary` is written and borrowed mutably, file and line may overlap since they are only read.
    unsafe {
        guarddesk_add_line(
            file.as_ptr(),
            file.len(),
            line.as_ptr(),
            line.len(),
            budget,
            summary.as_mut_ptr(),
            summary.len(),
        )
    }
}

#[cfg(test)]
mod tests {
    use super::*;

    const NO_GUARD: &[u8] = &[0, 0, 0];
    // A number -3 that equals 4: UNSAT, one node.
    const DEAD: &[u8] = &[1, 0, 2, 1, 0, 5, 1, 0, 8, 1, 0, 0, 1];
    const DEAD_RECORD: [u8; 2] = [2, 0];

    #[test]
    fn short_buffers_are_question_1_and_cleared() {
        for (rows, places) in [
            (ROWS_LENGTH - 1, PLACES_LENGTH),
            (ROWS_LENGTH, PLACES_LENGTH - 1),
            (0, 0),
        ] {
            let (mut rows, mut places, mut answer) =
                (vec![7; rows], vec![7; places], [7; ANSWER_LENGTH]);
            let code = decide_into(NO_GUARD, 1, &mut rows, &mut places, &mut answer);
            assert_eq!((code, answer), (ANSWERED, [REFUSED, 1, 0, 0, 0]));
            assert!(rows.iter().chain(&places).all(|&n| n == 0));
        }
    }

    #[test]
    fn longer_buffers_are_cleared_to_their_end() {
        let (mut rows, mut places, mut answer) = (
            [7; ROWS_LENGTH + 5],
            [7; PLACES_LENGTH + 5],
            [7; ANSWER_LENGTH],
        );
        let code = decide_into(NO_GUARD, 1, &mut rows, &mut places, &mut answer);
        assert_eq!((code, answer), (ANSWERED, [SAT, 1, 0, 0, 0]));
        assert!(rows.iter().chain(&places).all(|&n| n == 0));
    }

    #[test]
    fn too_short_an_answer_buffer_is_told_and_nothing_written() {
        for many in 0..ANSWER_LENGTH {
            let (mut rows, mut places, mut answer) =
                ([7; ROWS_LENGTH], [7; PLACES_LENGTH], vec![7; many]);
            let code = decide_into(NO_GUARD, 1, &mut rows, &mut places, &mut answer);
            assert_eq!(code, ANSWER_TOO_SHORT);
            assert!(rows.iter().chain(&places).all(|&n| n == 7) && answer.iter().all(|&n| n == 7));
        }
    }

    #[test]
    fn a_longer_answer_buffer_keeps_its_rest() {
        let (mut rows, mut places, mut answer) = ([7; ROWS_LENGTH], [7; PLACES_LENGTH], [7; 7]);
        let code = decide_into(NO_GUARD, 1, &mut rows, &mut places, &mut answer);
        assert_eq!((code, answer), (ANSWERED, [SAT, 1, 0, 0, 0, 7, 7]));
    }

    #[test]
    fn splits_are_the_fourth_and_fifth_number() {
        // A list that is its own tail, split on for its tail; and a flag that is neither of its two values.
        let list: &[u8] = &[2, 0, 2, 0, 2, 0, 1, 2, 0, 1, 3, 0, 1, 1, 1, 0, 0, 1];
        let flag: &[u8] = &[1, 2, 0, 0, 3, 0, 0, 2, 0, 0, 2, 0, 1, 2, 1, 0, 1, 1, 0, 2];
        let mut answer = [7; ANSWER_LENGTH];
        for (file, budget, expected) in [
            (list, 1, [SPENT, 1, 0, 1, 0]),
            (list, 2, [SPENT, 2, 0, 1, 0]),
            (list, 3, [SAT, 3, 1, 1, 0]),
            (flag, 0, [SPENT, 0, 0, 0, 0]),
            (flag, 1, [SPENT, 1, 0, 0, 1]),
            (flag, 3, [UNSAT, 3, 0, 0, 1]),
            (flag, 1000, [UNSAT, 3, 0, 0, 1]),
        ] {
            let (mut rows, mut places) = ([7; ROWS_LENGTH], [7; PLACES_LENGTH]);
            decide_into(file, budget, &mut rows, &mut places, &mut answer);
            assert_eq!(answer, expected, "{file:?} with {budget}");
            let room = &mut [7; 9];
            explain_into(file, budget, &mut rows, &mut places, room, &mut answer);
            assert_eq!(answer, expected, "{file:?} with {budget}");
        }
    }

    /// What `explain_into` returns for the dead guard, and the three buffers that it had been lent full of sevens.
    fn explained(record: usize, answer: usize) -> (Option<usize>, Vec<i32>, Vec<u8>, Vec<u32>) {
        let (mut rows, mut places) = (vec![7; ROWS_LENGTH], [7; PLACES_LENGTH]);
        let (mut record, mut answer) = (vec![7; record], vec![7; answer]);
        let many = explain_into(DEAD, 1, &mut rows, &mut places, &mut record, &mut answer);
        rows.extend(places);
        (many, rows, record, answer)
    }

    #[test]
    fn a_record_has_zeros_behind_it() {
        let (many, shown, record, answer) = explained(5, ANSWER_LENGTH + 1);
        let expected = &[UNSAT, 1, 0, 0, 0, 7][..];
        assert_eq!((many, &answer[..]), (Some(2), expected));
        assert_eq!(record, [2, 0, 0, 0, 0]);
        assert!(shown.iter().all(|&n| n == 0));
        assert_eq!(check(DEAD, &DEAD_RECORD), ACCEPTED);
        assert_eq!(check(DEAD, &record), 13);
    }

    #[test]
    fn a_record_that_does_not_fit_is_question_11() {
        for room in 0..DEAD_RECORD.len() {
            let (many, shown, record, answer) = explained(room, ANSWER_LENGTH);
            let expected = &[REFUSED, 11, 0, 0, 0][..];
            assert_eq!((many, &answer[..]), (Some(0), expected));
            assert!(shown.iter().all(|&n| n == 0) && record.iter().all(|&n| n == 0));
        }
    }

    #[test]
    fn no_record_in_too_short_an_answer_buffer() {
        for many in 0..ANSWER_LENGTH {
            let (many, shown, record, answer) = explained(5, many);
            assert_eq!(many, None);
            assert!(shown.iter().all(|&n| n == 7) && record.iter().all(|&n| n == 7));
            assert!(answer.iter().all(|&n| n == 7));
        }
    }

    // The dead guard as a list: -3 and 4 are themselves.
    const DEAD_LIST: &[i64] = &[1, 0, 2, 1, 0, -3, 1, 0, 4, 1, 0, 0, 1];

    #[test]
    fn a_file_has_zeros_behind_it() {
        for room in [DEAD.len(), DEAD.len() + 1, FILE_LENGTH, 1000] {
            let mut out = vec![7; room];
            assert_eq!(write_into(DEAD_LIST, &mut out), DEAD.len() as i64);
            assert_eq!(&out[..DEAD.len()], DEAD);
            assert!(out[DEAD.len()..].iter().all(|&n| n == 0));
        }
    }

    #[test]
    fn a_file_that_does_not_fit_is_question_14() {
        for room in 0..DEAD.len() {
            let mut out = vec![7; room];
            assert_eq!(write_into(DEAD_LIST, &mut out), -14);
            assert!(out.iter().all(|&n| n == 0));
        }
    }

    #[test]
    fn a_refused_list_leaves_zeros() {
        for room in [0, 1, FILE_LENGTH] {
            let mut out = vec![7; room];
            assert_eq!(write_into(&[], &mut out), -2);
            assert!(out.iter().all(|&n| n == 0));
            out.fill(7);
            assert_eq!(write_into(&[DEAD_LIST, &[0]].concat(), &mut out), -10);
            assert!(out.iter().all(|&n| n == 0));
        }
    }

    // The dead guard with itself: its two numbers and its line twice, the second time renumbered.
    const DEAD_TWICE: &[u8] = &[
        1, 0, 4, 1, 0, 5, 1, 0, 8, 1, 0, 5, 1, 0, 8, 2, 0, 0, 1, 0, 2, 3,
    ];

    #[test]
    fn a_merged_file_has_zeros_behind_it() {
        let length = DEAD_TWICE.len();
        for room in [length, length + 1, FILE_LENGTH, 1000] {
            let mut out = vec![7; room];
            assert_eq!(merge_into(DEAD, DEAD, &mut out), length as i64);
            assert_eq!(&out[..length], DEAD_TWICE);
            assert!(out[length..].iter().all(|&n| n == 0));
        }
    }

    #[test]
    fn refused_merges_leave_zeros() {
        // Too short an output; no file in either place; other types.
        let other: &[u8] = &[1, 1, 0, 0, 0];
        for (first, second, code) in [
            (DEAD, DEAD, -14),
            (&[][..], DEAD, -2),
            (DEAD, &[7][..], -4),
            (&[7], &[], -4),
            (DEAD, other, -15),
        ] {
            for room in [0, 1, DEAD_TWICE.len() - 1] {
                let mut out = vec![7; room];
                assert_eq!(merge_into(first, second, &mut out), code);
                assert!(out.iter().all(|&n| n == 0));
            }
        }
    }

    // The dead guard by column: both kinds, both types, both values.
    const DEAD_STORED: &[u8] = &[1, 0, 2, 1, 1, 0, 0, 5, 8, 1, 0, 0, 1];

    #[test]
    fn stored_and_restored_bytes_have_zeros_behind_them() {
        let length = DEAD.len();
        for room in [length, length + 1, FILE_LENGTH, 1000] {
            let mut out = vec![7; room];
            assert_eq!(store_into(DEAD, &mut out), length as i64);
            assert_eq!(&out[..length], DEAD_STORED);
            assert!(out[length..].iter().all(|&n| n == 0));
            out.fill(7);
            assert_eq!(restore_into(DEAD_STORED, &mut out), length as i64);
            assert_eq!(&out[..length], DEAD);
            assert!(out[length..].iter().all(|&n| n == 0));
        }
    }

    // Two numbers, which one branch has as equal and the other as unequal.
    const TWO_BRANCHES: &[u8] = &[1, 0, 2, 0, 0, 0, 0, 2, 1, 0, 0, 1, 1, 1, 0, 1];

    #[test]
    fn verdicts_have_zeros_behind_them() {
        for room in [BRANCHES_LENGTH, BRANCHES_LENGTH + 1, 1000] {
            let mut out = vec![7; room];
            assert_eq!(branches_into(TWO_BRANCHES, 9, &mut out), 2);
            assert_eq!(out[..3], [SAT as u8, SAT as u8, UNSAT as u8]);
            assert!(out[3..].iter().all(|&n| n == 0));
        }
    }

    #[test]
    fn refused_stores_leave_zeros() {
        // Too short an output; no file; a kind that isn't listed; more behind the last line.
        let longer = [DEAD, &[0]].concat();
        let longer_stored = [DEAD_STORED, &[0]].concat();
        for (file, stored, code) in [
            (DEAD, DEAD_STORED, -14),
            (&[], &[], -2),
            (&[1, 0, 1, 4], &[1, 0, 1, 4], -6),
            (&longer, &longer_stored, -10),
        ] {
            for room in [0, 1, DEAD.len() - 1] {
                let mut out = vec![7; room];
                assert_eq!(store_into(file, &mut out), code);
                assert!(out.iter().all(|&n| n == 0));
                out.fill(7);
                assert_eq!(restore_into(stored, &mut out), code);
                assert!(out.iter().all(|&n| n == 0));
            }
        }
    }

    #[test]
    fn refused_procedures_leave_zeros() {
        for (file, room, code) in [
            (TWO_BRANCHES, BRANCHES_LENGTH - 1, -1),
            (&[], 0, -1),
            (&[], BRANCHES_LENGTH, -2),
            (NO_GUARD, BRANCHES_LENGTH + 5, -19),
        ] {
            let mut out = vec![7; room];
            assert_eq!(branches_into(file, 9, &mut out), code);
            assert!(out.iter().all(|&n| n == 0));
        }
    }

    #[test]
    fn a_summary_leaves_what_is_behind_it() {
        let mut summary = [7; SUMMARY_LENGTH + 2];
        assert_eq!(summarize_into(DEAD, 9, &mut summary), 0);
        // No term is of variant type.
        assert!(summary[..SUMMARY_LENGTH].iter().all(|&n| n == 0));
        assert_eq!(summary[SUMMARY_LENGTH..], [7, 7]);
        summary.fill(7);
        assert_eq!(add_line_into(DEAD, &[1, 0, 1], 9, &mut summary), 0);
        assert!(summary[..SUMMARY_LENGTH].iter().all(|&n| n == 0));
        assert_eq!(summary[SUMMARY_LENGTH..], [7, 7]);
    }

    #[test]
    fn a_short_summary_is_question_1_and_stays() {
        for room in [0, 1, SUMMARY_LENGTH - 1] {
            let mut summary = vec![7; room];
            assert_eq!(summarize_into(DEAD, 9, &mut summary), 1);
            assert_eq!(summarize_into(&[], 9, &mut summary), 1);
            assert_eq!(add_line_into(DEAD, &[1, 0, 1], 9, &mut summary), 1);
            assert!(summary.iter().all(|&n| n == 7));
        }
    }
}
