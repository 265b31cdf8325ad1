//! The library's second call and its checker of records, as this crate compares them: with the number that is returned.

use guarddesk::raw;
pub use guarddesk::raw::check;

/// What the second call returns where the answer buffer is too short; nothing was written.
pub const ANSWER_TOO_SHORT: usize = usize::MAX;

/// As `decide_into`, and after UNSAT the record of the search in `record`, with zeros behind it. Returns its number of
/// bytes.
pub fn explain_into(
    file: &[u8],
    budget: u32,
    rows: &mut [i32],
    places: &mut [i32],
    record: &mut [u8],
    answer: &mut [u32],
) -> usize {
    raw::explain_into(file, budget, rows, places, record, answer).unwrap_or(ANSWER_TOO_SHORT)
}
