//! Two guards that have to hold at once, as one guard file.

use crate::questions::{file_of, why};
use crate::raw;
use std::fmt;

/// The first question about two guard files to be merged that got a no.
#[derive(Clone, Copy, Debug, PartialEq, Eq)]
pub struct MergeRefusal(pub u32);

impl fmt::Display for MergeRefusal {
    fn fmt(&self, f: &mut fmt::Formatter<'_>) -> fmt::Result {
        let why = match self.0 {
            2 => "a file ends within a number",
            3 => "a number is not in its one form",
            4 => "a count is outside its limits, in a file or in both together",
            10 => "bytes follow the last line",
            15 => "the two guards have different types",
            16 => "two variables taken as one differ in type",
            question => why(question),
        };
        write!(f, "question {}: {why}", self.0)
    }
}

impl std::error::Error for MergeRefusal {}

/// Merges two guard files with the same types: messages make the merged guard hold exactly if they make both hold; that is proved.
///
/// The second's variables are the first's, in order, as long as both have one. The first's rows keep their numbers; the second's
/// others follow. Questions 2 to 10 are asked of the first file, then of the second; [`decide`](crate::decide) tells which of them
/// is refused.
///
/// ```
/// use guarddesk::{decide, merge, Answer, MergeRefusal};
///
/// // Numbers. One guard says of a number that it is 3, the other that it is 4.
/// let three = [1, 0, 2, 0, 0, 1, 0, 6, 1, 0, 0, 1];
/// let four = [1, 0, 2, 0, 0, 1, 0, 8, 1, 0, 0, 1];
/// let both = merge(&three, &four)?;
/// assert_eq!(both, [1, 0, 3, 0, 0, 1, 0, 6, 1, 0, 8, 2, 0, 0, 1, 0, 0, 2]);
/// assert!(matches!(decide(&both, 1), Answer::Unsat { nodes: 1, .. }));
/// // No types at all are other types.
/// assert_eq!(merge(&three, &[0, 0, 0]), Err(MergeRefusal(15)));
/// # Ok::<(), MergeRefusal>(())
/// ```
pub fn merge(first: &[u8], second: &[u8]) -> Result<Vec<u8>, MergeRefusal> {
    file_of(|out| raw::merge_into(first, second, out)).map_err(MergeRefusal)
}

#[cfg(test)]
mod tests {
    use super::*;

    // Two number types and a variable of the first, or of the second.
    const FIRST: &[u8] = &[2, 0, 0, 1, 0, 0, 0];
    const SECOND: &[u8] = &[2, 0, 0, 1, 0, 1, 0];

    #[test]
    fn refusals_say_why() {
        let why = |first, second| merge(first, second).unwrap_err().to_string();
        let unlike = "question 16: two variables taken as one differ in type";
        assert_eq!(why(FIRST, SECOND), unlike);
        assert_eq!(why(&[1], SECOND), "question 2: a file ends within a number");
        let missing = "question 5: something named is not there";
        assert_eq!(why(FIRST, &[1, 0, 1, 0, 1]), missing);
    }

    #[test]
    fn a_variable_is_written_once() {
        assert_eq!(merge(FIRST, FIRST), Ok(FIRST.to_vec()));
    }
}
