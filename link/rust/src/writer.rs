//! Guard files from lists of their numbers.

use crate::questions::{file_of, why};
use crate::raw;
use std::fmt;

/// The first question about a list of numbers that got a no.
#[derive(Clone, Copy, Debug, PartialEq, Eq)]
pub struct Refusal(pub u32);

impl fmt::Display for Refusal {
    fn fmt(&self, f: &mut fmt::Formatter<'_>) -> fmt::Result {
        let why = match self.0 {
            2 => "the list ends before the guard does",
            10 => "numbers follow the last line",
            18 => "more than one number type",
            question => why(question),
        };
        write!(f, "question {}: {why}", self.0)
    }
}

impl std::error::Error for Refusal {}

/// Writes the guard file of a list of its numbers, in file order and constants as their values. The desk takes what is written, and
/// reads these numbers from it; that is proved, and that the numbers of a file that it takes are written as that file if at most one
/// of its types is a number type.
///
/// ```
/// use guarddesk::{decide, write, Answer, Refusal};
///
/// // A number type; the numbers -3 and 4; a line that says they are equal.
/// let file = write(&[1, 0, 2, 1, 0, -3, 1, 0, 4, 1, 0, 0, 1])?;
/// assert!(matches!(decide(&file, 1), Answer::Unsat { nodes: 1, .. }));
/// // There is one type, so none is numbered 1.
/// assert_eq!(write(&[1, 0, 1, 0, 1, 0]), Err(Refusal(5)));
/// # Ok::<(), Refusal>(())
/// ```
pub fn write(numbers: &[i64]) -> Result<Vec<u8>, Refusal> {
    file_of(|out| raw::write_into(numbers, out)).map_err(Refusal)
}

#[cfg(test)]
mod tests {
    use super::*;

    #[test]
    fn refusals_say_why() {
        let why = |numbers: &[i64]| write(numbers).unwrap_err().to_string();
        assert_eq!(why(&[7]), "question 4: a count is outside its limits");
        assert_eq!(why(&[-1]), "question 4: a count is outside its limits");
        let longer = "question 10: numbers follow the last line";
        assert_eq!(why(&[0, 0, 0, i64::MIN]), longer);
        assert_eq!(why(&[2, 0, 0]), "question 18: more than one number type");
    }

    #[test]
    fn constants_have_64_bits() {
        for (value, first) in [(i64::MIN, 0xff), (i64::MAX, 0xfe)] {
            let file = write(&[1, 0, 1, 1, 0, value, 0]).unwrap();
            let bytes = [first, 0xff, 0xff, 0xff, 0xff, 0xff, 0xff, 0xff, 0xff, 1];
            assert_eq!(file, [&[1, 0, 1, 1, 0][..], &bytes, &[0]].concat());
        }
    }
}
