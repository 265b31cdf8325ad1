//! Guard files with their term rows by column, as slow memory keeps them, and back.

use crate::questions::{file_of, why};
use crate::raw;
use std::fmt;

/// The first question about a guard file to be stored, or about stored bytes, that got a no.
#[derive(Clone, Copy, Debug, PartialEq, Eq)]
pub struct StoreRefusal(pub u32);

impl fmt::Display for StoreRefusal {
    fn fmt(&self, f: &mut fmt::Formatter<'_>) -> fmt::Result {
        let why = match self.0 {
            2 => "the bytes end within a number",
            3 => "a number is not in its one form",
            10 => "bytes follow the last line",
            question => why(question),
        };
        write!(f, "question {}: {why}", self.0)
    }
}

impl std::error::Error for StoreRefusal {}

/// Stores a guard file with its term rows by column: behind the number of terms all kinds, then all second numbers, then third to
/// sixth, missing ones left out. All other numbers keep their order. There are as many bytes as the file has, and [`restore`] gives
/// the file back; that is proved.
///
/// ```
/// use guarddesk::{restore, store, StoreRefusal};
///
/// // A number type; the numbers -3 and 4; a line that says they are equal.
/// let file = [1, 0, 2, 1, 0, 5, 1, 0, 8, 1, 0, 0, 1];
/// let stored = store(&file)?;
/// assert_eq!(stored, [1, 0, 2, 1, 1, 0, 0, 5, 8, 1, 0, 0, 1]);
/// assert_eq!(restore(&stored)?, file);
/// # Ok::<(), StoreRefusal>(())
/// ```
pub fn store(file: &[u8]) -> Result<Vec<u8>, StoreRefusal> {
    file_of(|out| raw::store_into(file, out)).map_err(StoreRefusal)
}

/// Gives back the guard file that these bytes are stored of. What is given back is a guard file, which the other calls take; that
/// is proved. Bytes that are stored of no file are refused, by a question from 2 to 10.
///
/// ```
/// use guarddesk::{restore, StoreRefusal};
///
/// // A number type, and a term of kind 4.
/// assert_eq!(restore(&[1, 0, 1, 4]), Err(StoreRefusal(6)));
/// ```
pub fn restore(stored: &[u8]) -> Result<Vec<u8>, StoreRefusal> {
    file_of(|out| raw::restore_into(stored, out)).map_err(StoreRefusal)
}

#[cfg(test)]
mod tests {
    use super::*;

    // Numbers, and lists of them. A list and its tail, which are equal.
    const FILE: &[u8] = &[2, 0, 2, 0, 2, 0, 1, 2, 0, 1, 3, 0, 1, 1, 1, 0, 0, 1];
    const STORED: &[u8] = &[2, 0, 2, 0, 2, 0, 1, 2, 0, 3, 1, 0, 1, 1, 1, 0, 0, 1];

    #[test]
    fn there_and_back() {
        assert_eq!(store(FILE), Ok(STORED.to_vec()));
        assert_eq!(restore(STORED), Ok(FILE.to_vec()));
    }

    #[test]
    fn refusals_say_why() {
        let there = |file: &[u8]| store(file).unwrap_err().to_string();
        let back = |stored: &[u8]| restore(stored).unwrap_err().to_string();
        assert_eq!(there(&[1]), "question 2: the bytes end within a number");
        let types = "question 4: a count is outside its limits";
        assert_eq!((there(&[7]), back(&[7])), (types.into(), types.into()));
        // A term built of the number type.
        let built = [&STORED[..7], &[1, 2, 0]].concat();
        assert_eq!(back(&built), "question 7: a type does not fit");
        let longer = [STORED, &[0]].concat();
        assert_eq!(back(&longer), "question 10: bytes follow the last line");
    }
}
