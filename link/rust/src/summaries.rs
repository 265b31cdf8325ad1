//! The summary kept with each guard: which variants its terms can have.

use crate::questions::why;
use crate::raw;
use std::fmt;

/// Which variants the terms of a guard can have, as far as that is settled.
#[derive(Clone, Copy, Debug, PartialEq, Eq)]
pub struct Summary([u16; raw::SUMMARY_LENGTH]);

impl Summary {
    /// The summary that was stored as these numbers. [`add_line`] believes what it rules out.
    pub fn of_numbers(numbers: [u16; raw::SUMMARY_LENGTH]) -> Summary {
        Summary(numbers)
    }

    /// Its numbers, to be stored: of term i the settled variants in number 2 × i, bit v for variant v, and those of them that can occur in
    /// number 2 × i + 1.
    pub fn numbers(&self) -> &[u16; raw::SUMMARY_LENGTH] {
        &self.0
    }

    /// Whether a term can have this variant; nothing if that isn't settled, or there is no such variant of a term.
    pub fn can_occur(&self, term: usize, variant: usize) -> Option<bool> {
        if variant >= 16 {
            return None;
        }
        let masks = self.0.chunks_exact(2).nth(term)?;
        let bit = 1 << variant;
        (masks[0] & bit != 0).then_some(masks[1] & bit != 0)
    }
}

/// The first question about a file, or about a line that is added to it, that got a no.
#[derive(Clone, Copy, Debug, PartialEq, Eq)]
pub struct SummaryRefusal(pub u32);

impl fmt::Display for SummaryRefusal {
    fn fmt(&self, f: &mut fmt::Formatter<'_>) -> fmt::Result {
        let why = match self.0 {
            2 => "the file or the line ends within a number",
            3 => "a number is not in its one form",
            4 => "a count is outside its limits, with the added line or without",
            10 => "bytes follow the last line",
            question => why(question),
        };
        write!(f, "question {}: {why}", self.0)
    }
}

impl std::error::Error for SummaryRefusal {}

/// 0, or the question that got a no.
fn taken(code: u32) -> Result<(), SummaryRefusal> {
    match code {
        0 => Ok(()),
        question => Err(SummaryRefusal(question)),
    }
}

/// The summary of a guard file, visiting at most `budget` nodes for each variant of each term. A variant is unsettled exactly if its
/// search takes more.
///
/// ```
/// use guarddesk::{add_line, summarize, SummaryRefusal};
///
/// // Numbers, and lists of them: nil or cons. A list, and nothing said of it.
/// let file = [2, 0, 2, 0, 2, 0, 1, 1, 0, 1, 0];
/// let mut summary = summarize(&file, 1000)?;
/// assert_eq!(summary.can_occur(0, 1), Some(true));
/// // It isn't a cons.
/// add_line(&file, &[3, 0, 1], 1000, &mut summary)?;
/// assert_eq!(summary.can_occur(0, 1), Some(false));
/// assert_eq!(summary.can_occur(0, 0), Some(true));
/// # Ok::<(), SummaryRefusal>(())
/// ```
pub fn summarize(file: &[u8], budget: u32) -> Result<Summary, SummaryRefusal> {
    let mut numbers = [0; raw::SUMMARY_LENGTH];
    taken(raw::summarize_into(file, budget, &mut numbers))?;
    Ok(Summary(numbers))
}

/// Brings the summary of a guard file up to date with a line that is added to it, given as its bytes. What the summary has as impossible
/// is kept so without a search, and every other variant is searched for anew. A summary that is true of the file's guard becomes one that is true of
/// the guard with the line; that is proved. After a refusal it is as it was.
pub fn add_line(
    file: &[u8],
    line: &[u8],
    budget: u32,
    summary: &mut Summary,
) -> Result<(), SummaryRefusal> {
    taken(raw::add_line_into(file, line, budget, &mut summary.0))
}

#[cfg(test)]
mod tests {
    use super::*;

    // A list, its tail and the number in it, in document 01's types; what follows is the number of lines.
    const ROWS: &[u8] = &[2, 0, 2, 0, 2, 0, 1, 3, 0, 1, 3, 0, 1, 1, 3, 0, 1, 0];
    // The list is its tail; the list isn't nil.
    const ITS_TAIL: &[u8] = &[0, 0, 1];
    const NOT_NIL: &[u8] = &[3, 0, 0];

    fn file(behind: &[&[u8]]) -> Vec<u8> {
        [ROWS, &behind.concat()].concat()
    }

    /// These numbers, and zeros behind them.
    fn summary(front: &[u16]) -> Summary {
        let mut numbers = [0; raw::SUMMARY_LENGTH];
        numbers[..front.len()].copy_from_slice(front);
        Summary(numbers)
    }

    #[test]
    fn made_anew() {
        let (free, equal) = (file(&[&[0]]), file(&[&[1], ITS_TAIL]));
        assert_eq!(summarize(&free, 9), Ok(summary(&[3, 3, 3, 3])));
        // A list that is its own tail is nil.
        assert_eq!(summarize(&equal, 9), Ok(summary(&[3, 1, 3, 1])));
        let never = file(&[&[2], ITS_TAIL, NOT_NIL]);
        assert_eq!(summarize(&never, 9), Ok(summary(&[3, 0, 3, 0])));
        // The tail is nil, with a node for each: whether it is nil takes more.
        let nil = file(&[&[1, 2, 1, 0]]);
        assert_eq!(summarize(&nil, 1), Ok(summary(&[3, 3, 2, 0])));
        assert_eq!(summarize(&free, 0), Ok(summary(&[])));
    }

    #[test]
    fn a_line_more() {
        let (free, equal) = (file(&[&[0]]), file(&[&[1], ITS_TAIL]));
        let mut kept = summarize(&free, 9).expect("accepted");
        assert_eq!(add_line(&free, ITS_TAIL, 9, &mut kept), Ok(()));
        assert_eq!(Ok(kept), summarize(&equal, 9));
        assert_eq!(add_line(&equal, NOT_NIL, 9, &mut kept), Ok(()));
        assert_eq!(kept, summary(&[3, 0, 3, 0]));
        // With no budget what was impossible is all that is settled.
        let mut kept = summary(&[3, 1, 2, 2]);
        assert_eq!(add_line(&equal, NOT_NIL, 0, &mut kept), Ok(()));
        assert_eq!(kept, summary(&[2, 0]));
    }

    #[test]
    fn what_can_occur() {
        let some = summary(&[3, 1, 2, 0]);
        let told = [(0, 0), (0, 1), (1, 0), (1, 1), (0, 2), (0, 16), (24, 0)];
        assert_eq!(
            told.map(|(term, variant)| some.can_occur(term, variant)),
            [Some(true), Some(false), None, Some(false), None, None, None]
        );
        assert_eq!(Summary::of_numbers(*some.numbers()), some);
    }

    #[test]
    fn refusals_keep_the_summary() {
        let free = file(&[&[0]]);
        let often = file(&[&[32], &[2, 1, 0].repeat(32)]);
        for (file, line, question) in [
            (&often, ITS_TAIL, 4),
            (&often, &[], 4),
            (&free, &[], 2),
            (&free, &[0x80, 0], 3),
            (&free, &[0, 0, 3], 5),
            (&free, &[4], 6),
            (&free, &[0, 0, 2], 7),
            (&free, &[0, 0, 1, 0], 10),
            (&file(&[&[0, 0]]), &[4], 10),
        ] {
            let mut kept = summary(&[3, 1]);
            let answer = add_line(file, line, 9, &mut kept);
            assert_eq!(answer, Err(SummaryRefusal(question)), "{line:?}");
            assert_eq!(kept, summary(&[3, 1]));
        }
    }

    #[test]
    fn refusals_say_why() {
        let why = summarize(&[], 9).unwrap_err().to_string();
        assert_eq!(why, "question 2: the file or the line ends within a number");
        let why = summarize(&[1, 1, 1, 0], 9).unwrap_err().to_string();
        assert_eq!(why, "question 8: a type has no default");
    }
}
