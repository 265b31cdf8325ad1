//! Request #114: the summary kept with each guard.

use crate::guard::{Guard, Limits, Line};
use crate::read::{self, Question};
use crate::search::{search, End};

/// "For each of 24 term rows, two 16-bit masks": row i has numbers 2 × i, the
/// variants settled, and 2 × i + 1, "those of them that can occur".
pub const NUMBERS: usize = 48;

pub type Summary = [u16; NUMBERS];

/// The summary of a guard by the one that it had; "made anew" there was none.
///
/// "Settled impossible variants are kept so without a walk, and every other one
/// is walked afresh"; "one walked is unsettled exactly if its walk was SPENT".
pub fn summary(guard: &Guard, budget: u32, old: Option<&Summary>) -> Summary {
    let mut new = [0; NUMBERS];
    // "A missing row or one of number type has 0."
    for (row, &ty) in guard.row_types.iter().enumerate() {
        for variant in 0..guard.types[ty].variants.len() {
            let bit = 1 << variant;
            let kept =
                old.is_some_and(|old| old[2 * row] & bit != 0 && old[2 * row + 1] & bit == 0);
            let end = if kept {
                End::Closed
            } else {
                walk(guard, row, variant, budget)
            };
            if end != End::Spent {
                new[2 * row] |= bit;
            }
            if end == End::Open {
                new[2 * row + 1] |= bit;
            }
        }
    }
    new
}

/// "The guard with the line "this term is that variant"."
fn walk(guard: &Guard, term: usize, variant: usize, budget: u32) -> End {
    let mut asked = guard.clone();
    asked.lines.push(Line::Is(term, variant));
    search(&asked, budget).0
}

/// The summary of a file's guard, made anew.
pub fn summarize(file: &[u8], budget: u32) -> Result<Summary, Question> {
    Ok(summary(&read::read(file, Limits::BASE)?, budget, None))
}

/// The summary of a file's guard with a line more.
pub fn add_line(file: &[u8], line: &[u8], budget: u32, old: &Summary) -> Result<Summary, Question> {
    let mut guard = read::read(file, Limits::BASE)?;
    // "After the file's questions a thirty-third line gets 4, then the base's
    // are asked of the added line's bytes, 10 included."
    Question::CountWithinLimits.ask(guard.lines.len() < guard.limits.lines)?;
    let line = read::read_line(line, &guard)?;
    guard.lines.push(line);
    Ok(summary(&guard, budget, Some(old)))
}

#[cfg(test)]
mod tests {
    use super::*;
    use crate::random::Random;
    use crate::vectors::loads::small;

    /// Line by line: what both have settled is the same as made anew, and with
    /// budget enough all of it.
    #[test]
    fn kept_agrees_with_anew() {
        let mut random = Random::named("summaries");
        for _ in 0..200 {
            let file = small(&mut random);
            let Ok(mut guard) = read::read(&file, Limits::BASE) else {
                continue;
            };
            let lines = std::mem::take(&mut guard.lines);
            let mut kept = summary(&guard, 1_000, None);
            let mut short = summary(&guard, 2, None);
            for line in lines {
                guard.lines.push(line);
                kept = summary(&guard, 1_000, Some(&kept));
                short = summary(&guard, 2, Some(&short));
                let anew = summary(&guard, 1_000, None);
                assert_eq!(kept, anew);
                for row in 0..24 {
                    let both = short[2 * row] & anew[2 * row];
                    assert_eq!(short[2 * row + 1] & both, anew[2 * row + 1] & both);
                }
            }
        }
    }
}
