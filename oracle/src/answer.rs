//! The answer to a file with a budget.

use std::fmt;

use crate::guard::{Guard, Limits};
use crate::read::{self, Question};
use crate::search::{search, End, Splits, Tally};

/// "REFUSED with a number; or SAT with the node count [...]; or UNSAT with the
/// node count; or SPENT with the budget as node count." Request #105: "SAT,
/// UNSAT and SPENT each carry the counts of first-kind and of second-kind
/// splits".
#[derive(Clone, Copy, Debug, PartialEq, Eq)]
pub enum Answer {
    Refused(Question),
    Sat { nodes: u32, splits: Splits },
    Unsat { nodes: u32, splits: Splits },
    Spent { budget: u32, splits: Splits },
}

/// As `SAT 3 splits 1 0`: first-kind splits before second-kind ones.
impl fmt::Display for Answer {
    fn fmt(&self, f: &mut fmt::Formatter) -> fmt::Result {
        let (verdict, nodes, splits) = match *self {
            Answer::Refused(question) => return write!(f, "REFUSED {}", question.number()),
            Answer::Sat { nodes, splits } => ("SAT", nodes, splits),
            Answer::Unsat { nodes, splits } => ("UNSAT", nodes, splits),
            Answer::Spent { budget, splits } => ("SPENT", budget, splits),
        };
        let Splits { first, second } = splits;
        write!(f, "{verdict} {nodes} splits {first} {second}")
    }
}

/// What `guarddesk` prints of an answer in line one: all but the splits.
pub fn line_one(answer: &str) -> &str {
    answer.split(" splits ").next().unwrap_or(answer)
}

/// The answer to a file with buffers of the least lengths.
pub fn answer(file: &[u8], budget: u32, limits: Limits) -> Answer {
    answer_with_buffers(
        file,
        budget,
        limits,
        limits.row_buffer(),
        limits.place_buffer(),
    )
}

/// The answer to a file with buffers of the given lengths.
pub fn answer_with_buffers(
    file: &[u8],
    budget: u32,
    limits: Limits,
    row_buffer: usize,
    place_buffer: usize,
) -> Answer {
    let guard = read::buffers_long_enough(limits, row_buffer, place_buffer)
        .and_then(|()| read::read(file, limits));
    match guard {
        Ok(guard) => answer_to(&guard, budget),
        Err(question) => Answer::Refused(question),
    }
}

/// The answer to an accepted guard.
pub fn answer_to(guard: &Guard, budget: u32) -> Answer {
    let (end, Tally { nodes, splits, .. }) = search(guard, budget);
    match end {
        End::Open => Answer::Sat { nodes, splits },
        End::Closed => Answer::Unsat { nodes, splits },
        End::Spent => Answer::Spent { budget, splits },
    }
}
