//! The desk's whole call in plain safe Rust, to compare speeds: the same reader, search and messages as the proved crates,
//! in their order and with the same answers to the last number, as structs, vectors and iterators.

mod given;
mod growth;
pub mod guard;
mod messages;
mod nodes;
pub mod packed;
mod problem;
mod read;
mod saturation;
mod search;
mod state;

pub use read::{read, Question};

use std::fmt;

use crate::guard::Guard;
use crate::problem::Problem;
use crate::search::{search, Outcome, Tally};
use crate::state::State;

/// How many numbers the buffers have to hold.
pub const ROWS_LENGTH: usize = 16_384;
pub const PLACES_LENGTH: usize = 24;

/// The nodes of a search, after SPENT the budget, and its splits by kind.
#[derive(Clone, Copy, Debug, PartialEq, Eq)]
pub struct Counts {
    pub nodes: u32,
    pub first: u32,
    pub second: u32,
}

#[derive(Clone, Copy, Debug, PartialEq, Eq)]
pub enum Answer {
    Refused { question: u32 },
    Sat { counts: Counts, rows: u32 },
    Unsat { counts: Counts },
    Spent { counts: Counts },
}

impl Answer {
    /// The verdict and its number, which is line one of `guarddesk`.
    pub fn line_one(&self) -> String {
        match self {
            Answer::Refused { question } => format!("REFUSED {question}"),
            Answer::Sat { counts, .. } => format!("SAT {}", counts.nodes),
            Answer::Unsat { counts } => format!("UNSAT {}", counts.nodes),
            Answer::Spent { counts } => format!("SPENT {}", counts.nodes),
        }
    }
}

/// As `searchvectors` prints it: line one, and the splits.
impl fmt::Display for Answer {
    fn fmt(&self, f: &mut fmt::Formatter) -> fmt::Result {
        write!(f, "{}", self.line_one())?;
        match self {
            Answer::Refused { .. } => Ok(()),
            Answer::Sat { counts, .. } | Answer::Unsat { counts } | Answer::Spent { counts } => {
                write!(f, " splits {} {}", counts.first, counts.second)
            }
        }
    }
}

/// Decides a guard file. After SAT the buffers show messages, else they are all 0.
pub fn decide(file: &[u8], budget: u32, rows: &mut [i32], places: &mut [i32]) -> Answer {
    let (mut drawn, mut terms) = (0, 0);
    let answer = if rows.len() < ROWS_LENGTH || places.len() < PLACES_LENGTH {
        Answer::Refused { question: 1 }
    } else {
        answer(file, budget, |guard, problem, state| {
            drawn = messages::draw(guard, problem, state, rows, places);
            terms = guard.rows.len();
            drawn
        })
    };
    rows[4 * drawn..].fill(0);
    places[terms..].fill(0);
    answer
}

/// The verdict alone, without messages.
pub fn verdict(file: &[u8], budget: u32) -> Answer {
    answer(file, budget, |_, _, _| 0)
}

/// The answer to a file; `draw` gives the number of rows for an open node.
fn answer(
    file: &[u8],
    budget: u32,
    draw: impl FnOnce(&Guard, &Problem, &State) -> usize,
) -> Answer {
    let guard = match read(file) {
        Ok(guard) => guard,
        Err(question) => {
            return Answer::Refused {
                question: question as u32,
            }
        }
    };
    let problem = Problem::new(&guard);
    let (outcome, state) = search(&problem, budget);
    let counts = |tally: Tally| Counts {
        nodes: budget - tally.left,
        first: tally.first,
        second: tally.second,
    };
    match outcome {
        Outcome::Open(tally) => Answer::Sat {
            counts: counts(tally),
            rows: draw(&guard, &problem, &state) as u32,
        },
        Outcome::Closed(tally) => Answer::Unsat {
            counts: counts(tally),
        },
        Outcome::Spent(tally) => Answer::Spent {
            counts: counts(tally),
        },
    }
}
