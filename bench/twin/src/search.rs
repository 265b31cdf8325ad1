//! The search over decisions, as in crate `search`.

use crate::given::given;
use crate::nodes::{is_closed, split};
use crate::problem::Problem;
use crate::saturation::saturate;
use crate::state::State;

/// The nodes that are left of a budget, and the splits of either kind that were made.
#[derive(Clone, Copy)]
pub struct Tally {
    pub left: u32,
    pub first: u32,
    pub second: u32,
}

impl Tally {
    /// With a split more.
    fn with_split(self, first: bool) -> Tally {
        Tally {
            first: self.first + u32::from(first),
            second: self.second + u32::from(!first),
            ..self
        }
    }
}

/// How a search ends.
pub enum Outcome {
    Open(Tally),
    Closed(Tally),
    Spent(Tally),
}

/// The outcome, and the state of the open node where one was found.
pub fn search(problem: &Problem, budget: u32) -> (Outcome, State) {
    let mut state = given(problem);
    let tally = Tally {
        left: budget,
        first: 0,
        second: 0,
    };
    let outcome = visit(problem, &mut state, tally);
    (outcome, state)
}

/// A node: its closure, then closed, open, or its children, "is" before "isn't". The state
/// comes back as that of the open node, where one was found.
fn visit(problem: &Problem, state: &mut State, tally: Tally) -> Outcome {
    let Some(left) = tally.left.checked_sub(1) else {
        return Outcome::Spent(tally);
    };
    let tally = Tally { left, ..tally };
    saturate(problem, state);
    if is_closed(problem, state) {
        return Outcome::Closed(tally);
    }
    let Some(decision) = split(problem, state) else {
        return Outcome::Open(tally);
    };
    let mut child = state.clone();
    child.restrict(decision.term, decision.variant);
    match visit(problem, &mut child, tally.with_split(decision.first)) {
        Outcome::Closed(tally) => {
            state.restrict(decision.term, !decision.variant);
            visit(problem, state, tally)
        }
        end => {
            *state = child;
            end
        }
    }
}
