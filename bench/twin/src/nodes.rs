//! The reasons to close a node and its split, as in the crates `reasons`, `levels`, `nodes` and `splits`.

use crate::guard::{Label, Line, Term};
use crate::problem::{Problem, PLACES};
use crate::saturation::is_active;
use crate::state::State;

/// Whether one of the four reasons closes the node, the dearest to find out last.
pub fn is_closed(problem: &Problem, state: &State) -> bool {
    has_empty_label(problem, state)
        || has_broken_line(problem, state)
        || has_unlike_constants(problem, state)
        || has_cycle(problem, state)
}

fn has_empty_label(problem: &Problem, state: &State) -> bool {
    let mut labelled = problem.labelled().iter();
    labelled.any(|&term| state.label(term) == 0)
}

fn has_broken_line(problem: &Problem, state: &State) -> bool {
    let broken = |line: &Line| matches!(*line, Line::Unequal(a, b) if state.equal(a, b));
    problem.lines.iter().any(broken)
}

fn has_unlike_constants(problem: &Problem, state: &State) -> bool {
    problem.constants.iter().enumerate().any(|(k, constant)| {
        constant.sort != 0
            && problem.constants[..k].iter().any(|before| {
                before.sort != 0
                    && state.equal(before.term, constant.term)
                    && before.value != constant.value
            })
    })
}

/// Classes sink below their parts until all are, or one is at the bottom. Without a cycle
/// a class sinks at most once for each shape.
fn has_cycle(problem: &Problem, state: &State) -> bool {
    let mut levels = [31; PLACES];
    while sink_all(problem, state, &mut levels) {}
    levels.contains(&0)
}

/// One round, from the last shape to the first; true if a class sank.
fn sink_all(problem: &Problem, state: &State, levels: &mut [u8; PLACES]) -> bool {
    let mut any = false;
    for shape in problem.shapes.iter().rev() {
        let parts = shape.parts.iter();
        let Some(low) = parts.map(|&part| levels[state.class(part) as usize]).min() else {
            continue;
        };
        let level = &mut levels[state.class(shape.owner) as usize];
        if low != 0 && *level >= low && is_active(state, shape) {
            *level = low - 1;
            any = true;
        }
    }
    any
}

/// A decision: whether it is of the first kind, a term, and the label of one variant.
#[derive(Clone, Copy)]
pub struct Decision {
    pub first: bool,
    pub term: Term,
    pub variant: Label,
}

/// What the node splits on: the first kind before the second.
pub fn split(problem: &Problem, state: &State) -> Option<Decision> {
    first_kind(problem, state).or_else(|| second_kind(problem, state))
}

/// The lowest field row whose read term's label holds its variant and another one.
fn first_kind(problem: &Problem, state: &State) -> Option<Decision> {
    let splits = problem.reads.iter().find(|read| {
        let label = state.label(read.term);
        read.key != 0 && label & read.variant != 0 && label != read.variant
    });
    splits.map(|read| Decision {
        first: true,
        term: read.term,
        variant: read.variant,
    })
}

/// The lowest term whose label holds two or more variants, all fieldless; its lowest one.
fn second_kind(problem: &Problem, state: &State) -> Option<Decision> {
    let mut labelled = problem.labelled().iter().copied();
    let splits = labelled.find(|&term| {
        let label = state.label(term);
        label & problem.fieldless(term) == label && label.count_ones() >= 2
    });
    splits.map(|term| Decision {
        first: false,
        term,
        variant: 1 << state.label(term).trailing_zeros(),
    })
}
