//! The closure of a node: the passes of the crates `reads`, `singles` and `keys`, in the order of `saturation`.

use crate::guard::Term;
use crate::problem::{Problem, Read, Shape, SLOTS};
use crate::state::State;

/// How a pass ends that stops at an empty label.
enum Passed {
    Quiet,
    Changed,
    Stopped,
}

/// Adds what the rules give until nothing is new, or an empty label is met.
pub fn saturate(problem: &Problem, state: &mut State) {
    while matches!(advance(problem, state), Passed::Changed) {}
}

/// The passes in turn, until one changes something or stops.
fn advance(problem: &Problem, state: &mut State) -> Passed {
    if pass_defaults(problem, state) {
        return Passed::Changed;
    }
    match pass_singles(problem, state) {
        Passed::Quiet if pass_shapes(problem, state) || pass_reads(problem, state) => {
            Passed::Changed
        }
        passed => passed,
    }
}

/// A read of a variant that the label lacks is the default.
fn pass_defaults(problem: &Problem, state: &mut State) -> bool {
    let mut changed = false;
    for (row, read) in problem.reads.iter().enumerate() {
        if read.key != 0 && state.label(read.term) & read.variant == 0 {
            changed |= state.unite(row as Term, read.default);
        }
    }
    changed
}

const NONE: Term = Term::MAX;

/// The first term met of each fieldless variant; 16 variants to a type plus one.
type Seen = [Term; 112];

/// Terms of one fieldless variant alone are equal.
fn pass_singles(problem: &Problem, state: &mut State) -> Passed {
    let mut seen: Seen = [NONE; 112];
    let mut changed = false;
    for &term in problem.labelled() {
        if problem.fieldless(term) == 0 {
            continue;
        }
        let label = state.label(term);
        if label.count_ones() > 1 {
            continue;
        }
        if label == 0 {
            return Passed::Stopped;
        }
        let variant = label.trailing_zeros() as usize;
        changed |= enter(problem, state, &mut seen, term, variant);
    }
    match changed {
        true => Passed::Changed,
        false => Passed::Quiet,
    }
}

fn enter(
    problem: &Problem,
    state: &mut State,
    seen: &mut Seen,
    term: Term,
    variant: usize,
) -> bool {
    if !only_is(problem, state, term, variant) {
        return false;
    }
    let place = &mut seen[16 * problem.sorts[term as usize] as usize + variant];
    let first = *place;
    if first == NONE {
        *place = term;
        return false;
    }
    only_is(problem, state, first, variant) && state.unite(first, term)
}

/// Whether a fieldless variant is all that is left of a term's label; an empty label counts
/// as each one variant alone.
pub fn only_is(problem: &Problem, state: &State, term: Term, variant: usize) -> bool {
    problem.fieldless(term) >> variant & 1 == 1 && state.label(term) & !(1 << variant) == 0
}

/// Whether a shape is there, and no other variant is left of its owner's label.
pub fn is_active(state: &State, shape: &Shape) -> bool {
    shape.kind != 0 && state.label(shape.owner) & shape.others == 0
}

/// Numbers of active shapes to compare, and 0 for others: of the kind and the classes of
/// all parts, and of the kind and the owner's class.
struct Keys {
    parts: [u32; SLOTS],
    owners: [u32; SLOTS],
}

impl Keys {
    fn new(problem: &Problem, state: &State) -> Keys {
        let mut keys = Keys {
            parts: [0; SLOTS],
            owners: [0; SLOTS],
        };
        for (k, shape) in problem.shapes.iter().enumerate() {
            if is_active(state, shape) {
                let [a, b, c] = shape.parts.places().map(|part| state.class(part));
                keys.parts[k] = u32::from_be_bytes([shape.kind, a, b, c]);
                keys.owners[k] =
                    256 * u32::from(shape.kind) + u32::from(state.class(shape.owner)) + 1;
            }
        }
        keys
    }

    /// Whether shape k and one before it agree in one key and not in the other.
    fn differs(&self, k: usize) -> bool {
        let (part, owner) = (self.parts[k], self.owners[k]);
        let before = self.parts[..k].iter().zip(&self.owners[..k]);
        let any = |any, (&a, &b): (&u32, &u32)| any | ((a == part) != (b == owner));
        owner != 0 && before.fold(false, any)
    }
}

/// The shapes in turn, until one changes something.
fn pass_shapes(problem: &Problem, state: &mut State) -> bool {
    let keys = Keys::new(problem, state);
    (0..SLOTS).any(|k| keys.differs(k) && pass_shape(problem, state, k))
}

/// A shape and those before it.
fn pass_shape(problem: &Problem, state: &mut State, k: usize) -> bool {
    let shape = &problem.shapes[k];
    let mut changed = false;
    if is_active(state, shape) {
        for before in &problem.shapes[..k] {
            changed |= meet_shapes(state, shape, before);
        }
    }
    changed
}

/// Of two shapes of one variant: equal owners make the same parts, and the same parts
/// equal owners.
fn meet_shapes(state: &mut State, shape: &Shape, before: &Shape) -> bool {
    if before.kind != shape.kind || !is_active(state, before) {
        return false;
    }
    let mut parts = before.parts.iter().zip(shape.parts.iter());
    if state.equal(before.owner, shape.owner) {
        let mut changed = false;
        for (&a, &b) in parts {
            changed |= state.unite(a, b);
        }
        return changed;
    }
    parts.all(|(&a, &b)| state.equal(a, b)) && state.unite(before.owner, shape.owner)
}

fn pass_reads(problem: &Problem, state: &mut State) -> bool {
    let mut changed = false;
    for (row, read) in problem.reads.iter().enumerate() {
        if read.key != 0 {
            for (earlier, before) in problem.reads[..row].iter().enumerate() {
                if same_field(state, before, read) {
                    changed |= state.unite(earlier as Term, row as Term);
                }
            }
        }
    }
    changed
}

fn same_field(state: &State, before: &Read, read: &Read) -> bool {
    before.key == read.key && state.equal(before.term, read.term)
}
