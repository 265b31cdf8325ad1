//! The state of a node, as crate `classes` has it: the class of each term, named by its
//! lowest member, and the label of each class.

use crate::guard::{Label, Term};
use crate::problem::PLACES;

#[derive(Clone)]
pub struct State {
    classes: [Term; PLACES],
    labels: [Label; PLACES],
}

impl State {
    /// Each term in a class of its own, with all variants.
    pub fn new() -> State {
        State {
            classes: std::array::from_fn(|term| term as Term),
            labels: [Label::MAX; PLACES],
        }
    }

    pub fn class(&self, term: Term) -> Term {
        self.classes[term as usize]
    }

    pub fn label(&self, term: Term) -> Label {
        self.labels[self.class(term) as usize]
    }

    pub fn equal(&self, a: Term, b: Term) -> bool {
        self.class(a) == self.class(b)
    }

    /// Makes two terms equal; true if they weren't.
    pub fn unite(&mut self, a: Term, b: Term) -> bool {
        let (a, b) = (self.class(a), self.class(b));
        if a == b {
            return false;
        }
        let (low, high) = (a.min(b), a.max(b));
        self.labels[low as usize] &= self.labels[high as usize];
        for class in &mut self.classes {
            if *class == high {
                *class = low;
            }
        }
        true
    }

    /// Cuts the label of a term down to a mask.
    pub fn restrict(&mut self, term: Term, mask: Label) {
        self.labels[self.class(term) as usize] &= mask;
    }
}
