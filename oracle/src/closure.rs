//! The least closure of the lines and the decisions, by plain saturation.

use crate::guard::Line;
use crate::problem::{is_alone, only, Built, Label, Problem};

/// A literal that the search adds to the lines of the guard.
#[derive(Clone, Copy, Debug, PartialEq, Eq)]
pub struct Decision {
    pub term: usize,
    pub variant: usize,
    /// "is" or "isn't".
    pub is: bool,
}

/// Equal terms and labels.
#[derive(Clone, Debug, PartialEq, Eq, Hash)]
pub struct Closure {
    /// The lowest term equal to each term: "equal is an equivalence".
    class: Vec<usize>,
    /// The label of each term of variant type, "shared by equal terms".
    label: Vec<Label>,
    changed: bool,
}

impl Closure {
    /// "At a node, take the least closure of the lines and the decisions above
    /// it."
    pub fn new(problem: &Problem, decisions: &[Decision]) -> Closure {
        let mut closure = Closure::start(problem);
        closure.add_lines(problem);
        for decision in decisions {
            closure.decide(decision.term, decision.variant, decision.is);
        }
        closure.constants(problem);
        loop {
            closure.changed = false;
            let built = closure.built(problem);
            closure.built_from_equal_parts(&built);
            closure.parts_of_equal_rows(&built);
            closure.reads_of_equal_terms(problem);
            closure.fieldless(problem);
            closure.absent_reads(problem);
            if !closure.changed {
                return closure;
            }
        }
    }

    pub fn equal(&self, a: usize, b: usize) -> bool {
        self.class[a] == self.class[b]
    }

    pub fn class(&self, term: usize) -> usize {
        self.class[term]
    }

    pub fn label(&self, term: usize) -> Label {
        self.label[term]
    }

    /// "At first all, one alone for a built row or a default."
    fn start(problem: &Problem) -> Closure {
        let all = |ty: &Option<usize>| ty.map_or(0, |ty| problem.all_variants(ty));
        let mut closure = Closure {
            class: (0..problem.types.len()).collect(),
            label: problem.types.iter().map(all).collect(),
            changed: false,
        };
        for built in &problem.built {
            closure.label[built.term] = only(built.variant);
        }
        closure
    }

    fn merge(&mut self, a: usize, b: usize) {
        if self.equal(a, b) {
            return;
        }
        let label = self.label[a] & self.label[b];
        let low = self.class[a].min(self.class[b]);
        let high = self.class[a].max(self.class[b]);
        for term in 0..self.class.len() {
            if self.class[term] == high {
                self.class[term] = low;
            }
            if self.class[term] == low {
                self.label[term] = label;
            }
        }
        self.changed = true;
    }

    /// "Cut down by lines and decisions."
    fn decide(&mut self, term: usize, variant: usize, is: bool) {
        let keep = if is { only(variant) } else { !only(variant) };
        let label = self.label[term] & keep;
        for other in 0..self.class.len() {
            if self.equal(other, term) {
                self.label[other] = label;
            }
        }
    }

    fn add_lines(&mut self, problem: &Problem) {
        for line in &problem.guard.lines {
            match *line {
                Line::Equal(a, b) => self.merge(a, b),
                Line::Unequal(..) => {}
                Line::Is(term, variant) => self.decide(term, variant, true),
                Line::Isnt(term, variant) => self.decide(term, variant, false),
            }
        }
    }

    /// "Constants of one type and one value are equal."
    fn constants(&mut self, problem: &Problem) {
        for a in &problem.constants {
            for b in &problem.constants {
                if a.ty == b.ty && a.value == b.value {
                    self.merge(a.term, b.term);
                }
            }
        }
    }

    /// The built rows, the defaults and the settled reads: "if the label of a
    /// read term is the read variant alone, that term equals the variant built
    /// from the read and its sisters, which counts as a built row".
    pub fn built(&self, problem: &Problem) -> Vec<Built> {
        let reads = problem.reads.iter().map(|read| &read.whole);
        let settled = reads.filter(|whole| is_alone(self.label[whole.term], whole.variant));
        problem.built.iter().chain(settled).cloned().collect()
    }

    /// "Rows built by the same variant from equal parts are equal."
    fn built_from_equal_parts(&mut self, built: &[Built]) {
        for (a, b) in pairs(built) {
            let same_variant = a.ty == b.ty && a.variant == b.variant;
            if same_variant
                && a.parts
                    .iter()
                    .zip(&b.parts)
                    .all(|(&p, &q)| self.equal(p, q))
            {
                self.merge(a.term, b.term);
            }
        }
    }

    /// "Equal rows of one variant have equal parts."
    fn parts_of_equal_rows(&mut self, built: &[Built]) {
        for (a, b) in pairs(built) {
            if a.variant == b.variant && self.equal(a.term, b.term) {
                for (&p, &q) in a.parts.iter().zip(&b.parts) {
                    self.merge(p, q);
                }
            }
        }
    }

    /// "Reads of the same field of equal terms are equal."
    fn reads_of_equal_terms(&mut self, problem: &Problem) {
        for (a, b) in pairs(&problem.reads) {
            let same_field = a.whole.variant == b.whole.variant && a.position == b.position;
            if same_field && self.equal(a.whole.term, b.whole.term) {
                self.merge(a.row, b.row);
            }
        }
    }

    /// "Terms of a type whose labels are the same one fieldless variant are
    /// equal."
    fn fieldless(&mut self, problem: &Problem) {
        let terms: Vec<(usize, usize)> = problem.variant_terms().collect();
        for (&(a, a_type), &(b, b_type)) in pairs(&terms) {
            let common = alone_in(self.label[a]) & alone_in(self.label[b]);
            if a_type == b_type && common & problem.fieldless[a_type] != 0 {
                self.merge(a, b);
            }
        }
    }

    /// "If the label lacks that variant, the read equals the default."
    fn absent_reads(&mut self, problem: &Problem) {
        for read in &problem.reads {
            if self.label[read.whole.term] & only(read.whole.variant) == 0 {
                self.merge(read.row, read.default);
            }
        }
    }
}

/// The variants that a label counts as alone: its one, or each if it is empty.
fn alone_in(label: Label) -> Label {
    match label.count_ones() {
        0 => Label::MAX,
        1 => label,
        _ => 0,
    }
}

/// Every two items of a list, the earlier one first.
fn pairs<T>(items: &[T]) -> impl Iterator<Item = (&T, &T)> {
    let heads = items.iter().enumerate();
    heads.flat_map(|(i, a)| items[i + 1..].iter().map(move |b| (a, b)))
}
