//! The search whose nodes are counted.

use crate::closure::{Closure, Decision};
use crate::guard::{Guard, Line};
use crate::problem::{only, Problem, Read};

/// Why a node is closed.
#[derive(Clone, Copy, Debug, PartialEq, Eq)]
pub enum Reason {
    /// "A label is empty."
    EmptyLabel,
    /// "Two terms of an unequal line are equal."
    UnequalLine,
    /// "One class holds two constants of different value."
    Constants,
    /// "A class is a part of itself through built rows."
    Cycle,
}

impl Reason {
    /// All reasons, in their order.
    pub const ALL: [Reason; 4] = [
        Reason::EmptyLabel,
        Reason::UnequalLine,
        Reason::Constants,
        Reason::Cycle,
    ];
}

/// The first reason that applies, in the order of document 01.
pub fn closed(problem: &Problem, closure: &Closure) -> Option<Reason> {
    if problem
        .variant_terms()
        .any(|(term, _)| closure.label(term) == 0)
    {
        return Some(Reason::EmptyLabel);
    }
    let broken = |line: &Line| matches!(*line, Line::Unequal(a, b) if closure.equal(a, b));
    if problem.guard.lines.iter().any(broken) {
        return Some(Reason::UnequalLine);
    }
    for a in &problem.constants {
        for b in &problem.constants {
            if a.value != b.value && closure.equal(a.term, b.term) {
                return Some(Reason::Constants);
            }
        }
    }
    has_cycle(problem, closure).then_some(Reason::Cycle)
}

/// Removes classes without parts left until nothing changes; what stays has a
/// part that stays, so some class there is a part of itself.
fn has_cycle(problem: &Problem, closure: &Closure) -> bool {
    let built = closure.built(problem);
    let mut part_of: Vec<(usize, usize)> = Vec::new();
    for row in &built {
        for &part in &row.parts {
            part_of.push((closure.class(row.term), closure.class(part)));
        }
    }
    loop {
        let before = part_of.len();
        let wholes: Vec<usize> = part_of.iter().map(|&(whole, _)| whole).collect();
        part_of.retain(|(_, part)| wholes.contains(part));
        if part_of.len() == before {
            return before > 0;
        }
    }
}

/// What a node splits on; `is` is the first child's.
#[derive(Clone, Copy, Debug, PartialEq, Eq)]
pub enum Split {
    /// "The lowest field row whose read term's label holds its variant and
    /// another one."
    First { term: usize, variant: usize },
    /// "The lowest term whose label holds two or more variants, all fieldless,
    /// on its lowest variant."
    Second { term: usize, variant: usize },
}

impl Split {
    pub fn term(self) -> usize {
        match self {
            Split::First { term, .. } | Split::Second { term, .. } => term,
        }
    }

    pub fn variant(self) -> usize {
        match self {
            Split::First { variant, .. } | Split::Second { variant, .. } => variant,
        }
    }

    /// What one of the children adds: "is" or "isn't".
    pub fn decision(self, is: bool) -> Decision {
        Decision {
            term: self.term(),
            variant: self.variant(),
            is,
        }
    }
}

/// The split of a "field row whose read term's label holds its variant and
/// another one".
pub fn first_kind(closure: &Closure, read: &Read) -> Option<Split> {
    let (term, variant) = (read.whole.term, read.whole.variant);
    let label = closure.label(term);
    let holds_another = label & only(variant) != 0 && label != only(variant);
    holds_another.then_some(Split::First { term, variant })
}

/// A "term whose label holds two or more variants, all fieldless".
pub fn second_kind(problem: &Problem, closure: &Closure, term: usize, ty: usize) -> bool {
    let label = closure.label(term);
    label.count_ones() >= 2 && label & !problem.fieldless[ty] == 0
}

pub fn split(problem: &Problem, closure: &Closure) -> Option<Split> {
    let mut first = problem.reads.iter();
    if let Some(split) = first.find_map(|read| first_kind(closure, read)) {
        return Some(split);
    }
    let mut terms = problem.variant_terms();
    let (term, _) = terms.find(|&(term, ty)| second_kind(problem, closure, term, ty))?;
    let variant = closure.label(term).trailing_zeros() as usize;
    Some(Split::Second { term, variant })
}

/// How a search ended.
#[derive(Clone, Copy, Debug, PartialEq, Eq)]
pub enum End {
    /// An open node was found.
    Open,
    /// All nodes are closed.
    Closed,
    /// The budget didn't allow the next node.
    Spent,
}

/// Request #105: "the counts of first-kind and of second-kind splits made at
/// visited nodes".
#[derive(Clone, Copy, Debug, Default, PartialEq, Eq)]
pub struct Splits {
    pub first: u32,
    pub second: u32,
}

impl Splits {
    pub fn total(self) -> u32 {
        self.first + self.second
    }
}

/// What a search met on its way.
#[derive(Clone, Copy, Debug, Default, PartialEq, Eq)]
pub struct Tally {
    pub nodes: u32,
    pub splits: Splits,
    /// Closed nodes by their first reason.
    pub closed: [u32; 4],
}

/// Searches with at most `budget` nodes.
pub fn search(guard: &Guard, budget: u32) -> (End, Tally) {
    let mut search = Search {
        problem: Problem::new(guard),
        budget,
        decisions: Vec::new(),
        tally: Tally::default(),
    };
    let end = search.visit();
    (end, search.tally)
}

struct Search<'g> {
    problem: Problem<'g>,
    budget: u32,
    decisions: Vec<Decision>,
    tally: Tally,
}

impl Search<'_> {
    /// "The walk goes depth first, "is" before "isn't", from the root, and
    /// stops at the first open node. Each node visited counts 1."
    fn visit(&mut self) -> End {
        if self.tally.nodes == self.budget {
            return End::Spent;
        }
        self.tally.nodes += 1;
        let closure = Closure::new(&self.problem, &self.decisions);
        if let Some(reason) = closed(&self.problem, &closure) {
            self.tally.closed[reason as usize] += 1;
            return End::Closed;
        }
        let Some(split) = split(&self.problem, &closure) else {
            return End::Open;
        };
        // Before the children: "those whose children the budget cut off included".
        match split {
            Split::First { .. } => self.tally.splits.first += 1,
            Split::Second { .. } => self.tally.splits.second += 1,
        }
        for is in [true, false] {
            self.decisions.push(split.decision(is));
            let end = self.visit();
            self.decisions.pop();
            if end != End::Closed {
                return end;
            }
        }
        End::Closed
    }
}
