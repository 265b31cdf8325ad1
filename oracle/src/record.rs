//! Request #101: the record of a search whose nodes are all closed, and its
//! checker.

use crate::closure::{Closure, Decision};
use crate::guard::{Guard, Limits, Line};
use crate::number;
use crate::problem::{only, Label, Problem};
use crate::read::{self, Question};
use crate::search::{closed, split, End, Reason, Split, Splits};

/// The kind of an entry about a split; reasons are 0 to 3 in their order.
pub const SPLIT: usize = Reason::ALL.len();

/// What a record says of one node.
#[derive(Clone, Copy, Debug, PartialEq, Eq)]
pub enum Entry {
    /// "0 and a term for an empty label, 1 and a line for a broken unequal
    /// line, 2 and a term for unlike constants in one class, 3 and a term for
    /// a class inside itself."
    Closed { reason: Reason, place: usize },
    /// "4, the split term (first kind: the one read) and the variant."
    Split { term: usize, variant: usize },
}

impl Entry {
    /// The entry that the search writes at a node; none if the node is open.
    ///
    /// "Of 0 to 3 the lowest that applies is written, with its lowest term or
    /// line."
    fn of_search(problem: &Problem, closure: &Closure) -> Option<Entry> {
        if let Some(reason) = closed(problem, closure) {
            let claim = claims(problem, reason).find(|claim| claim.holds(problem, closure));
            return Some(claim.expect("a reason has a term or a line"));
        }
        let (Split::First { term, variant } | Split::Second { term, variant }) =
            split(problem, closure)?;
        Some(Entry::Split { term, variant })
    }

    pub fn numbers(self) -> Vec<usize> {
        match self {
            Entry::Closed { reason, place } => vec![reason as usize, place],
            Entry::Split { term, variant } => vec![SPLIT, term, variant],
        }
    }

    pub fn bytes(self) -> Vec<u8> {
        let mut bytes = Vec::new();
        for number in self.numbers() {
            number::write(number.try_into().expect("entries are small"), &mut bytes);
        }
        bytes
    }

    /// Takes an entry from the front of `rest`. There is none if it "is cut
    /// short" or "isn't one of these in well-formed numbers".
    pub fn take(rest: &mut &[u8]) -> Option<Entry> {
        let kind = take_number(rest)?;
        match Reason::ALL.get(kind) {
            Some(&reason) => Some(Entry::Closed {
                reason,
                place: take_number(rest)?,
            }),
            None if kind == SPLIT => Some(Entry::Split {
                term: take_number(rest)?,
                variant: take_number(rest)?,
            }),
            None => None,
        }
    }

    /// Does the entry say what is so at the node? Any term or line that has
    /// the reason will do, and "any split whose label holds the variant and
    /// another".
    pub fn holds(self, problem: &Problem, closure: &Closure) -> bool {
        match self {
            Entry::Closed { reason, place } => match reason {
                Reason::EmptyLabel => label(problem, closure, place) == Some(0),
                Reason::UnequalLine => match problem.guard.lines.get(place) {
                    Some(&Line::Unequal(a, b)) => closure.equal(a, b),
                    _ => false,
                },
                Reason::Constants => {
                    is_term(problem, place) && has_unlike_constants(problem, closure, place)
                }
                Reason::Cycle => is_term(problem, place) && inside_itself(problem, closure, place),
            },
            Entry::Split { term, variant } => splits(problem, closure, term).contains(&variant),
        }
    }
}

fn take_number(rest: &mut &[u8]) -> Option<usize> {
    let (value, length) = number::read(rest, number::PLAIN).ok()?;
    *rest = &rest[length..];
    usize::try_from(value).ok()
}

/// What can be said for a reason, by rising term or line.
pub fn claims(problem: &Problem, reason: Reason) -> impl Iterator<Item = Entry> {
    let places = match reason {
        Reason::UnequalLine => problem.guard.lines.len(),
        _ => problem.types.len(),
    };
    (0..places).map(move |place| Entry::Closed { reason, place })
}

fn is_term(problem: &Problem, term: usize) -> bool {
    matches!(problem.types.get(term), Some(Some(_)))
}

/// The label of a term, if there is such a term of variant type.
pub fn label(problem: &Problem, closure: &Closure, term: usize) -> Option<Label> {
    let found = problem.variant_terms().any(|(other, _)| other == term);
    found.then(|| closure.label(term))
}

/// The variants that a node can be split on at a term: those of its label if
/// it has another one too.
pub fn splits(problem: &Problem, closure: &Closure, term: usize) -> Vec<usize> {
    let label = label(problem, closure, term).unwrap_or(0);
    let variants = (0..Label::BITS as usize).filter(|&variant| label & only(variant) != 0);
    variants.filter(|&variant| label != only(variant)).collect()
}

/// Does the class of the term hold two constants of different value?
fn has_unlike_constants(problem: &Problem, closure: &Closure, term: usize) -> bool {
    let constants = problem.constants.iter();
    let mut values = constants
        .filter(|constant| closure.equal(constant.term, term))
        .map(|constant| constant.value);
    let first = values.next();
    values.any(|value| Some(value) != first)
}

/// Is the class of the term a part of itself?
fn inside_itself(problem: &Problem, closure: &Closure, term: usize) -> bool {
    parts_within(problem, closure, term).contains(&closure.class(term))
}

/// The classes that are parts of the term's class through built rows, at any
/// depth.
pub fn parts_within(problem: &Problem, closure: &Closure, term: usize) -> Vec<usize> {
    let built = closure.built(problem);
    let parts = |class: usize| {
        let rows = built
            .iter()
            .filter(move |row| closure.class(row.term) == class);
        rows.flat_map(|row| row.parts.iter().map(|&part| closure.class(part)))
    };
    let mut within: Vec<usize> = parts(closure.class(term)).collect();
    let mut seen = 0;
    while let Some(&class) = within.get(seen) {
        for part in parts(class) {
            if !within.contains(&part) {
                within.push(part);
            }
        }
        seen += 1;
    }
    within
}

/// The decisions above a node; none behind the last node.
pub type Branch = Option<Vec<Decision>>;

/// The branch of the root.
pub const ROOT: Branch = Some(Vec::new());

/// The branch of the node that is visited after the one with these decisions:
/// the first child of a split, or the nearest second child that is left.
pub fn next(mut decisions: Vec<Decision>, entry: Entry) -> Branch {
    if let Entry::Split { term, variant } = entry {
        let is = true;
        decisions.push(Decision { term, variant, is });
        return Some(decisions);
    }
    while let Some(last) = decisions.pop() {
        if last.is {
            decisions.push(Decision { is: false, ..last });
            return Some(decisions);
        }
    }
    None
}

/// The entries of a search, "node by node in walk order", up to its end.
pub fn entries(guard: &Guard, budget: u32) -> (End, Vec<Entry>) {
    let problem = Problem::new(guard);
    let mut entries = Vec::new();
    let mut branch = ROOT;
    while let Some(decisions) = branch {
        if entries.len() as u64 == u64::from(budget) {
            return (End::Spent, entries);
        }
        let closure = Closure::new(&problem, &decisions);
        let Some(entry) = Entry::of_search(&problem, &closure) else {
            return (End::Open, entries);
        };
        entries.push(entry);
        branch = next(decisions, entry);
    }
    (End::Closed, entries)
}

/// The splits among entries of a search, by kind: a variant that a field is
/// read of has fields, and a second-kind split is on one that has none.
pub fn splits_in(guard: &Guard, entries: &[Entry]) -> Splits {
    let types = Problem::new(guard).types;
    let mut splits = Splits::default();
    for entry in entries {
        if let Entry::Split { term, variant } = *entry {
            let ty = types[term].expect("a split is on a term");
            match guard.fields(ty, variant) {
                [] => splits.second += 1,
                _ => splits.first += 1,
            }
        }
    }
    splits
}

pub fn bytes(entries: &[Entry]) -> Vec<u8> {
    entries.iter().flat_map(|entry| entry.bytes()).collect()
}

/// The record of a guard that is UNSAT within the budget.
pub fn record(guard: &Guard, budget: u32) -> Option<Vec<u8>> {
    let (end, entries) = entries(guard, budget);
    (end == End::Closed).then(|| bytes(&entries))
}

/// Why the checker refuses.
#[derive(Clone, Copy, Debug, PartialEq, Eq)]
pub enum Refusal {
    /// A question about the guard file.
    File(Question),
    /// A node "is cut short, isn't one of these in well-formed numbers, or
    /// claims what doesn't hold".
    Node,
    /// The record "ends between nodes before its last branch closes, or runs
    /// on after it".
    End,
}

impl Refusal {
    pub fn number(self) -> u8 {
        match self {
            Refusal::File(question) => question.number(),
            Refusal::Node => 12,
            Refusal::End => 13,
        }
    }
}

/// "A checker asks 2 to 10 of the file, then reads the record against it."
pub fn check(file: &[u8], record: &[u8], limits: Limits) -> Result<(), Refusal> {
    let guard = read::read(file, limits).map_err(Refusal::File)?;
    let problem = Problem::new(&guard);
    let mut rest = record;
    let mut branch = ROOT;
    while let Some(decisions) = branch {
        if rest.is_empty() {
            return Err(Refusal::End);
        }
        let entry = Entry::take(&mut rest).ok_or(Refusal::Node)?;
        let closure = Closure::new(&problem, &decisions);
        if !entry.holds(&problem, &closure) {
            return Err(Refusal::Node);
        }
        branch = next(decisions, entry);
    }
    if rest.is_empty() {
        Ok(())
    } else {
        Err(Refusal::End)
    }
}
