//! Records that are refused.

use super::source::{Node, Source};
use crate::guard::Line;
use crate::number;
use crate::problem::{only, Label, Problem};
use crate::random::Random;
use crate::record::{claims, label, parts_within, Entry, SPLIT};
use crate::search::Reason;
use crate::vectors::broken::wrong_form;

/// A node by chance, and its entry in bytes: one for each number, as all of
/// them are below 128.
fn node(random: &mut Random, source: &Source) -> (usize, Vec<u8>) {
    let node = random.below(source.nodes.len());
    (node, source.nodes[node].entry.bytes())
}

/// Cut within a number, of which bytes with bit 80 are there.
pub fn cut_number(random: &mut Random, source: &Source) -> Option<Vec<u8>> {
    let (node, entry) = node(random, source);
    let at = random.below(entry.len());
    let mut record = source.before(node);
    record.extend(&entry[..at]);
    for _ in 0..=random.below(4) {
        record.push(0x80 | random.bits() as u8);
    }
    Some(record)
}

/// Cut between two numbers of one node.
pub fn cut_entry(random: &mut Random, source: &Source) -> Option<Vec<u8>> {
    let (node, entry) = node(random, source);
    let keep = 1 + random.below(entry.len() - 1);
    Some([&source.before(node), &entry[..keep]].concat())
}

/// Cut between two nodes, or before the first.
pub fn cut_between(random: &mut Random, source: &Source) -> Option<Vec<u8>> {
    Some(source.before(random.below(source.nodes.len())))
}

/// Goes on after its last branch: with any bytes, or with a node.
pub fn longer(random: &mut Random, source: &Source) -> Option<Vec<u8>> {
    let mut record = source.record();
    if random.percent(30) {
        let (_, entry) = node(random, source);
        record.extend(entry);
    } else {
        for _ in 0..=random.below(3) {
            record.push(random.bits() as u8);
        }
    }
    Some(record)
}

/// A kind above 4.
pub fn no_kind(random: &mut Random, source: &Source) -> Option<Vec<u8>> {
    let (node, entry) = node(random, source);
    let beyond = match random.below(3) {
        0 => random.below(3),
        1 => random.below(0x100),
        _ => random.below(u32::MAX as usize - SPLIT),
    };
    let mut bytes = Vec::new();
    number::write((SPLIT + 1 + beyond) as u64, &mut bytes);
    bytes.extend(&entry[1..]);
    Some(source.with(node, &bytes))
}

/// A number in too many bytes, or in another wrong form.
pub fn spelling(random: &mut Random, source: &Source) -> Option<Vec<u8>> {
    let (node, entry) = node(random, source);
    let at = random.below(entry.len());
    let number = if random.percent(25) {
        // The right one, and 2^32.
        vec![0x80 | entry[at], 0x80, 0x80, 0x80, 0x10]
    } else {
        wrong_form(random, &entry[at..=at])
    };
    let bytes = [&entry[..at], &number, &entry[at + 1..]].concat();
    Some(source.with(node, &bytes))
}

/// The record with one of these entries in the place of a node.
fn replaced(
    random: &mut Random,
    source: &Source,
    others: impl Fn(&Problem, &Node) -> Vec<Entry>,
) -> Option<Vec<u8>> {
    let node = random.below(source.nodes.len());
    let problem = Problem::new(&source.guard);
    let entry = random.pick(&others(&problem, &source.nodes[node]))?;
    Some(source.with(node, &entry.bytes()))
}

/// The same reason about another term, where it doesn't hold.
pub fn other_term(random: &mut Random, source: &Source) -> Option<Vec<u8>> {
    replaced(random, source, |problem, node| match node.entry {
        Entry::Closed { reason, .. } if reason != Reason::UnequalLine => claims(problem, reason)
            .zip(&problem.types)
            .filter(|(claim, ty)| ty.is_some() && !claim.holds(problem, &node.closure))
            .map(|(claim, _)| claim)
            .collect(),
        _ => Vec::new(),
    })
}

/// A term that isn't inside itself, but has such a part.
pub fn around(random: &mut Random, source: &Source) -> Option<Vec<u8>> {
    replaced(random, source, |problem, node| {
        let claims: Vec<Entry> = claims(problem, Reason::Cycle).collect();
        let holds = |&term: &usize| claims[term].holds(problem, &node.closure);
        let has_such_a_part = |&term: &usize| {
            let parts = parts_within(problem, &node.closure, term);
            parts.iter().any(holds)
        };
        (0..claims.len())
            .filter(|term| !holds(term) && has_such_a_part(term))
            .map(|term| claims[term])
            .collect()
    })
}

/// All that can be said of a term but its label's variants.
fn about(term: usize) -> [Entry; 4] {
    let closed = |reason| Entry::Closed {
        reason,
        place: term,
    };
    [
        closed(Reason::EmptyLabel),
        closed(Reason::Constants),
        closed(Reason::Cycle),
        Entry::Split { term, variant: 0 },
    ]
}

/// A term that isn't there.
pub fn no_term(random: &mut Random, source: &Source) -> Option<Vec<u8>> {
    let beyond = random.below(0x100);
    replaced(random, source, |problem, _| {
        let numbers = problem.types.len();
        let missing = (0..numbers).filter(|&term| problem.types[term].is_none());
        let beyond = [numbers, numbers + beyond, u32::MAX as usize];
        missing.chain(beyond).flat_map(about).collect()
    })
}

/// A label of a number.
pub fn no_label(random: &mut Random, source: &Source) -> Option<Vec<u8>> {
    replaced(random, source, |problem, node| {
        let terms = (0..problem.types.len()).filter(|&term| problem.types[term].is_some());
        let numbers = terms.filter(|&term| label(problem, &node.closure, term).is_none());
        numbers
            .flat_map(|term| [about(term)[0], about(term)[3]])
            .collect()
    })
}

/// A line that isn't unequal, or whose terms aren't equal.
pub fn other_line(random: &mut Random, source: &Source) -> Option<Vec<u8>> {
    let unequal = random.percent(50);
    replaced(random, source, |problem, node| {
        claims(problem, Reason::UnequalLine)
            .zip(&problem.guard.lines)
            .filter(|(_, line)| unequal == matches!(line, Line::Unequal(..)))
            .map(|(claim, _)| claim)
            .filter(|claim| !claim.holds(problem, &node.closure))
            .collect()
    })
}

/// A line that isn't there.
pub fn no_line(random: &mut Random, source: &Source) -> Option<Vec<u8>> {
    let beyond = random.below(0x100);
    replaced(random, source, |problem, _| {
        let lines = problem.guard.lines.len();
        let beyond = [lines, lines + beyond, u32::MAX as usize];
        let reason = Reason::UnequalLine;
        let claim = |place| Entry::Closed { reason, place };
        beyond.map(claim).to_vec()
    })
}

/// The terms of variant type with their labels at a node.
fn labels<'p>(problem: &'p Problem, node: &'p Node) -> impl Iterator<Item = (usize, Label)> + 'p {
    let terms = problem.variant_terms();
    terms.map(|(term, _)| (term, node.closure.label(term)))
}

/// A split of a term that has one variant left, on that one.
pub fn one_variant(random: &mut Random, source: &Source) -> Option<Vec<u8>> {
    replaced(random, source, |problem, node| {
        let single = labels(problem, node).filter(|(_, label)| label.count_ones() == 1);
        let split = |(term, label): (usize, Label)| Entry::Split {
            term,
            variant: label.trailing_zeros() as usize,
        };
        single.map(split).collect()
    })
}

/// A split on a variant that the label lacks, or on a number that only the
/// lower bits make one of its variants.
pub fn no_variant(random: &mut Random, source: &Source) -> Option<Vec<u8>> {
    let bits = Label::BITS as usize;
    let beyond = random.percent(30);
    let multiple = [bits, 2 * bits, 4 * bits, 16 * bits][random.below(4)];
    replaced(random, source, |problem, node| {
        let several = labels(problem, node).filter(|(_, label)| label.count_ones() > 1);
        let variants = several.flat_map(|(term, label)| {
            let wanted = (0..bits).filter(move |&variant| {
                let held = label & only(variant) != 0;
                held == beyond
            });
            wanted.map(move |variant| (term, variant))
        });
        let split = |(term, variant)| Entry::Split {
            term,
            variant: if beyond { variant + multiple } else { variant },
        };
        variants.map(split).collect()
    })
}

/// The search of a guard that can hold, up to its open node.
pub fn open_node(_: &mut Random, source: &Source) -> Option<Vec<u8>> {
    Some(source.record())
}

/// The same, with a reason to close the open node: none holds.
pub fn open_node_claim(random: &mut Random, source: &Source) -> Option<Vec<u8>> {
    let problem = Problem::new(&source.guard);
    let reason = Reason::ALL[random.below(Reason::ALL.len())];
    let all: Vec<Entry> = claims(&problem, reason).collect();
    let claim = random.pick(&all)?;
    Some([source.record(), claim.bytes()].concat())
}
