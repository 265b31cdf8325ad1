//! Records that aren't those of the search: right ones, and changes whose
//! answers come from the checker alone.

use super::source::{Source, MOST_NODES};
use crate::closure::Closure;
use crate::problem::Problem;
use crate::random::Random;
use crate::record::{self, Entry};
use crate::search::Reason;
use crate::vectors::broken;

/// All that closes a node.
fn reasons(problem: &Problem, closure: &Closure) -> Vec<Entry> {
    let all = Reason::ALL.into_iter();
    all.flat_map(|reason| record::claims(problem, reason))
        .filter(|claim| claim.holds(problem, closure))
        .collect()
}

/// All splits that are accepted at a node.
fn splits(problem: &Problem, closure: &Closure) -> Vec<Entry> {
    let of_term = |term| {
        let variants = record::splits(problem, closure, term).into_iter();
        variants.map(move |variant| Entry::Split { term, variant })
    };
    (0..problem.types.len()).flat_map(of_term).collect()
}

/// A node is closed for another reason, or by another term or line.
pub fn other_claim(random: &mut Random, source: &Source) -> Option<Vec<u8>> {
    let at = random.below(source.nodes.len());
    let node = &source.nodes[at];
    let mut claims = reasons(&Problem::new(&source.guard), &node.closure);
    claims.retain(|claim| *claim != node.entry);
    let claim = random.pick(&claims)?;
    Some(source.with(at, &claim.bytes()))
}

/// Any splits in any order, and any reasons.
pub fn other_order(random: &mut Random, source: &Source) -> Option<Vec<u8>> {
    let problem = Problem::new(&source.guard);
    let mut entries = Vec::new();
    let mut branch = record::ROOT;
    while let Some(decisions) = branch {
        if entries.len() == MOST_NODES as usize {
            return None;
        }
        let closure = Closure::new(&problem, &decisions);
        let mut choices = reasons(&problem, &closure);
        if choices.is_empty() {
            choices = splits(&problem, &closure);
        }
        let entry = random.pick(&choices)?;
        entries.push(entry);
        branch = record::next(decisions, entry);
    }
    let other = split_entries(&entries) != split_entries(&source.entries());
    other.then(|| record::bytes(&entries))
}

fn split_entries(entries: &[Entry]) -> Vec<Entry> {
    let entries = entries.iter().copied();
    entries
        .filter(|entry| matches!(entry, Entry::Split { .. }))
        .collect()
}

/// A closed node is split; what closes it closes both children too.
pub fn split_anyway(random: &mut Random, source: &Source) -> Option<Vec<u8>> {
    let at = random.below(source.nodes.len());
    let node = &source.nodes[at];
    if matches!(node.entry, Entry::Split { .. }) {
        return None;
    }
    let splits = splits(&Problem::new(&source.guard), &node.closure);
    let split = random.pick(&splits)?;
    let bytes = record::bytes(&[split, node.entry, node.entry]);
    Some(source.with(at, &bytes))
}

/// The two children of a split are exchanged.
pub fn swapped(random: &mut Random, source: &Source) -> Option<Vec<u8>> {
    let entries = source.entries();
    let at = random.below(entries.len());
    let Entry::Split { .. } = entries[at] else {
        return None;
    };
    let (front, rest) = entries.split_at(at + 1);
    let (is, rest) = rest.split_at(subtree(rest));
    let (isnt, rest) = rest.split_at(subtree(rest));
    let swapped = [front, isnt, is, rest].concat();
    (swapped != entries).then(|| record::bytes(&swapped))
}

/// How many entries the node at the front has, with all below it.
fn subtree(entries: &[Entry]) -> usize {
    let mut branch = record::ROOT;
    let mut count = 0;
    while let Some(decisions) = branch {
        branch = record::next(decisions, entries[count]);
        count += 1;
    }
    count
}

/// One byte changed, dropped or put in.
pub fn chance(random: &mut Random, source: &Source) -> Option<Vec<u8>> {
    let mut record = source.record();
    broken::change_byte(random, &mut record);
    Some(record)
}
