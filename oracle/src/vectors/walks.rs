//! Long searches, and budgets around their node counts.

use super::{families, profiles, Set, USUAL_BUDGET};
use crate::answer::{answer, Answer};
use crate::encode::Draft;
use crate::guard::Limits;
use crate::random::{self, Random};

pub fn add(set: &mut Set) {
    budgets(set, "budget-colours-5-4", &families::colouring(5, 4));
    budgets(set, "budget-colours-3-3", &families::colouring(3, 3));
    budgets(
        set,
        "budget-read-colours-3-2",
        &families::read_colouring(3, 2),
    );
    budgets(
        set,
        "budget-siblings-4-3",
        &families::sibling_pigeons(4, 3, 1, true),
    );
    budgets(set, "budget-lists", &lists(6));
    budgets(set, "budget-walk-colours-6-5", &families::colouring(6, 5));
    budgets(set, "budget-walk-lists", &lists(9));
    budgets(
        set,
        "budget-walk-read-colours",
        &families::read_colouring(5, 4),
    );
    budgets(
        set,
        "budget-walk-siblings",
        &families::sibling_pigeons(5, 4, 1, true),
    );
    set.draft("walk-colours-7-6", &families::colouring(7, 6));
    set.draft("walk-colours-8-7", &families::colouring(8, 7));
    set.add(
        "walk-colours-8-7-spent",
        5_000,
        &families::colouring(8, 7).bytes(),
    );
    set.draft("walk-late-pigeons-15", &late_pigeons(15));
    set.draft("walk-late-pigeons-17-spent", &late_pigeons(17));
    set.draft(
        "walk-siblings-6-5",
        &families::sibling_pigeons(6, 5, 1, true),
    );
    set.draft(
        "walk-siblings-5-2-2",
        &families::sibling_pigeons(5, 2, 2, true),
    );
    set.draft("walk-read-colours-6-5", &families::read_colouring(6, 5));
    random_walks(set);
}

/// Heads of unrelated lists, each splitting once, before a contradiction: x is
/// its own tail, so it is nil and its head is 0, not 1.
fn lists(many: usize) -> Draft {
    let mut draft = Draft::new(families::LISTS);
    let lists = draft.variables(1, many);
    for &list in &lists {
        draft.read(list, 1, 0);
    }
    let x = draft.variable(1);
    let tail = draft.read(x, 1, 1);
    draft.equal(tail, x);
    let head = draft.read(x, 1, 0);
    let one = draft.constant(0, 1);
    draft.equal(head, one);
    draft
}

/// Unrelated terms of an enumeration before three that are one too many: the
/// contradiction is found anew for each choice of the others.
fn late_pigeons(others: usize) -> Draft {
    let mut draft = Draft::with_types(vec![families::enumeration(2), families::enumeration(2)]);
    draft.variables(0, others);
    let pigeons = draft.variables(1, 3);
    draft.all_unequal(&pigeons);
    draft
}

/// The node count of an accepted file.
pub fn node_count(name: &str, file: &[u8]) -> u32 {
    match answer(file, u32::MAX, Limits::BASE) {
        Answer::Sat { nodes, .. } | Answer::Unsat { nodes, .. } => nodes,
        other => panic!("{name} has no node count: {other}"),
    }
}

/// A draft with budgets at, below and above its node count, and at the ends.
fn budgets(set: &mut Set, name: &str, draft: &Draft) {
    let file = draft.bytes();
    let count = node_count(name, &file);
    let budgets = [
        ("zero", 0),
        ("one", 1),
        ("below", count - 1),
        ("at", count),
        ("above", count.saturating_add(1)),
        ("most", u32::MAX),
    ];
    for (kind, budget) in budgets {
        set.add(format!("{name}-{kind}"), budget, &file);
    }
}

/// Random guards with long searches. SAT ones are rare in some profiles.
fn random_walks(set: &mut Set) {
    const LEAST: u32 = 1_000;
    const MOST: u32 = 20_000;
    const EACH: usize = 5;
    for profile in profiles::long() {
        let mut random = Random::named(profile.name);
        let (mut sat, mut unsat) = (0, 0);
        for _ in 0..500 {
            let file = random::draft(&mut random, &profile).bytes();
            let (kind, kept, nodes) = match answer(&file, MOST, Limits::BASE) {
                Answer::Sat { nodes, .. } => ("sat", &mut sat, nodes),
                Answer::Unsat { nodes, .. } => ("unsat", &mut unsat, nodes),
                Answer::Refused(_) | Answer::Spent { .. } => continue,
            };
            if nodes > LEAST && *kept < EACH {
                let name = format!("walk-{}-{kind}-{kept}", profile.name);
                set.add(name, USUAL_BUDGET, &file);
                *kept += 1;
            }
        }
    }
}
