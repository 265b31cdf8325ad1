//! Request #105: searches with splits of either kind and of both, with every
//! budget from 0 to one above the node count.

use super::{cases, families, walks, Set};
use crate::encode::Draft;

/// What the names of these vectors begin with.
pub const PREFIX: &str = "splits-";

pub fn add(set: &mut Set) {
    for (name, letter) in [("first", "c"), ("second", "h")] {
        let (file, _) = cases::case(letter).expect("a case");
        every_budget(set, name, &file);
    }
    for (name, draft) in [
        ("turns", turns(2)),
        ("read-colours-2-2", families::read_colouring(2, 2)),
        ("read-colours-3-2", families::read_colouring(3, 2)),
        ("siblings-3-2", families::sibling_pigeons(3, 2, 1, true)),
    ] {
        every_budget(set, name, &draft.bytes());
    }
}

/// Heads of unrelated lists, and a flag that is neither of its two values: the
/// flag is split on anew for each choice about the lists, so the kinds come in
/// turns.
fn turns(lists: usize) -> Draft {
    let types = [
        Draft::new(families::LISTS).types,
        vec![families::enumeration(2)],
    ];
    let mut draft = Draft::with_types(types.concat());
    for list in draft.variables(1, lists) {
        draft.read(list, 1, 0);
    }
    let flag = draft.variable(2);
    for variant in 0..2 {
        let value = draft.built(2, variant, &[]);
        draft.unequal(flag, value);
    }
    draft
}

fn every_budget(set: &mut Set, name: &str, file: &[u8]) {
    let name = format!("{PREFIX}{name}");
    for budget in 0..=walks::node_count(&name, file) + 1 {
        set.add(format!("{name}-{budget:02}"), budget, file);
    }
}
