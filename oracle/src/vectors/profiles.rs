//! Random guards of many profiles.

use super::{families, Set, USUAL_BUDGET};
use crate::answer::{answer, Answer};
use crate::encode::Draft;
use crate::guard::Limits;
use crate::random::{self, Profile, Random, Types};
use crate::types::Type;

/// Vectors of each profile.
const EACH: usize = 60;
/// Longer searches have their own family.
const MOST_NODES: u32 = 600;

fn given(types: &[&[&[usize]]]) -> Types {
    let ty = |variants: &&[&[usize]]| Type {
        variants: variants.iter().map(|fields| fields.to_vec()).collect(),
    };
    Types::Given(types.iter().map(ty).collect())
}

/// Numbers, two colours, and records of both.
fn records() -> Types {
    given(&[&[], &[&[], &[]], &[&[], &[0, 1], &[1, 2, 1], &[0]]])
}

fn base(name: &'static str, types: Types) -> Profile {
    Profile {
        name,
        types,
        rows: 3..=9,
        lines: 2..=9,
        row_kinds: [4, 1, 3, 5],
        line_kinds: [4, 4, 1, 2],
        deep: 30,
        values: vec![0, 0, 1, -1, i64::from(i32::MIN), i64::from(i32::MAX)],
    }
}

/// The profiles of the random vectors.
pub fn all() -> Vec<Profile> {
    let made = Types::Made {
        types: 1..=3,
        numbers: 25,
        enumerations: 25,
        variants: 1..=3,
        fields: [4, 3, 3, 1],
    };
    let many_types = Types::Made {
        types: 3..=6,
        numbers: 15,
        enumerations: 15,
        variants: 1..=5,
        fields: [4, 3, 3, 2],
    };
    let numbers = Types::Made {
        types: 3..=5,
        numbers: 55,
        enumerations: 0,
        variants: 1..=2,
        fields: [1, 2, 2, 1],
    };
    vec![
        base("small", made.clone()),
        Profile {
            rows: 2..=4,
            lines: 4..=12,
            line_kinds: [2, 5, 1, 3],
            ..base("crowded", made)
        },
        base("lists", given(families::LISTS)),
        Profile {
            row_kinds: [2, 0, 3, 6],
            ..base("trees", given(families::TREES))
        },
        Profile {
            row_kinds: [3, 0, 0, 0],
            line_kinds: [1, 12, 0, 3],
            rows: 4..=8,
            lines: 6..=16,
            ..base("enumeration", given(&[&[&[], &[], &[]]]))
        },
        Profile {
            row_kinds: [3, 1, 2, 6],
            line_kinds: [5, 6, 1, 2],
            ..base("siblings", records())
        },
        Profile {
            row_kinds: [1, 0, 0, 12],
            line_kinds: [5, 3, 1, 3],
            rows: 6..=20,
            lines: 1..=6,
            deep: 80,
            ..base("chains", given(&[&[&[], &[0, 1], &[1]], &[&[], &[0]]]))
        },
        Profile {
            row_kinds: [3, 1, 6, 6],
            rows: 6..=14,
            lines: 3..=8,
            ..base("built", given(&[&[], &[&[], &[0, 1], &[1, 1]], &[&[1, 0]]]))
        },
        Profile {
            row_kinds: [3, 4, 3, 4],
            line_kinds: [5, 4, 1, 1],
            ..base("numbers", numbers)
        },
        Profile {
            row_kinds: [2, 3, 2, 6],
            line_kinds: [6, 2, 1, 1],
            values: vec![0, 0, 0, 1, -1],
            ..base("constants", given(&[&[], &[&[0, 1], &[0], &[]]]))
        },
        Profile {
            rows: 4..=12,
            lines: 3..=12,
            ..base("types", many_types.clone())
        },
        Profile {
            rows: 24..=24,
            lines: 32..=32,
            row_kinds: [8, 2, 3, 5],
            line_kinds: [3, 12, 1, 4],
            ..base("wide", many_types)
        },
        Profile {
            rows: 24..=24,
            lines: 32..=32,
            row_kinds: [6, 0, 3, 4],
            line_kinds: [2, 10, 1, 12],
            deep: 15,
            ..base("full", Types::Most)
        },
    ]
}

/// Profiles whose searches are often long.
pub fn long() -> Vec<Profile> {
    let pairs = given(&[&[&[], &[]], &[&[0, 1], &[], &[1, 0, 0]]]);
    let colours = |name, types: Types, rows| Profile {
        rows,
        lines: 24..=32,
        row_kinds: [1, 0, 0, 0],
        line_kinds: [0, 1, 0, 0],
        ..base(name, types)
    };
    vec![
        Profile {
            rows: 18..=24,
            lines: 14..=24,
            row_kinds: [2, 1, 0, 6],
            line_kinds: [1, 20, 0, 1],
            deep: 0,
            ..base("records", records())
        },
        Profile {
            rows: 14..=24,
            lines: 10..=24,
            row_kinds: [4, 0, 1, 10],
            line_kinds: [0, 8, 0, 1],
            deep: 0,
            ..base("pairs", pairs)
        },
        colours("colours-3", given(&[&[&[], &[], &[]]]), 9..=12),
        colours("colours-4", given(&[&[&[], &[], &[], &[]]]), 9..=11),
    ]
}

/// Which kind of answer a guard has; each gets its share.
fn class(answer: Answer) -> Option<usize> {
    match answer {
        Answer::Sat { nodes: 1, .. } => Some(0),
        Answer::Unsat { nodes: 1, .. } => Some(1),
        Answer::Sat { .. } => Some(2),
        Answer::Unsat { .. } => Some(3),
        Answer::Refused(_) | Answer::Spent { .. } => None,
    }
}

pub(super) fn add(set: &mut Set) {
    for profile in all() {
        let name = format!("random-{}", profile.name);
        fill(set, &name, &profile, |_| true);
    }
}

/// Fitting guards of a profile, some for each kind of answer.
pub(super) fn fill(set: &mut Set, name: &str, profile: &Profile, fits: impl Fn(&Draft) -> bool) {
    let mut random = Random::named(profile.name);
    let mut left = [EACH / 6, EACH / 6, EACH / 3, EACH / 3];
    let mut kept = 0;
    // Some profiles lack some kind of answer.
    for _ in 0..3_000 {
        let draft = random::draft(&mut random, profile);
        if !fits(&draft) {
            continue;
        }
        let file = draft.bytes();
        let Some(class) = class(answer(&file, MOST_NODES, Limits::BASE)) else {
            continue;
        };
        if left[class] > 0 {
            left[class] -= 1;
            set.add(format!("{name}-{kept:03}"), USUAL_BUDGET, &file);
            kept += 1;
        }
        if left == [0; 4] {
            break;
        }
    }
}
