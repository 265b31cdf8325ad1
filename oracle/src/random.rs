//! Random guards from fixed seeds.

use std::ops::RangeInclusive;

use crate::encode::Draft;
use crate::guard::{FIELDS, VARIANTS_IN_ALL};
use crate::types::{self, Type};

/// The splitmix64 generator: small, and the same everywhere.
#[derive(Clone, Debug)]
pub struct Random(u64);

impl Random {
    pub fn new(seed: u64) -> Random {
        Random(seed)
    }

    /// A generator for a named family of guards.
    pub fn named(name: &str) -> Random {
        let seed = name.bytes().fold(0xcbf2_9ce4_8422_2325u64, |seed, byte| {
            (seed ^ u64::from(byte)).wrapping_mul(0x0100_0000_01b3)
        });
        Random(seed)
    }

    pub fn bits(&mut self) -> u64 {
        self.0 = self.0.wrapping_add(0x9e37_79b9_7f4a_7c15);
        let mut z = self.0;
        z = (z ^ (z >> 30)).wrapping_mul(0xbf58_476d_1ce4_e5b9);
        z = (z ^ (z >> 27)).wrapping_mul(0x94d0_49bb_1331_11eb);
        z ^ (z >> 31)
    }

    /// A number below `bound`, which isn't 0.
    pub fn below(&mut self, bound: usize) -> usize {
        (self.bits() % bound as u64) as usize
    }

    pub fn within(&mut self, range: &RangeInclusive<usize>) -> usize {
        range.start() + self.below(range.end() - range.start() + 1)
    }

    pub fn percent(&mut self, chance: usize) -> bool {
        self.below(100) < chance
    }

    pub fn pick<T: Copy>(&mut self, items: &[T]) -> Option<T> {
        (!items.is_empty()).then(|| items[self.below(items.len())])
    }

    /// An index, as likely as its weight.
    pub fn weighted(&mut self, weights: &[usize]) -> usize {
        let mut left = self.below(weights.iter().sum());
        for (index, &weight) in weights.iter().enumerate() {
            if left < weight {
                return index;
            }
            left -= weight;
        }
        0
    }
}

/// A value for a constant of up to 32 bits, near the ends of each length that
/// it may have.
pub fn edge_value(random: &mut Random) -> i64 {
    let edge = 1 << [0, 6, 13, 20, 27, 31][random.below(6)];
    let near = edge + random.below(5) as i64 - 2;
    let signed = if random.percent(50) { near } else { -near };
    signed.clamp(i64::from(i32::MIN), i64::from(i32::MAX))
}

/// The same for a constant of up to 64 bits, and near those where its row's
/// two numbers change sign.
pub fn far_value(random: &mut Random) -> i64 {
    let edges = [31, 32, 33, 34, 41, 48, 55, 62, 63];
    let edge = 1i128 << edges[random.below(edges.len())];
    let near = edge + random.below(5) as i128 - 2;
    let signed = if random.percent(50) { near } else { -near };
    signed.clamp(i128::from(i64::MIN), i128::from(i64::MAX)) as i64
}

/// How the types of a random guard are made.
#[derive(Clone, Debug)]
pub enum Types {
    Given(Vec<Type>),
    Made {
        types: RangeInclusive<usize>,
        /// The chance that a type is a number type.
        numbers: usize,
        /// The chance that a type is an enumeration.
        enumerations: usize,
        variants: RangeInclusive<usize>,
        /// The chances of 0, 1, 2 and 3 fields.
        fields: [usize; FIELDS + 1],
    },
    /// Six types with 48 variants in all.
    Most,
}

/// How a random guard is made.
#[derive(Clone, Debug)]
pub struct Profile {
    pub name: &'static str,
    pub types: Types,
    pub rows: RangeInclusive<usize>,
    pub lines: RangeInclusive<usize>,
    /// The weights of variables, constants, built rows and reads.
    pub row_kinds: [usize; 4],
    /// The weights of equal, unequal, is and isn't.
    pub line_kinds: [usize; 4],
    /// The chance that a read or a built row uses the latest row it can.
    pub deep: usize,
    /// The values of constants.
    pub values: Vec<i64>,
}

/// A random guard that is accepted.
pub fn draft(random: &mut Random, profile: &Profile) -> Draft {
    let mut draft = Draft::with_types(make_types(random, &profile.types));
    if draft.types.is_empty() {
        return draft;
    }
    // Terms of few types meet more often.
    let favourite = random.below(draft.types.len());
    for _ in 0..random.within(&profile.rows) {
        add_row(random, profile, &mut draft, favourite);
    }
    if !draft.rows.is_empty() {
        for _ in 0..random.within(&profile.lines) {
            add_line(random, profile, &mut draft);
        }
    }
    draft
}

fn make_types(random: &mut Random, style: &Types) -> Vec<Type> {
    loop {
        let types = match style {
            Types::Given(types) => return types.clone(),
            Types::Most => most_types(random),
            Types::Made {
                types,
                numbers,
                enumerations,
                variants,
                fields,
            } => {
                let many = random.within(types);
                let make = |_| {
                    if random.percent(*numbers) {
                        return Type::default();
                    }
                    let flat = random.percent(*enumerations);
                    let size = random.within(variants);
                    let fields = if flat { &[1, 0, 0, 0] } else { fields };
                    make_type(random, many, size, fields)
                };
                (0..many).map(make).collect()
            }
        };
        let total: usize = types.iter().map(|ty| ty.variants.len()).sum();
        let ready = types::defaults(&types).iter().all(Option::is_some);
        if total <= VARIANTS_IN_ALL && ready && types::fields_can_grow(&types) {
            return types;
        }
    }
}

fn make_type(random: &mut Random, types: usize, size: usize, fields: &[usize; 4]) -> Type {
    let mut variant = |_| {
        let many = random.weighted(fields);
        (0..many).map(|_| random.below(types)).collect()
    };
    Type {
        variants: (0..size).map(&mut variant).collect(),
    }
}

fn most_types(random: &mut Random) -> Vec<Type> {
    let mut sizes = [8; 6];
    for _ in 0..random.below(8) {
        let (from, to) = (random.below(6), random.below(6));
        if sizes[from] > 1 && sizes[to] < 16 {
            sizes[from] -= 1;
            sizes[to] += 1;
        }
    }
    let mut make = |&size: &usize| {
        let flat = random.percent(25);
        let fields = if flat { &[1, 0, 0, 0] } else { &[2, 1, 1, 2] };
        make_type(random, 6, size, fields)
    };
    sizes.iter().map(&mut make).collect()
}

fn add_row(random: &mut Random, profile: &Profile, draft: &mut Draft, favourite: usize) {
    let added = match random.weighted(&profile.row_kinds) {
        1 => add_constant(random, profile, draft),
        2 => add_built(random, profile, draft),
        3 => add_read(random, profile, draft),
        _ => None,
    };
    if added.is_none() {
        let other = random.below(draft.types.len());
        draft.variable(if random.percent(70) { favourite } else { other });
    }
}

fn add_constant(random: &mut Random, profile: &Profile, draft: &mut Draft) -> Option<usize> {
    let types: Vec<usize> = (0..draft.types.len())
        .filter(|&t| draft.types[t].is_number())
        .collect();
    let ty = random.pick(&types)?;
    let value = random.pick(&profile.values)?;
    Some(draft.constant(ty, value))
}

fn add_built(random: &mut Random, profile: &Profile, draft: &mut Draft) -> Option<usize> {
    for _ in 0..8 {
        let ty = random.below(draft.types.len());
        let variants = draft.types[ty].variants.len();
        if variants == 0 {
            continue;
        }
        let variant = random.below(variants);
        let fields = draft.types[ty].variants[variant].clone();
        let parts: Option<Vec<usize>> = fields
            .iter()
            .map(|&field| {
                let fitting = |&row: &usize| draft.row_types[row] == field;
                let rows: Vec<usize> = (0..draft.rows.len()).filter(fitting).collect();
                pick_row(random, profile, &rows)
            })
            .collect();
        if let Some(parts) = parts {
            return Some(draft.built(ty, variant, &parts));
        }
    }
    None
}

fn add_read(random: &mut Random, profile: &Profile, draft: &mut Draft) -> Option<usize> {
    let with_fields = |row: usize| {
        let variants = draft.types[draft.row_types[row]]
            .variants
            .iter()
            .enumerate();
        variants
            .filter(|(_, fields)| !fields.is_empty())
            .map(|(v, fields)| (v, fields.len()))
    };
    let readable = |&row: &usize| with_fields(row).next().is_some();
    let rows: Vec<usize> = (0..draft.rows.len()).filter(readable).collect();
    let term = pick_row(random, profile, &rows)?;
    let variants: Vec<(usize, usize)> = with_fields(term).collect();
    let (variant, fields) = random.pick(&variants)?;
    let position = random.below(fields);
    Some(draft.read(term, variant, position))
}

fn pick_row(random: &mut Random, profile: &Profile, rows: &[usize]) -> Option<usize> {
    if random.percent(profile.deep) {
        rows.last().copied()
    } else {
        random.pick(rows)
    }
}

fn add_line(random: &mut Random, profile: &Profile, draft: &mut Draft) {
    let kind = random.weighted(&profile.line_kinds);
    let a = random.below(draft.rows.len());
    let ty = draft.row_types[a];
    let variants = draft.types[ty].variants.len();
    if kind < 2 || variants == 0 {
        let alike = |&b: &usize| b != a && draft.row_types[b] == ty;
        let others: Vec<usize> = (0..draft.rows.len()).filter(alike).collect();
        let b = random.pick(&others).unwrap_or(a);
        // A term unequal to itself says too little, too often.
        if kind == 0 || a == b {
            draft.equal(a, b);
        } else {
            draft.unequal(a, b);
        }
    } else {
        let variant = random.below(variants);
        if kind == 2 {
            draft.is(a, variant);
        } else {
            draft.isnt(a, variant);
        }
    }
}
