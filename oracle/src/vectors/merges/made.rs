//! Pairs of guards that can be merged, or can't for one reason.

use super::{Answer, Pair};
use crate::encode::Draft;
use crate::guard::{Guard, Limits, Line, Row};
use crate::list::LONGEST_FILE;
use crate::random::{draft, far_value, Profile, Random, Types};
use crate::read::read;
use crate::types::Type;
use crate::vectors::broken;
use crate::vectors::profiles;
use crate::vectors::written::{one_of, Source};

pub fn same(random: &mut Random, sources: &[Source]) -> Option<Pair> {
    let source = one_of(random, sources)?;
    Some(Pair::new(&source.file, &source.file))
}

/// Two vectors with the same types that have variables.
pub fn vectors(random: &mut Random, sources: &[Source]) -> Option<Pair> {
    let source = one_of(random, sources).filter(|source| has_variables(&source.guard.rows))?;
    let alike = |other: &&Source| {
        other.guard.types == source.guard.types && has_variables(&other.guard.rows)
    };
    let alike: Vec<&Source> = sources.iter().filter(alike).collect();
    let other = random.pick(&alike)?;
    (other.file != source.file).then(|| Pair::new(&source.file, &other.file))
}

fn has_variables(rows: &[Row]) -> bool {
    rows.iter().any(|row| matches!(row, Row::Variable { .. }))
}

/// A profile whose guards have these types.
fn profile(random: &mut Random, types: &[Type]) -> Profile {
    let profiles = profiles::all();
    Profile {
        types: Types::Given(types.to_vec()),
        ..profiles[random.below(profiles.len())].clone()
    }
}

/// A random guard with these types, mostly a small one.
pub fn with_types(random: &mut Random, types: &[Type]) -> Draft {
    let profile = profile(random, types);
    if random.percent(10) {
        return draft(random, &profile);
    }
    let small = Profile {
        rows: 0..=8,
        lines: 0..=8,
        ..profile
    };
    draft(random, &small)
}

/// Two files in any order.
fn shuffled(random: &mut Random, a: &[u8], b: &[u8]) -> Pair {
    match random.percent(50) {
        true => Pair::new(a, b),
        false => Pair::new(b, a),
    }
}

/// A vector and a random guard.
pub fn made(random: &mut Random, sources: &[Source]) -> Option<Pair> {
    let source = one_of(random, sources)?;
    let made = with_types(random, &source.guard.types).bytes();
    Some(shuffled(random, &source.file, &made))
}

/// The guard with lines left out.
pub fn thinned(random: &mut Random, guard: &Guard) -> Draft {
    let mut draft = Draft::of(guard);
    let chance = random.below(100);
    draft.lines.retain(|_| random.percent(chance));
    draft
}

pub fn thinned_pair(random: &mut Random, sources: &[Source]) -> Option<Pair> {
    let source = one_of(random, sources)?;
    let thinned = thinned(random, &source.guard).bytes();
    Some(shuffled(random, &source.file, &thinned))
}

/// Two random guards of one profile, changed, with the types of a vector.
fn both(
    random: &mut Random,
    sources: &[Source],
    change: impl Fn(&mut Random, Profile) -> Profile,
) -> Option<Pair> {
    let types = &one_of(random, sources)?.guard.types;
    let profile = profile(random, types);
    let profile = change(random, profile);
    let [first, second] = [(); 2].map(|()| draft(random, &profile).bytes());
    Some(Pair::new(&first, &second))
}

/// Constants beyond 32 bits in both guards.
pub fn far(random: &mut Random, sources: &[Source]) -> Option<Pair> {
    let pair = both(random, sources, |random, profile| Profile {
        rows: 1..=9,
        lines: 0..=9,
        row_kinds: [2, 6, 1, 1],
        values: (0..4).map(|_| far_value(random)).collect(),
        ..profile
    })?;
    let far = |file: &[u8]| {
        let guard = read(file, Limits::BASE).ok();
        guard.is_some_and(|guard| crate::vectors::far::is_far(&guard.rows))
    };
    (far(&pair.first) && far(&pair.second)).then_some(pair)
}

pub fn other_types(random: &mut Random, sources: &[Source]) -> Option<Pair> {
    let (a, b) = (one_of(random, sources)?, one_of(random, sources)?);
    (a.guard.types != b.guard.types).then(|| Pair::new(&a.file, &b.file))
}

/// A vector, and a random guard with its types but for one byte or two.
pub fn near_types(random: &mut Random, sources: &[Source]) -> Option<Pair> {
    let source = one_of(random, sources)?;
    let mut types = source.guard.types.clone();
    let ty = random.below(types.len().max(1));
    let many = types.len();
    let variants = &mut types.get_mut(ty)?.variants;
    match random.below(4) {
        0 => variants.push(vec![]),
        1 => {
            variants.pop();
        }
        2 => variants.reverse(),
        _ => {
            let fields: Vec<&mut usize> = variants.iter_mut().flatten().collect();
            for field in fields {
                *field = (*field + random.below(2)) % many;
            }
        }
    }
    let alone = Draft::with_types(types.clone()).bytes();
    if types == source.guard.types || read(&alone, Limits::BASE).is_err() {
        return None;
    }
    let other = with_types(random, &types).bytes();
    Some(shuffled(random, &source.file, &other))
}

/// Many variables of all types.
pub fn other_variables(random: &mut Random, sources: &[Source]) -> Option<Pair> {
    both(random, sources, |_, profile| Profile {
        rows: 2..=8,
        lines: 0..=6,
        row_kinds: [3, 1, 1, 1],
        ..profile
    })
}

pub fn many_rows(random: &mut Random, sources: &[Source]) -> Option<Pair> {
    both(random, sources, |_, profile| Profile {
        rows: 12..=24,
        lines: 0..=4,
        row_kinds: [1, 3, 3, 3],
        ..profile
    })
}

pub fn many_lines(random: &mut Random, sources: &[Source]) -> Option<Pair> {
    both(random, sources, |_, profile| Profile {
        rows: 2..=5,
        lines: 14..=22,
        ..profile
    })
}

/// Two guards with the same types, one of them with a byte changed, dropped or
/// put in.
pub fn chance(random: &mut Random, sources: &[Source]) -> Option<Pair> {
    let mut pair = made(random, sources)?;
    let file = match random.percent(50) {
        true => &mut pair.first,
        false => &mut pair.second,
    };
    broken::change_byte(random, file);
    Some(pair)
}

/// Makes a pair from a vector whose merged file is known without merging.
pub type Settles = fn(&mut Random, &Source) -> Option<(Pair, Vec<u8>)>;

/// A guard, and one without rows and lines.
pub fn empty(random: &mut Random, source: &Source) -> Option<(Pair, Vec<u8>)> {
    let empty = Draft::with_types(source.guard.types.clone()).bytes();
    let pair = shuffled(random, &source.file, &empty);
    Some((pair, source.file.clone()))
}

/// The two parts of a guard's rows.
pub fn halves(random: &mut Random, source: &Source) -> Option<(Pair, Vec<u8>)> {
    let rows = source.guard.rows.len();
    halves_at(source, 1 + random.below(rows.max(1)))
}

/// The rows before this one, the rows from it on, and the lines about either
/// alone; with all of these lines the whole. The later rows may name none before
/// them, and only one of the halves may have variables.
pub fn halves_at(source: &Source, at: usize) -> Option<(Pair, Vec<u8>)> {
    let guard = &source.guard;
    let mut first = Draft::with_types(guard.types.clone());
    let (mut second, mut whole) = (first.clone(), Draft::of(guard));
    whole.lines.clear();
    for (row, (what, &ty)) in guard.rows.iter().zip(&guard.row_types).enumerate() {
        match row < at {
            true => first.push(what.clone(), ty),
            false => second.push(from_row(what, at)?, ty),
        };
    }
    if has_variables(&first.rows) && has_variables(&second.rows) {
        return None;
    }
    for &line in &guard.lines {
        let terms = terms(line);
        if terms.iter().all(|&term| term < at) {
            first.lines.push(line);
            whole.lines.push(line);
        }
    }
    for &line in &guard.lines {
        if let Some(moved) = line_from_row(line, at) {
            second.lines.push(moved);
            whole.lines.push(line);
        }
    }
    let pair = Pair::new(&first.bytes(), &second.bytes());
    Some((pair, whole.bytes()))
}

fn terms(line: Line) -> Vec<usize> {
    match line {
        Line::Equal(a, b) | Line::Unequal(a, b) => vec![a, b],
        Line::Is(term, _) | Line::Isnt(term, _) => vec![term],
    }
}

/// The row where row `at` is the first, if it names none before that.
fn from_row(row: &Row, at: usize) -> Option<Row> {
    let mut row = row.clone();
    match &mut row {
        Row::Variable { .. } | Row::Constant { .. } => {}
        Row::Built { parts, .. } => {
            for part in parts {
                *part = part.checked_sub(at)?;
            }
        }
        Row::Read { term, .. } => *term = term.checked_sub(at)?,
    }
    Some(row)
}

fn line_from_row(line: Line, at: usize) -> Option<Line> {
    let moved = |term: usize| term.checked_sub(at);
    Some(match line {
        Line::Equal(a, b) => Line::Equal(moved(a)?, moved(b)?),
        Line::Unequal(a, b) => Line::Unequal(moved(a)?, moved(b)?),
        Line::Is(term, variant) => Line::Is(moved(term)?, variant),
        Line::Isnt(term, variant) => Line::Isnt(moved(term)?, variant),
    })
}

/// So many variables of the one type, a number type, then so many constants,
/// and a line about the last row so many times.
fn counted(variables: usize, constants: usize, lines: usize) -> Draft {
    let mut draft = Draft::new(&[&[]]);
    draft.variables(0, variables);
    for value in 0..constants {
        draft.constant(0, value as i64);
    }
    for _ in 0..lines {
        let last = variables + constants - 1;
        draft.equal(last, last);
    }
    draft
}

/// Merged rows and lines at their limits and one above them, with their
/// answers: a file is that of the two guards' rows counted by hand.
pub fn limits() -> Vec<(String, Pair, Answer)> {
    let mut all = Vec::new();
    let mut add = |name: &str, first: Draft, second: Draft, answer| {
        let pair = Pair::new(&first.bytes(), &second.bytes());
        all.push((format!("limit-{name}-{:02}", all.len()), pair, answer));
    };
    let Limits { terms, lines, .. } = Limits::BASE;
    for (first, second) in [(0, terms), (terms, 0), (terms, terms), (terms - 1, terms)] {
        let merged = counted(first.max(second), 0, 0).bytes();
        add(
            "variables",
            counted(first, 0, 0),
            counted(second, 0, 0),
            Ok(merged),
        );
    }
    // A constant in the second is a row more, unless there is none.
    for (first, constants) in [(terms, 0), (terms - 1, 1), (4, terms - 4)] {
        let merged = counted(first, constants, 0).bytes();
        add(
            "rows",
            counted(first, 0, 0),
            counted(2, constants, 0),
            Ok(merged),
        );
        add(
            "rows",
            counted(first, 0, 0),
            counted(2, constants + 1, 0),
            Err(4),
        );
    }
    for first in [0, 1, lines / 2, lines - 1, lines] {
        let merged = counted(1, 0, lines).bytes();
        add(
            "lines",
            counted(1, 0, first),
            counted(1, 0, lines - first),
            Ok(merged),
        );
        if first > 0 {
            add(
                "lines",
                counted(1, 0, first),
                counted(1, 0, lines + 1 - first),
                Err(4),
            );
        }
    }
    all
}

/// Pairs with several faults, each with the length of its output buffer and the
/// number of the first fault.
pub fn orders() -> Vec<(&'static str, Pair, usize, u8)> {
    let two = Draft::new(&[&[], &[]]);
    // A variable of one of two number types, then constants to the full.
    let full = |ty: usize| {
        let mut draft = two.clone();
        draft.variable(ty);
        for value in 1..Limits::BASE.terms {
            draft.constant(0, value as i64);
        }
        draft.bytes()
    };
    let (one, other, single) = (full(0), full(1), counted(3, 1, 0).bytes());
    let longer = |file: &[u8]| [file, &[0]].concat();
    let cut = &other[..other.len() - 1];
    vec![
        ("first", Pair::new(&longer(&one), cut), 0, 10),
        ("second", Pair::new(&one, cut), 0, 2),
        ("second-types", Pair::new(&single, &longer(&other)), 0, 10),
        ("types", Pair::new(&single, &other), 0, 15),
        (
            "types-too-many",
            Pair::new(&other, &counted(0, 24, 0).bytes()),
            LONGEST_FILE,
            15,
        ),
        ("variables", Pair::new(&one, &other), 0, 16),
        (
            "variables-too-many",
            Pair::new(&one, &other),
            LONGEST_FILE,
            16,
        ),
        ("too-many", Pair::new(&one, &one), 0, 4),
        (
            "too-many-lines",
            {
                let lines = counted(1, 0, Limits::BASE.lines).bytes();
                Pair::new(&lines, &lines)
            },
            0,
            4,
        ),
    ]
}
