//! The tables of the desk's reader, laid out as `crates/tables/specs/Layout.antt`
//! says, and one line about those of each file.

use crate::guard::{Guard, Limits, Line, Row, FIELDS, VARIANTS_IN_ALL};
use crate::number;
use crate::read::read;
use crate::types::DefaultOf;
use crate::vectors::Vector;

/// The lengths of the columns: the most that any limits allow.
const TYPES: usize = 6;
const ROWS: usize = 24;
const LINES: usize = 64;

/// The lines of all files, in their order.
pub fn summaries(vectors: &[Vector]) -> String {
    vectors
        .iter()
        .map(|vector| summary(&vector.file) + "\n")
        .collect()
}

/// The question that refuses a file, or the sizes of its tables and the sum
/// over their entries.
pub fn summary(file: &[u8]) -> String {
    match read(file, Limits::BASE) {
        Err(question) => format!("refused {}", question.number()),
        Ok(guard) => format!(
            "{} types {} rows {} lines, sum {}",
            guard.types.len(),
            guard.rows.len(),
            guard.lines.len(),
            sum(&entries(&guard))
        ),
    }
}

/// Modulo 2^32. The factor is odd, so a single wrong entry gives a wrong sum.
fn sum(entries: &[u32]) -> u32 {
    entries.iter().fold(0u32, |sum, &entry| {
        sum.wrapping_mul(16_777_619).wrapping_add(entry)
    })
}

/// All entries of all tables, in order.
fn entries(guard: &Guard) -> Vec<u32> {
    let defaults = guard.defaults.iter().map(|default| match *default {
        DefaultOf::Zero => 0,
        DefaultOf::Variant(variant) => variant,
    });
    [
        types(guard),
        column(TYPES, defaults),
        rows(guard),
        lines(guard),
        siblings(guard),
    ]
    .concat()
}

/// Table entries, filled up with zeros.
fn column(length: usize, entries: impl IntoIterator<Item = usize>) -> Vec<u32> {
    let mut column: Vec<u32> = entries.into_iter().map(entry).collect();
    assert!(column.len() <= length, "a column has room for its entries");
    column.resize(length, 0);
    column
}

fn entry(number: usize) -> u32 {
    u32::try_from(number).expect("an entry fits in 32 bits")
}

/// The count; for each type its variants and those of the types before it; for
/// each variant its fields and their types.
fn types(guard: &Guard) -> Vec<u32> {
    let counts = guard.types.iter().map(|ty| ty.variants.len());
    let first = counts.clone().scan(0, |total, count| {
        let before = *total;
        *total += count;
        Some(before)
    });
    let variants = guard.types.iter().flat_map(|ty| &ty.variants);
    let sorts = variants.clone().flat_map(|fields| three(fields));
    [
        vec![entry(guard.types.len())],
        column(TYPES, counts),
        column(TYPES, first),
        column(VARIANTS_IN_ALL, variants.map(Vec::len)),
        column(FIELDS * VARIANTS_IN_ALL, sorts),
    ]
    .concat()
}

/// Three places, the last ones 0 if there are fewer numbers.
fn three(numbers: &[usize]) -> [usize; FIELDS] {
    let mut places = [0; FIELDS];
    places[..numbers.len()].copy_from_slice(numbers);
    places
}

/// A number of 64 bits as two entries, the low one first.
fn halves(number: u64) -> [u32; 2] {
    [number as u32, (number >> 32) as u32]
}

/// The count; for each row its kind, type, variant, parts and value.
fn rows(guard: &Guard) -> Vec<u32> {
    let kinds = guard.rows.iter().map(|row| match row {
        Row::Variable { .. } => 0,
        Row::Constant { .. } => 1,
        Row::Built { .. } => 2,
        Row::Read { .. } => 3,
    });
    let variants = guard.rows.iter().map(|row| match *row {
        Row::Variable { .. } | Row::Constant { .. } => 0,
        Row::Built { variant, .. } | Row::Read { variant, .. } => variant,
    });
    let parts = guard.rows.iter().flat_map(|row| match row {
        Row::Variable { .. } | Row::Constant { .. } => three(&[]),
        Row::Built { parts, .. } => three(parts),
        Row::Read { term, position, .. } => three(&[*term, *position]),
    });
    // A signed value counts as the guard file writes it, low half first.
    let mut values: Vec<u32> = guard
        .rows
        .iter()
        .flat_map(|row| match row {
            Row::Constant { value, .. } => halves(number::fold(*value)),
            _ => [0, 0],
        })
        .collect();
    values.resize(2 * ROWS, 0);
    [
        vec![entry(guard.rows.len())],
        column(ROWS, kinds),
        column(ROWS, guard.row_types.iter().copied()),
        column(ROWS, variants),
        column(FIELDS * ROWS, parts),
        values,
    ]
    .concat()
}

/// The count; for each line its kind, its term, and the other term or the variant.
fn lines(guard: &Guard) -> Vec<u32> {
    let lines: Vec<[usize; 3]> = guard
        .lines
        .iter()
        .map(|line| match *line {
            Line::Equal(a, b) => [0, a, b],
            Line::Unequal(a, b) => [1, a, b],
            Line::Is(term, variant) => [2, term, variant],
            Line::Isnt(term, variant) => [3, term, variant],
        })
        .collect();
    let place = |place: usize| column(LINES, lines.iter().map(|line| line[place]));
    [vec![entry(lines.len())], place(0), place(1), place(2)].concat()
}

/// For each row three places: the terms of a read's fields, in order of position;
/// and two: the types of its sibling fields, each plus one.
fn siblings(guard: &Guard) -> Vec<u32> {
    let mut fields = Vec::new();
    let mut sorts = Vec::new();
    for (number, row) in guard.rows.iter().enumerate() {
        let mut terms = Vec::new();
        let mut types = Vec::new();
        if let Row::Read {
            term,
            variant,
            position,
        } = *row
        {
            for (place, &ty) in guard
                .fields(guard.row_types[term], variant)
                .iter()
                .enumerate()
            {
                if place == position {
                    terms.push(number);
                } else {
                    terms.push(ROWS + 2 * number + types.len());
                    types.push(ty + 1);
                }
            }
        }
        fields.extend(three(&terms));
        types.resize(2, 0);
        sorts.extend(types);
    }
    [column(FIELDS * ROWS, fields), column(2 * ROWS, sorts)].concat()
}

#[cfg(test)]
mod tests {
    use super::*;
    use crate::encode::Draft;

    /// Lists over numbers, with a row and a line of each kind.
    fn file() -> Vec<u8> {
        let mut draft = Draft::new(&[&[], &[&[], &[0, 1]]]);
        let x = draft.variable(1);
        let c = draft.constant(0, -3);
        let built = draft.built(1, 1, &[c, x]);
        let tail = draft.read(x, 1, 1);
        draft.equal(built, tail);
        draft.unequal(x, tail);
        draft.is(tail, 1);
        draft.isnt(x, 0);
        draft.bytes()
    }

    fn padded(length: usize, entries: &[u32]) -> Vec<u32> {
        let mut padded = entries.to_vec();
        padded.resize(length, 0);
        padded
    }

    #[test]
    fn entries_stand_in_their_places() {
        let guard = read(&file(), Limits::BASE).expect("an accepted file");
        let expected = [
            padded(1, &[2]),
            padded(6, &[0, 2]),
            padded(6, &[0, 0]),
            padded(48, &[0, 2]),
            padded(144, &[0, 0, 0, 0, 1]),
            padded(6, &[0, 0]),
            padded(1, &[4]),
            padded(24, &[0, 1, 2, 3]),
            padded(24, &[1, 0, 1, 1]),
            padded(24, &[0, 0, 1, 1]),
            padded(72, &[0, 0, 0, 0, 0, 0, 1, 0, 0, 0, 1]),
            padded(48, &[0, 0, 5, 0]),
            padded(1, &[4]),
            padded(64, &[0, 1, 2, 3]),
            padded(64, &[2, 0, 3, 0]),
            padded(64, &[3, 3, 1, 0]),
            padded(72, &[0, 0, 0, 0, 0, 0, 0, 0, 0, 30, 3]),
            padded(48, &[0, 0, 0, 0, 0, 0, 1]),
        ];
        assert_eq!(entries(&guard), expected.concat());
    }

    #[test]
    fn variants_are_counted_through() {
        let types: &[&[&[usize]]] = &[&[], &[&[1], &[]], &[&[], &[0, 2, 1]], &[&[3], &[0]]];
        let file = Draft::new(types).bytes();
        let guard = read(&file, Limits::BASE).expect("an accepted file");
        let found = entries(&guard);
        assert_eq!(found[..7], [4, 0, 2, 2, 2, 0, 0]);
        assert_eq!(found[7..13], [0, 0, 2, 4, 0, 0]);
        assert_eq!(found[13..20], [1, 0, 0, 3, 1, 1, 0]);
        assert_eq!(
            found[61..79],
            [1, 0, 0, 0, 0, 0, 0, 0, 0, 0, 2, 1, 3, 0, 0, 0, 0, 0]
        );
        assert_eq!(found[205..211], [0, 1, 0, 1, 0, 0]);
    }

    #[test]
    fn a_wrong_entry_gives_a_wrong_sum() {
        let guard = read(&file(), Limits::BASE).expect("an accepted file");
        let right = entries(&guard);
        for place in 0..right.len() {
            for change in [1, 255, 1 << 31] {
                let mut wrong = right.clone();
                wrong[place] ^= change;
                assert_ne!(sum(&wrong), sum(&right));
            }
        }
    }

    #[test]
    fn summaries_tell_refusals_from_tables() {
        assert_eq!(summary(&[7]), "refused 4");
        assert_eq!(sum(&[1, 2]), 16_777_621);
        assert!(summary(&file()).starts_with("2 types 4 rows 4 lines, sum "));
    }
}
