//! Writes the guards of `bench/guards.txt`: 6 types, 24 rows, 46 sibling fields and 32 lines,
//! with searches of far more than a million nodes. One line for each: its name, and the
//! file in hexadecimal.

use oracle::encode::Draft;
use oracle::types::Type;

const ROWS: usize = 24;
const LINES: usize = 32;

fn main() {
    let guards = [
        ("full-rows", full_rows()),
        ("full-siblings", full_siblings()),
    ];
    for (name, draft) in guards {
        let bytes = draft.bytes();
        let hex: String = bytes.iter().map(|byte| format!("{byte:02x}")).collect();
        println!("{name}\t{hex}");
    }
}

fn enumeration(many: usize) -> Type {
    Type {
        variants: vec![Vec::new(); many],
    }
}

/// Nil, or a node of a first field, a second one and the tail; the list is type 0.
fn lists(first: usize, second: usize) -> Type {
    Type {
        variants: vec![Vec::new(), vec![first, second, 0]],
    }
}

/// A list and so many of its tails, each the tail of the one before.
fn tails(draft: &mut Draft, many: usize) -> Vec<usize> {
    let mut all = vec![draft.variable(0)];
    for i in 0..many {
        all.push(draft.read(all[i], 1, 2));
    }
    all
}

/// Fills up the lines with ones that hold: no list is its own tail.
fn fill(draft: &mut Draft, tails: &[usize]) {
    for (i, &a) in tails.iter().enumerate() {
        for &b in &tails[i + 1..] {
            if draft.lines.len() < LINES {
                draft.unequal(a, b);
            }
        }
    }
}

/// Nine symbols of 16 before three flags that are to differ, all in rows.
fn full_rows() -> Draft {
    let others = [enumeration(16), enumeration(11), enumeration(1)];
    let mut types = vec![lists(1, 2), enumeration(16), enumeration(2)];
    types.extend(others);
    let mut draft = Draft::with_types(types);
    let tails = tails(&mut draft, 11);
    for &list in &tails[..9] {
        draft.read(list, 1, 0);
    }
    let flags: Vec<usize> = tails[9..]
        .iter()
        .map(|&list| draft.read(list, 1, 1))
        .collect();
    draft.all_unequal(&flags);
    fill(&mut draft, &tails);
    assert_eq!(draft.rows.len(), ROWS);
    draft
}

/// Three records that are to differ, and can differ only in a flag; the flags are sibling
/// fields, and so are the symbols of 16 before them.
fn full_siblings() -> Draft {
    let records = Type {
        variants: vec![vec![3, 4, 5]],
    };
    let mut draft = Draft::with_types(vec![
        lists(1, 2),
        records,
        enumeration(16),
        Type::default(),
        enumeration(2),
        enumeration(1),
    ]);
    let tails = tails(&mut draft, 17);
    let records: Vec<usize> = tails[..3]
        .iter()
        .map(|&list| draft.read(list, 1, 0))
        .collect();
    let numbers: Vec<usize> = records
        .iter()
        .map(|&record| draft.read(record, 0, 0))
        .collect();
    draft.equal(numbers[0], numbers[1]);
    draft.equal(numbers[0], numbers[2]);
    draft.all_unequal(&records);
    fill(&mut draft, &tails);
    assert_eq!(draft.rows.len(), ROWS);
    draft
}
