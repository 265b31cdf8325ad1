//! Numbers at every edge of their form, in several places of a file.

use super::{Set, USUAL_BUDGET};
use crate::encode::Draft;
use crate::number;

pub fn add(set: &mut Set) {
    forms(set);
    constants(set);
}

/// Right and wrong forms, among them each cut of the longest ones.
fn spellings() -> Vec<Vec<u8>> {
    let mut spellings: Vec<Vec<u8>> = Vec::new();
    for bits in [0, 7, 14, 21, 28] {
        for value in [(1u64 << bits) - 1, 1 << bits] {
            let mut bytes = Vec::new();
            number::write(value, &mut bytes);
            spellings.push(bytes);
        }
    }
    for fifth in [
        0x00, 0x01, 0x08, 0x0f, 0x10, 0x1f, 0x40, 0x7f, 0x80, 0x81, 0x8f, 0xff,
    ] {
        spellings.push(vec![0x80, 0x80, 0x80, 0x80, fifth]);
        spellings.push(vec![0xff, 0xff, 0xff, 0xff, fifth]);
    }
    for length in 1..5 {
        for byte in [0x80, 0xff] {
            let mut overlong = vec![byte; length];
            overlong.push(0x00);
            spellings.push(overlong);
        }
    }
    spellings.push(vec![0x81, 0x80, 0x00]);
    spellings.push(vec![0x80, 0x80, 0x80, 0x80, 0x80, 0x00]);
    spellings.push(vec![0xff, 0xff, 0xff, 0xff, 0x8f, 0x00]);
    spellings.sort();
    spellings.dedup();
    spellings
}

/// The spellings as a constant's value, as a count, as a name and as a kind.
fn forms(set: &mut Set) {
    let places: [(&str, &[u8], &[u8]); 6] = [
        ("value", &[0x01, 0x00, 0x01, 0x01, 0x00], &[0x00]),
        ("types", &[], &[0x00, 0x00, 0x00]),
        ("terms", &[0x01, 0x00], &[0x00, 0x00, 0x00]),
        ("type", &[0x01, 0x00, 0x01, 0x00], &[0x00]),
        ("kind", &[0x01, 0x00, 0x01], &[0x00, 0x00]),
        (
            "lines",
            &[0x01, 0x00, 0x01, 0x00, 0x00],
            &[0x00, 0x00, 0x00],
        ),
    ];
    for (place, before, after) in places {
        for (i, spelling) in spellings().iter().enumerate() {
            let file = [before, spelling, after].concat();
            set.add(format!("number-{place}-{i:02}"), USUAL_BUDGET, &file);
        }
    }
    let (_, before, _) = places[0];
    for (name, byte) in [("low", 0x80), ("high", 0xff)] {
        // A fifth byte with bit 80 ends the number, so the last of these is cut after it.
        for length in 0..6 {
            let file = [before, &vec![byte; length]].concat();
            set.add(format!("number-cut-{name}-{length}"), USUAL_BUDGET, &file);
        }
    }
}

/// Every two of the values as constants, equal and unequal.
pub(super) fn pairs(set: &mut Set, prefix: &str, values: &[i64]) {
    for (i, &a) in values.iter().enumerate() {
        for (j, &b) in values.iter().enumerate().skip(i) {
            for (name, unequal) in [("equal", false), ("unequal", true)] {
                let mut draft = Draft::new(&[&[]]);
                let (x, y) = (draft.constant(0, a), draft.constant(0, b));
                if unequal {
                    draft.unequal(x, y);
                } else {
                    draft.equal(x, y);
                }
                set.draft(format!("{prefix}-{name}-{i}-{j}"), &draft);
            }
        }
    }
}

/// Constants at both ends of 32 bits, equal and unequal to near ones.
fn constants(set: &mut Set) {
    let (least, most) = (i64::from(i32::MIN), i64::from(i32::MAX));
    let ends = [least, least + 1, -1, 0, 1, most - 1, most];
    pairs(set, "ends", &ends);
    // Every value near an end is taken, and the free numbers need others.
    let mut draft = Draft::new(&[&[], &[&[0]]]);
    let values = [least, most, 0, 1, -1];
    let mut terms: Vec<usize> = values
        .iter()
        .map(|&value| draft.constant(0, value))
        .collect();
    terms.extend(draft.variables(0, 3));
    draft.all_unequal(&terms);
    set.draft("ends-free", &draft);
    let boxes: Vec<usize> = terms[..4]
        .iter()
        .map(|&term| draft.built(1, 0, &[term]))
        .collect();
    draft.equal(boxes[0], boxes[1]);
    set.draft("ends-boxes", &draft);
}
