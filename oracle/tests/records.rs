//! Records of request #101: those of document 01's UNSAT cases, damaged ones,
//! those of random guards, and the kept ones.

use std::collections::{BTreeMap, HashSet};
use std::fs;
use std::path::Path;

use oracle::closure::Closure;
use oracle::encode::Draft;
use oracle::guard::{Guard, Limits};
use oracle::problem::Problem;
use oracle::random::{draft, Random};
use oracle::read::read;
use oracle::record::{self, Entry};
use oracle::search::{search, End, Reason};
use oracle::vectors::records::{answer, parse, text, Checked};
use oracle::vectors::{self, hex, profiles, unhex};

const E: &str = "02 00 02 00 02 00 01 02 00 01 03 00 01 01 02 00 00 01 02 00 01";
const G: &str = "02 00 02 00 02 00 01 02 00 01 00 01 03 01 00 01 03 00 01 03 01 01";
const H: &str = "01 02 00 00 03 00 00 00 00 00 00 03 01 00 01 01 00 02 01 01 02";
const J: &str = "01 00 02 01 00 05 01 00 08 01 00 00 01";
/// Terms 0, 1 and 2 of two colours are all unequal.
const H_RECORD: &str = "04 00 00 \
    04 01 00 01 00 04 02 00 01 01 01 02 \
    04 01 00 04 02 00 01 02 01 01 01 00";

fn bytes(text: &str) -> Vec<u8> {
    unhex(text).expect("hexadecimal")
}

fn load(name: &str) -> String {
    let dir = Path::new(env!("CARGO_MANIFEST_DIR")).join("../vectors");
    fs::read_to_string(dir.join(name)).expect("the file is there")
}

fn guard(file: &[u8]) -> Guard {
    read(file, Limits::BASE).expect("an accepted file")
}

fn written(file: &[u8]) -> Option<Vec<u8>> {
    record::record(&guard(file), 1_000)
}

#[test]
fn records_of_the_cases() {
    for (file, expected) in [(E, "03 00"), (G, "01 00"), (H, H_RECORD), (J, "02 00")] {
        let (file, expected) = (bytes(file), bytes(expected));
        assert_eq!(written(&file).as_ref(), Some(&expected), "{}", hex(&file));
        assert_eq!(answer(&file, &expected), 0, "{}", hex(&file));
    }
}

#[test]
fn only_unsat_guards_have_records() {
    assert_eq!(written(&[0, 0, 0]), None);
    assert_eq!(answer(&[0, 0, 0], &[]), 13);
    assert_eq!(answer(&[0, 0, 0], &[0, 0]), 12);
    let h = guard(&bytes(H));
    assert_eq!(record::record(&h, 10), None);
    assert_eq!(record::record(&h, 11), Some(bytes(H_RECORD)));
}

#[test]
fn damaged_records_of_the_cases() {
    let cases = [
        // Cut short between nodes, in a node, in a number.
        (E, "", 13),
        (E, "03", 12),
        (E, "03 80", 12),
        (H, "04 00 00", 13),
        (H, "04 00", 12),
        (H, "04", 12),
        // Goes on, however that may look.
        (E, "03 00 03 00", 13),
        (E, "03 00 80", 13),
        (E, "03 00 05", 13),
        // No such kind; wrong forms of 3, 0 and 1; one more than 2^32.
        (E, "05 00", 12),
        (E, "83 00 00", 12),
        (E, "03 80 00", 12),
        (E, "03 80 80 80 80 80", 12),
        (E, "03 80 80 80 80 10", 12),
        // The tail is the list itself, so it will do; the head, the missing
        // sibling of the tail, the default and numbers past it won't.
        (E, "03 01", 0),
        (E, "03 1a", 12),
        (E, "03 1b", 12),
        (E, "03 49", 12),
        (E, "03 4e", 12),
        (E, "03 ff ff ff ff 0f", 12),
        // Neither is a label empty nor are constants unlike.
        (E, "00 00", 12),
        (E, "02 00", 12),
        (E, "01 00", 12),
        // Lines 1 and 2 aren't unequal, and there is no line 3.
        (G, "01 01", 12),
        (G, "01 02", 12),
        (G, "01 03", 12),
        // The tail of nothing: one variant is left; numbers have no label.
        (G, "04 00 00 01 00 01 00", 12),
        (J, "00 00", 12),
        (J, "02 01", 0),
        (J, "02 48", 12),
        (J, "04 00 00 02 00 02 00", 12),
    ];
    for (file, record, expected) in cases {
        assert_eq!(answer(&bytes(file), &bytes(record)), expected, "{record}");
    }
}

#[test]
fn questions_about_the_file_come_first() {
    let vectors = vectors::parse(&load("vectors.txt")).expect("the vectors are readable");
    for vector in vectors {
        if let Some(number) = vector.answer.strip_prefix("REFUSED ") {
            for record in ["-", "03 00", "80", "05"] {
                let found = answer(&vector.file, &bytes(record)).to_string();
                assert_eq!(found, number, "{}", vector.name);
            }
        }
    }
}

/// Splits on other terms, on the other variant, and where nothing is left to
/// find out.
#[test]
fn any_split_of_two_variants_is_accepted() {
    let h = bytes(H);
    let records = [
        "04 02 01 \
         04 00 01 01 01 04 01 00 01 00 01 02 \
         04 01 00 01 02 04 00 01 01 00 01 01",
        // The first node below is closed already.
        "04 00 00 \
         04 01 00 04 02 00 01 00 01 00 04 02 00 01 01 01 02 \
         04 01 00 04 02 00 01 02 01 01 01 00",
    ];
    for record in records {
        assert_eq!(answer(&h, &bytes(record)), 0, "{record}");
    }
    // The default has one variant, and 16 isn't one.
    for split in ["04 48 00", "04 00 02", "04 00 10", "04 00 20", "04 03 00"] {
        let record = H_RECORD.replacen("04 00 00", split, 1);
        assert_eq!(answer(&h, &bytes(&record)), 12, "{split}");
    }
}

/// "Of 0 to 3 the lowest that applies is written."
#[test]
fn the_lowest_reason_is_written() {
    let mut draft = Draft::new(&[&[], &[&[], &[0, 1]]]);
    let other = draft.variable(1);
    let list = draft.variable(1);
    let one = draft.constant(0, 1);
    let head = draft.read(list, 1, 0);
    draft.equal(head, one);
    // The head of nil is 0.
    draft.is(list, 0);
    assert_eq!(written(&draft.bytes()), Some(vec![2, 2]));
    draft.unequal(other, other);
    assert_eq!(written(&draft.bytes()), Some(vec![1, 2]));
    draft.is(list, 1);
    assert_eq!(written(&draft.bytes()), Some(vec![0, 1]));
    // The others are as good; an emptied label still tells what the head is.
    for (record, expected) in [([0, 0], 12), ([1, 2], 0), ([2, 2], 0), ([2, 3], 0)] {
        assert_eq!(answer(&draft.bytes(), &record), expected, "{record:?}");
    }
}

/// "With its lowest term": any term of the class, also one that is no constant.
#[test]
fn the_lowest_term_with_unlike_constants_is_written() {
    let mut draft = Draft::new(&[&[]]);
    let x = draft.variables(0, 2)[1];
    for value in [7, -7] {
        let constant = draft.constant(0, value);
        draft.equal(x, constant);
    }
    let file = draft.bytes();
    assert_eq!(written(&file), Some(vec![2, 1]));
    for (term, expected) in [(0, 12), (1, 0), (2, 0), (3, 0), (72, 12)] {
        assert_eq!(answer(&file, &[2, term]), expected, "{term}");
    }
}

/// A message around one that is inside itself isn't inside itself.
#[test]
fn the_lowest_term_inside_itself_is_written() {
    // zero or successor, and a box of one.
    let mut draft = Draft::new(&[&[&[], &[0]], &[&[0]]]);
    let outer = draft.variable(1);
    let y = draft.variable(0);
    let next = draft.built(0, 1, &[y]);
    let boxed = draft.built(1, 0, &[y]);
    draft.equal(y, next);
    draft.equal(outer, boxed);
    let file = draft.bytes();
    assert_eq!(written(&file), Some(vec![3, 1]));
    for (term, expected) in [(0, 12), (1, 0), (2, 0), (3, 12)] {
        assert_eq!(answer(&file, &[3, term]), expected, "{term}");
    }
}

/// The nodes, reasons and splits in a record are those that the search counts.
fn assert_tally(guard: &Guard, budget: u32, entries: &[Entry]) {
    let (_, tally) = search(guard, budget);
    assert_eq!(closed_by(entries), tally.closed);
    assert_eq!(entries.len(), tally.nodes as usize);
    assert_eq!(record::splits_in(guard, entries), tally.splits);
}

/// The closed nodes by their reason.
fn closed_by(entries: &[Entry]) -> [u32; Reason::ALL.len()] {
    let mut closed = [0; Reason::ALL.len()];
    for entry in entries {
        if let Entry::Closed { reason, .. } = *entry {
            closed[reason as usize] += 1;
        }
    }
    closed
}

/// No reason before a written one holds, nor an earlier place of the same.
fn assert_lowest(guard: &Guard, entries: &[Entry]) {
    let problem = Problem::new(guard);
    let mut branch = record::ROOT;
    for &entry in entries {
        let decisions = branch.expect("a branch is left");
        let closure = Closure::new(&problem, &decisions);
        let mut claims = Reason::ALL
            .into_iter()
            .flat_map(|reason| record::claims(&problem, reason));
        let first = claims.find(|claim| claim.holds(&problem, &closure));
        let closed = matches!(entry, Entry::Closed { .. });
        assert_eq!(first, closed.then_some(entry));
        branch = record::next(decisions, entry);
    }
    assert_eq!(branch, None);
}

/// A record is accepted; what it loses at the end, or gets there, is missed.
fn assert_exact(file: &[u8], entries: &[Entry]) {
    let record = record::bytes(entries);
    assert_eq!(answer(file, &record), 0, "{}", hex(file));
    let mut starts = HashSet::new();
    for nodes in 0..entries.len() {
        starts.insert(record::bytes(&entries[..nodes]).len());
    }
    for length in 0..record.len() {
        let expected = if starts.contains(&length) { 13 } else { 12 };
        assert_eq!(answer(file, &record[..length]), expected, "{}", hex(file));
    }
    for byte in [0x00, 0x05, 0x80] {
        let longer = [&record[..], &[byte]].concat();
        assert_eq!(answer(file, &longer), 13, "{}", hex(file));
    }
}

#[test]
fn written_records_are_accepted() {
    const BUDGET: u32 = 40;
    let mut random = Random::named("written records");
    let mut reasons = [0; 4];
    for profile in profiles::all() {
        for _ in 0..100 {
            let file = draft(&mut random, &profile).bytes();
            let guard = guard(&file);
            let (end, entries) = record::entries(&guard, BUDGET);
            assert_eq!(end, search(&guard, BUDGET).0, "{}", hex(&file));
            if end == End::Closed {
                assert_tally(&guard, BUDGET, &entries);
                assert_lowest(&guard, &entries);
                assert_exact(&file, &entries);
                for (sum, count) in reasons.iter_mut().zip(closed_by(&entries)) {
                    *sum += count;
                }
            } else {
                assert_eq!(answer(&file, &record::bytes(&entries)), 13);
            }
        }
    }
    assert!(reasons.iter().all(|&nodes| nodes >= 10), "{reasons:?}");
}

fn kept() -> Vec<Checked> {
    let kept = load("records.txt");
    let records = parse(&kept).expect("the records are readable");
    assert_eq!(text(&records), kept, "written back, they are the same");
    records
}

#[test]
fn kept_answers_are_those_of_the_checker() {
    let mut counts: BTreeMap<u8, usize> = BTreeMap::new();
    for checked in kept() {
        let found = answer(&checked.file, &checked.record);
        assert_eq!(found, checked.answer, "{}", checked.name);
        *counts.entry(found).or_default() += 1;
        // "What it accepts has no satisfying messages."
        if found == 0 {
            let (end, _) = search(&guard(&checked.file), u32::MAX);
            assert_eq!(end, End::Closed, "{}", checked.name);
        }
    }
    assert_eq!(
        counts.keys().copied().collect::<Vec<u8>>(),
        [0, 2, 3, 4, 5, 6, 7, 8, 9, 10, 12, 13]
    );
    assert!(counts[&0] >= 500 && counts[&12] >= 250 && counts[&13] >= 50);
}

#[test]
fn kept_records_are_sorted_by_their_names() {
    let names: Vec<String> = kept().into_iter().map(|checked| checked.name).collect();
    assert!(names.windows(2).all(|pair| pair[0] < pair[1]));
}
