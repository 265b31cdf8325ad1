//! Rows by column, request #111: what is stored and given back, and the kept
//! calls.

mod kept;

use std::collections::BTreeMap;

use oracle::columns::{restore, store};
use oracle::guard::{Guard, Limits, Row};
use oracle::list::LONGEST_FILE;
use oracle::random::{draft, Random};
use oracle::read::read;
use oracle::vectors::columns::{damaged, parse, text, Column, Way};
use oracle::vectors::{broken, far, profiles};

/// "The inverse gives the original bytes, for every accepted file"; and as many
/// bytes are stored, each as often as in the file.
#[test]
fn a_stored_file_is_given_back() {
    let mut random = Random::named("stored and given back");
    let mut moved = 0;
    for profile in [profiles::all(), far::profiles()].concat() {
        for _ in 0..60 {
            let file = draft(&mut random, &profile).bytes();
            let stored = store(&file, Limits::BASE).expect("stored");
            assert_eq!(restore(&stored, Limits::BASE), Ok(file.clone()));
            assert_eq!(sorted(&stored), sorted(&file));
            moved += usize::from(stored != file);
        }
    }
    assert!(moved > 500, "{moved}");
}

fn sorted(bytes: &[u8]) -> Vec<u8> {
    let mut bytes = bytes.to_vec();
    bytes.sort_unstable();
    bytes
}

/// A file that is given back is stored as the bytes that it came from, and is
/// accepted. Other bytes are refused, by one of the questions 2 to 10.
#[test]
fn damaged_bytes_are_refused_or_stored_of_another_file() {
    let mut random = Random::named("damaged columns");
    let (mut files, mut refused) = (0, 0);
    for _ in 0..6_000 {
        let file = broken::whole(&mut random).bytes();
        let guard = read(&file, Limits::BASE).expect("an accepted file");
        let Some(bytes) = damaged(&mut random, &guard) else {
            continue;
        };
        match restore(&bytes, Limits::BASE) {
            Ok(file) => {
                assert_eq!(store(&file, Limits::BASE), Ok(bytes));
                files += 1;
            }
            Err(question) => {
                assert!((2..=10).contains(&question.number()));
                refused += 1;
            }
        }
    }
    assert!(files > 300 && refused > 3_000, "{files}, {refused}");
}

/// A file that is refused before its rows is refused by the same question on the
/// way back.
#[test]
fn up_to_the_rows_both_ask_the_same() {
    let mut random = Random::named("types by column");
    let mut refused = 0;
    for _ in 0..2_000 {
        let file = broken::bad_types(&mut random);
        let there = store(&file, Limits::BASE);
        assert_eq!(there.clone().err(), restore(&file, Limits::BASE).err());
        refused += usize::from(there.is_err());
    }
    assert!(refused > 500, "{refused}");
}

/// What the kept calls of one way have.
#[derive(Default, Debug)]
struct Seen {
    written: usize,
    moved: usize,
    exact: usize,
    longest: usize,
    /// By the number of a row's numbers.
    rows: BTreeMap<usize, usize>,
    refused: BTreeMap<u8, usize>,
}

impl Seen {
    fn add(&mut self, call: &Column) {
        let bytes = match kept::answered(call) {
            Ok(bytes) => bytes,
            Err(question) => {
                *self.refused.entry(*question).or_default() += 1;
                return;
            }
        };
        let file = match call.input.way {
            Way::Store => &call.input.bytes,
            Way::Restore => bytes,
        };
        let guard = read(file, Limits::BASE).expect("an accepted file");
        for row in &guard.rows {
            *self.rows.entry(length(&guard, row)).or_default() += 1;
        }
        self.written += 1;
        self.moved += usize::from(*bytes != call.input.bytes);
        self.exact += usize::from(bytes.len() == call.room);
        self.longest = self.longest.max(bytes.len());
    }
}

fn length(guard: &Guard, row: &Row) -> usize {
    match row {
        Row::Variable { .. } => 2,
        Row::Constant { .. } => 3,
        Row::Built { ty, variant, .. } => 3 + guard.fields(*ty, *variant).len(),
        Row::Read { .. } => 4,
    }
}

fn kept() -> Vec<Column> {
    kept::load("columns.txt", parse, text)
}

#[test]
fn kept_answers_are_those_of_both_calls() {
    let (mut stored, mut restored) = (Seen::default(), Seen::default());
    for call in kept() {
        match call.input.way {
            Way::Store => stored.add(&call),
            Way::Restore => restored.add(&call),
        }
    }
    for seen in [stored, restored] {
        let questions: Vec<u8> = seen.refused.keys().copied().collect();
        assert_eq!(questions, [2, 3, 4, 5, 6, 7, 8, 9, 10, 14]);
        assert!(seen.refused.values().all(|&many| many >= 8), "{seen:?}");
        assert!(seen.written >= 200 && seen.moved >= 150, "{seen:?}");
        assert!(seen.exact >= 40, "{seen:?}");
        assert_eq!(seen.longest, LONGEST_FILE);
        let lengths: Vec<usize> = seen.rows.keys().copied().collect();
        assert_eq!(lengths, [2, 3, 4, 5, 6]);
    }
}

#[test]
fn kept_calls_are_sorted_by_their_names() {
    assert!(kept::sorted(&kept()));
}
