//! Lists of request #102: those of accepted files, and the kept ones.

mod kept;

use std::collections::BTreeMap;

use oracle::encode::Role;
use oracle::guard::Limits;
use oracle::list::{self, LONGEST_FILE};
use oracle::random::{draft, Random};
use oracle::read::{read, Question};
use oracle::types::one_number_type;
use oracle::vectors::lists::{damaged, parse, text, Written};
use oracle::vectors::{self, profiles};

/// "An accepted file, read and written, has the same bytes." Request #112: "its
/// round trip now speaks of the others".
#[test]
fn accepted_files_are_written_again() {
    let (mut accepted, mut several) = (0, 0);
    let vectors = vectors::parse(&kept::file("vectors.txt")).expect("the vectors are readable");
    for vector in vectors {
        let numbers = list::numbers(&vector.file, Limits::BASE);
        match vector.answer.strip_prefix("REFUSED ") {
            None => {
                let numbers = numbers.expect("an accepted file");
                let written = list::write(&numbers, Limits::BASE);
                let guard = read(&vector.file, Limits::BASE).expect("an accepted file");
                if one_number_type(&guard.types) {
                    assert_eq!(written, Ok(vector.file), "{}", vector.name);
                    accepted += 1;
                } else {
                    assert_eq!(written, Err(Question::OneNumberType), "{}", vector.name);
                    several += 1;
                }
            }
            Some(question) => {
                let refused = numbers.map_err(Question::number);
                assert_eq!(refused, Err(question.parse().expect("a number")));
            }
        }
    }
    assert!(accepted >= 1_000 && several >= 100, "{accepted}, {several}");
}

/// "The desk reads the bytes back as that list."
#[test]
fn damaged_lists_that_are_written_read_back() {
    let mut random = Random::named("written lists");
    let (mut written, mut refused) = (0, 0);
    for profile in profiles::all() {
        for _ in 0..200 {
            let tokens = draft(&mut random, &profile).tokens(Limits::BASE);
            let Some(numbers) = damaged(&mut random, &tokens) else {
                continue;
            };
            match list::write(&numbers, Limits::BASE) {
                Ok(file) => {
                    assert_eq!(list::numbers(&file, Limits::BASE), Ok(numbers));
                    written += 1;
                }
                Err(_) => refused += 1,
            }
        }
    }
    assert!(written >= 100 && refused >= 1_000, "{written}, {refused}");
}

/// Without constants all numbers are below 128, so a list is its file.
#[test]
fn small_numbers_are_their_own_bytes() {
    let mut random = Random::named("small numbers");
    let mut seen = 0;
    for profile in profiles::all() {
        let draft = draft(&mut random, &profile);
        let tokens = draft.tokens(Limits::BASE);
        if tokens.iter().all(|token| token.role != Role::Value) {
            let bytes: Vec<i64> = draft.bytes().into_iter().map(i64::from).collect();
            assert_eq!(list::of_tokens(&tokens), bytes, "{}", profile.name);
            seen += 1;
        }
    }
    assert!(seen >= 3, "{seen}");
}

fn kept() -> Vec<Written> {
    kept::load("lists.txt", parse, text)
}

#[test]
fn kept_answers_are_those_of_the_writer() {
    let mut refused: BTreeMap<u8, usize> = BTreeMap::new();
    let (mut files, mut exact, mut longest) = (0, 0, 0);
    for written in kept() {
        match kept::answered(&written) {
            Ok(file) => {
                assert!(read(file, Limits::BASE).is_ok(), "{}", written.name);
                files += 1;
                exact += usize::from(file.len() == written.room);
                longest = longest.max(file.len());
            }
            Err(question) => *refused.entry(*question).or_default() += 1,
        }
    }
    let questions: Vec<u8> = refused.keys().copied().collect();
    // Request #104: "the writer's 3 no longer occurs".
    assert_eq!(questions, [2, 4, 5, 6, 7, 8, 9, 10, 14, 18]);
    assert!(refused.values().all(|&many| many >= 20), "{refused:?}");
    assert!(files >= 400 && exact >= 100, "{files}, {exact}");
    assert_eq!(longest, LONGEST_FILE);
}

#[test]
fn kept_lists_are_sorted_by_their_names() {
    assert!(kept::sorted(&kept()));
}
