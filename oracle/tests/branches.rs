//! Procedures of request #113: the kept ones, each number by the answer to a
//! guard file of its own, and the stored run of the program.

use std::collections::BTreeMap;
use std::fs;
use std::path::Path;

use oracle::answer::{answer, Answer};
use oracle::branch::{branches, pairs, printed, Procedure};
use oracle::encode::Draft;
use oracle::guard::{Limits, Line};
use oracle::read::{read_procedure, Question};
use oracle::vectors::branches::{parse, text, Call};

fn beside(path: &str) -> Vec<u8> {
    let path = Path::new(env!("CARGO_MANIFEST_DIR")).join("..").join(path);
    fs::read(path).expect("the file is there")
}

/// Written back, they are the same.
fn kept() -> Vec<Call> {
    let kept = String::from_utf8(beside("vectors/branches.txt")).expect("text");
    let calls = parse(&kept).expect("the lines are readable");
    assert_eq!(text(&calls), kept, "written back, they are the same");
    calls
}

/// The number of some lines, by the answer to the guard file that has them; none
/// if there are too many for a file.
fn alone(procedure: &Procedure, lines: &[Line], budget: u32) -> Option<u8> {
    if lines.len() > Limits::BASE.lines {
        return None;
    }
    let draft = Draft {
        lines: lines.to_vec(),
        ..Draft::of(&procedure.head)
    };
    match answer(&draft.bytes(), budget, Limits::BASE) {
        Answer::Sat { .. } => Some(1),
        Answer::Unsat { .. } => Some(2),
        Answer::Spent { .. } => Some(3),
        Answer::Refused(question) => panic!("refused, {question:?}"),
    }
}

#[test]
fn kept_numbers_are_answers_to_guard_files() {
    let mut refused: BTreeMap<u8, usize> = BTreeMap::new();
    let (mut told, mut many, mut long) = ([0; 4], [0; 9], 0);
    for call in kept() {
        let codes = match &call.answer {
            Ok(codes) => codes,
            Err(question) => {
                *refused.entry(*question).or_default() += 1;
                continue;
            }
        };
        let procedure = read_procedure(&call.file, Limits::BASE).expect("accepted");
        let lines = &procedure.branches;
        many[lines.len()] += 1;
        assert_eq!(codes.branches.len(), lines.len(), "{}", call.name);
        for (branch, &code) in lines.iter().zip(&codes.branches) {
            assert_eq!(alone(&procedure, branch, call.budget), Some(code));
            told[usize::from(code)] += 1;
        }
        let pairs = pairs(lines.len());
        assert_eq!(codes.pairs.len(), pairs.len(), "{}", call.name);
        for ((a, b), &code) in pairs.into_iter().zip(&codes.pairs) {
            let both = [&lines[a][..], &lines[b]].concat();
            match alone(&procedure, &both, call.budget) {
                Some(expected) => assert_eq!(code, expected, "{}", call.name),
                None => long += 1,
            }
            told[usize::from(code)] += 1;
        }
    }
    let questions: Vec<u8> = refused.keys().copied().collect();
    assert_eq!(questions, [1, 2, 3, 4, 5, 6, 7, 8, 9, 10, 19]);
    assert!(refused.values().all(|&many| many >= 6), "{refused:?}");
    assert!(told[1] > 500 && told[2] > 200 && told[3] > 200, "{told:?}");
    assert!(many[1..].iter().all(|&many| many > 2), "{many:?}");
    assert!(long > 20, "{long}");
}

#[test]
fn kept_answers_are_those_of_the_solver() {
    for call in kept() {
        let answer = branches(&call.file, call.budget, call.room).map_err(Question::number);
        assert_eq!(answer, call.answer, "{}", call.name);
    }
}

/// What `branchdesk` printed, as the proved program's run has it.
#[test]
fn the_stored_run_of_the_program() {
    let file = beside("crates/branchdesk/stdin");
    let lines = String::from_utf8(beside("crates/branchdesk/stdout")).expect("text");
    assert_eq!(printed(&file, 1_000_000), lines);
}
