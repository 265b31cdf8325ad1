//! The kept lists, pairs and stored files of `vectors/`, with their answers.

use std::fs;
use std::path::Path;

use oracle::vectors::written::{Answer, Input, Written};

pub fn file(name: &str) -> String {
    let dir = Path::new(env!("CARGO_MANIFEST_DIR")).join("../vectors");
    fs::read_to_string(dir.join(name)).expect("the file is there")
}

/// The lines of a file. Written back, they are the same.
pub fn load<I>(
    name: &str,
    parse: fn(&str) -> Result<Vec<Written<I>>, String>,
    text: fn(&[Written<I>]) -> String,
) -> Vec<Written<I>> {
    let kept = file(name);
    let lines = parse(&kept).expect("the lines are readable");
    assert_eq!(text(&lines), kept, "written back, they are the same");
    lines
}

/// The answer on a line, which is the solver's.
pub fn answered<I: Input>(written: &Written<I>) -> &Answer {
    let answer = written.input.answer(written.room);
    assert_eq!(answer, written.answer, "{}", written.name);
    &written.answer
}

pub fn sorted<I>(all: &[Written<I>]) -> bool {
    all.windows(2).all(|pair| pair[0].name < pair[1].name)
}
