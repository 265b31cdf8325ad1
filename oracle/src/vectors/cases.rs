//! Document 01's cases by hand, and the example of the design notes.

use super::{unhex, Set};

/// "X stands for [...] type 0 a number type, type 1 nil or cons".
const LISTS: &str = "02 00 02 00 02 00 01";

const CASES: [(&str, &str, u32); 10] = [
    ("a", "00 00 00", 1),
    ("b", "00 00 00", 0),
    ("c", "X 02 00 01 03 00 01 01 01 00 00 01", 3),
    ("d", "X 02 00 01 03 00 01 01 01 00 00 01", 2),
    ("e", "X 02 00 01 03 00 01 01 02 00 00 01 02 00 01", 1),
    ("f", "X 02 00 01 00 01 01 01 00 01", 1),
    ("g", "X 02 00 01 00 01 03 01 00 01 03 00 01 03 01 01", 1),
    (
        "h",
        "01 02 00 00 03 00 00 00 00 00 00 03 01 00 01 01 00 02 01 01 02",
        11,
    ),
    (
        "i",
        "01 02 00 00 03 00 00 00 00 00 00 03 01 00 01 01 00 02 01 01 02",
        10,
    ),
    ("j", "01 00 02 01 00 05 01 00 08 01 00 00 01", 1),
];

const CASE_K: [&str; 9] = [
    "",
    "80 00",
    "07",
    "01 00 01 00 01",
    "01 00 01 04",
    "01 00 01 02 00",
    "01 01 01 00",
    "02 01 00 01 01 00",
    "00 00 00 00",
];

/// The siblings of an absent variant stay free: 2 nodes, not 1.
const ABSENT_SIBLING: &str = "02 02 00 00 02 00 02 01 00 02 00 01 03 00 01 00 01 02 00 00";

/// Two faults in one file, or two questions at one number: the first no counts.
const ORDER: [&str; 16] = [
    // Neither a default for some type nor an infinite field for another.
    "03 01 00 01 01 01 01 01 00 00 00",
    "03 01 01 00 01 01 02 01 00 07",
    "03 01 01 01 01 00 01 01 02",
    "02 01 00 01 02 00 01",
    "02 01 01 00 01 01 00 87",
    "02 01 00 01 01 00 19",
    "X 01 02 01 01 00",
    "X 01 01 01",
    "X 01 02 00 07",
    "X 02 00 00 03 00 07 07",
    "X 02 00 00 00 01 01 00 00 01",
    "X 02 00 00 00 01 01 00 02",
    "X 01 00 00 01 02 00 05",
    "X 01 00 00 01 02 01 05",
    "87 00",
    "87",
];

/// The file of a case from `a` to `j`, with its budget.
pub fn case(letter: &str) -> Option<(Vec<u8>, u32)> {
    let (_, text, budget) = CASES.iter().find(|(name, ..)| *name == letter)?;
    Some((unhex(&text.replace('X', LISTS))?, *budget))
}

pub fn add(set: &mut Set) {
    for (letter, ..) in CASES {
        let (file, budget) = case(letter).expect("the cases are in hexadecimal");
        set.add(format!("case-{letter}"), budget, &file);
    }
    for (i, text) in CASE_K.iter().enumerate() {
        let file = unhex(text).expect("the cases are in hexadecimal");
        set.add(format!("case-k-{}", i + 2), 1, &file);
    }
    for (i, text) in ORDER.iter().enumerate() {
        let file = unhex(&text.replace('X', LISTS)).expect("the files are in hexadecimal");
        set.add(format!("order-{i:02}"), 1, &file);
    }
    let file = unhex(ABSENT_SIBLING).expect("the example is in hexadecimal");
    set.add("case-absent-sibling", 2, &file);
}
