//! Printed answers and buffers: right ones pass, damaged ones don't.

use oracle::answer::Answer;
use oracle::guard::Limits;
use oracle::read::{self, Question};
use oracle::search::Splits;
use oracle::shown::{check_call, check_shown};
use oracle::text::{check, parse};
use oracle::vectors::unhex;

const C: &str = "02 00 02 00 02 00 01 02 00 01 03 00 01 01 01 00 00 01";
const C_PRINTED: &str = "SAT 3\nrow 0 type 1 variant 0\nterm 0 row 0\nterm 1 row 0\n";

/// x, the constant 5, cons(5, x), x's head and x's tail; x is cons, and its
/// head isn't 5.
const RICH: &str = "02 00 02 00 02 00 01 \
    05 00 01 01 00 0a 02 01 01 01 00 03 00 01 00 03 00 01 01 02 02 00 01 01 03 01";
const RICH_PRINTED: &str = "SAT 1
row 0 type 1 variant 0
row 1 type 0 number 7
row 2 type 1 variant 1 parts 1 0
row 3 type 0 number 5
row 4 type 1 variant 1 parts 3 2
term 0 row 2
term 1 row 3
term 2 row 4
term 3 row 1
term 4 row 0
";

fn checked(file: &str, output: &str) -> Result<(), String> {
    check(
        &unhex(file).expect("hexadecimal"),
        output,
        1_000_000,
        Limits::BASE,
    )
}

#[test]
fn right_answers_pass() {
    assert_eq!(checked(C, C_PRINTED), Ok(()));
    assert_eq!(checked(RICH, RICH_PRINTED), Ok(()));
    assert_eq!(checked("00 00 00", "SAT 1\n"), Ok(()));
    assert_eq!(checked("00 00", "REFUSED 2\n"), Ok(()));
    let unsat = "01 00 02 01 00 05 01 00 08 01 00 00 01";
    assert_eq!(checked(unsat, "UNSAT 1\n"), Ok(()));
    let file = unhex(C).expect("hexadecimal");
    assert_eq!(check(&file, "SPENT 2\n", 2, Limits::BASE), Ok(()));
}

#[test]
fn damaged_answers_fail() {
    let damages = [
        ("SAT 1\n", "SAT 2\n", "expected SAT 1"),
        ("SAT 1\n", "UNSAT 1\n", "expected SAT 1"),
        ("SAT 1\n", "", "expected SAT 1"),
        ("number 7", "number 5", "rows 1 and 3 are alike"),
        (
            "number 7",
            "number 9223372036854775808",
            "isn't a signed 64-bit number",
        ),
        ("number 7", "number +7", "the form is"),
        ("number 7", "number 07", "the form is"),
        ("number 7", "number seven", "isn't a signed 64-bit number"),
        ("number 5", "number 6", "term 1 has a wrong value"),
        ("row 1 type 0", "row 1 type 1", "type 1 isn't a number type"),
        ("row 1 type 0", "row 1 type 2", "there is no type 2"),
        ("row 1 type 0", "row 7 type 0", "expected row 1"),
        ("parts 1 0", "parts 1 2", "part 2 isn't a lower row"),
        ("parts 1 0", "parts 0 1", "part 0 is of type 1"),
        ("parts 1 0", "parts 1 0 0", "the form is"),
        ("parts 1 0", "parts 1 0 3", "an unused number isn't 0"),
        ("parts 1 0", "parts 1 0 0 0", "too many parts"),
        ("parts 1 0", "parts 1", "the form is"),
        (" parts 3 2", "", "part 0 is of type 1"),
        ("parts 1 0", "with 1 0", "expected parts"),
        ("variant 0\n", "variant 0 parts 0\n", "the form is"),
        ("variant 0\n", "variant 2\n", "type 1 has no variant 2"),
        ("variant 0\n", "variant 16\n", "isn't a number below 16"),
        ("row 0 type 1", "row 0  type 1", "the form is"),
        (
            "parts 3 2\n",
            "parts 3 2\nrow 5 type 0 number 9\n",
            "row 5 isn't reached",
        ),
        ("term 0 row 2", "term 0 row 0", "term 2 has a wrong value"),
        ("term 0 row 2", "term 0 row 1", "term 0 is of type 1"),
        ("term 0 row 2", "term 0 row 5", "there is no row 5"),
        ("term 2 row 4", "term 2 row 2", "row 4 isn't reached"),
        ("term 3 row 1", "term 3 row 3", "term 3 has a wrong value"),
        ("term 4 row 0", "term 4 row 2", "term 4 has a wrong value"),
        ("term 4 row 0\n", "", "4 terms are printed, the guard has 5"),
        (
            "term 4 row 0\n",
            "term 4 row 0\nterm 5 row 0\n",
            "6 terms are printed, the guard has 5",
        ),
        (
            "term 4 row 0\n",
            "term 4 row 0\nterm 5 row 4\n",
            "6 terms are printed, the guard has 5",
        ),
        (
            "term 4 row 0\n",
            "term 4 row 0\n\n",
            "neither a row nor a term",
        ),
        (
            "term 4 row 0\n",
            "term 4 row 0",
            "the text goes on, or stops early",
        ),
        (
            "term 1 row 3\nterm 2 row 4\n",
            "term 2 row 4\nterm 1 row 3\n",
            "expected term 1",
        ),
        (
            "term 0 row 2\n",
            "term 0 row 2\nrow 5 type 0 number 9\n",
            "a row after a term",
        ),
        ("term 0 row 2\n", "term 0 row 2\r\n", "the form is"),
    ];
    for (old, new, reason) in damages {
        assert!(RICH_PRINTED.contains(old), "{old:?}");
        let fault = checked(RICH, &RICH_PRINTED.replacen(old, new, 1));
        let fault = fault.expect_err(&format!("{old:?} as {new:?} must fail"));
        assert!(fault.contains(reason), "{old:?} as {new:?}: {fault}");
    }
    assert!(checked(RICH, "").is_err());
    assert!(checked(RICH, "SAT 1").is_err());
    assert!(checked("00 00", "REFUSED 2\nrow 0 type 0 number 0\n").is_err());
    assert!(checked("00 00", "REFUSED 3\n").is_err());
}

/// Everything fits but one line of the guard.
#[test]
fn a_line_that_does_not_hold_fails() {
    let unequal = "02 00 02 00 02 00 01 02 00 01 00 01 01 01 00 01";
    let fault = checked(
        unequal,
        "SAT 1\nrow 0 type 1 variant 0\nterm 0 row 0\nterm 1 row 0\n",
    );
    assert_eq!(fault, Err("line 0 doesn't hold".to_string()));
    let head_is_five = RICH_PRINTED
        .replace("row 3 type 0 number 5\nrow 4", "row 3")
        .replace("number 7", "number 5")
        .replace("parts 3 2", "parts 1 2")
        .replace("term 1 row 3\nterm 2 row 4", "term 1 row 1\nterm 2 row 3");
    assert_eq!(
        checked(RICH, &head_is_five),
        Err("line 1 doesn't hold".to_string())
    );
    let nil = "SAT 1
row 0 type 1 variant 0
row 1 type 0 number 0
row 2 type 0 number 5
row 3 type 1 variant 1 parts 2 0
term 0 row 0
term 1 row 2
term 2 row 3
term 3 row 1
term 4 row 0
";
    assert_eq!(checked(RICH, nil), Err("line 0 doesn't hold".to_string()));
    // A nil has the default as its head.
    let fault = checked(RICH, &nil.replace("number 0", "number 1"));
    assert_eq!(fault, Err("term 3 has a wrong value, row 1".to_string()));
}

#[test]
fn buffers_are_checked_to_their_ends() {
    let file = unhex(RICH).expect("hexadecimal");
    let (_, text) = RICH_PRINTED.split_once('\n').expect("lines");
    let numbers = parse(text).expect("printed rows");
    let (mut rows, mut places) = (vec![0; 16_384], vec![0; 24]);
    rows[..20].copy_from_slice(&numbers.rows);
    places[..5].copy_from_slice(&numbers.places);
    let splits = Splits::default();
    let sat = (Answer::Sat { nodes: 1, splits }, 5);
    let checked = |claim, rows: &[i32], places: &[i32]| {
        check_call(&file, 10, Limits::BASE, claim, rows, places)
    };
    assert_eq!(checked(sat, &rows, &places), Ok(()));
    assert!(checked((sat.0, 4), &rows, &places).is_err());
    assert!(checked((sat.0, 6), &rows, &places).is_err());
    assert!(checked((sat.0, 5_000), &rows, &places).is_err());
    let unsat = (Answer::Unsat { nodes: 1, splits }, 0);
    assert!(checked(unsat, &rows, &places).is_err());
    for (first, second) in [(1, 0), (0, 1)] {
        let splits = Splits { first, second };
        let other = (Answer::Sat { nodes: 1, splits }, 5);
        assert!(checked(other, &rows, &places).is_err(), "{splits:?}");
    }
    for at in [20, 21, 8_192, 16_383] {
        let mut rows = rows.clone();
        rows[at] = 1;
        assert!(checked(sat, &rows, &places).is_err(), "row number {at}");
    }
    for at in [5, 23] {
        let mut places = places.clone();
        places[at] = 1;
        assert!(checked(sat, &rows, &places).is_err(), "place {at}");
    }
    for (at, number) in [
        (0, 15),
        (0, -1),
        (0, -7),
        (0, i32::MIN),
        (9, -1),
        (11, 1),
        // A fourth number for the 7; another high half and a fourth number for the 5.
        (7, 1),
        (14, 1),
        (14, -1),
        (15, 1),
    ] {
        let mut rows = rows.clone();
        rows[at] = number;
        assert!(
            checked(sat, &rows, &places).is_err(),
            "row number {at} as {number}"
        );
    }
    let refused = (Answer::Refused(Question::BuffersLongEnough), 0);
    assert_eq!(checked(refused, &[0; 16_383], &[0; 24]), Ok(()));
    assert!(checked(refused, &[0; 16_384], &[0; 24]).is_err());
    assert!(checked(refused, &[1; 16_383], &[0; 24]).is_err());
    let spent = (Answer::Spent { budget: 0, splits }, 0);
    let checked = |rows: &[i32]| check_call(&file, 0, Limits::BASE, spent, rows, &[0; 24]);
    assert_eq!(checked(&[0; 16_384]), Ok(()));
    assert!(checked(&rows).is_err());
}

/// The constants 4,294,967,295, −1, −4,294,967,296, −4,294,967,297 and both
/// ends of 64 bits, and a variable that is none of them.
const FAR: &str = "01 00 07 01 00 fe ff ff ff 1f 01 00 01 01 00 ff ff ff ff 1f \
    01 00 81 80 80 80 20 01 00 ff ff ff ff ff ff ff ff ff 01 \
    01 00 fe ff ff ff ff ff ff ff ff 01 00 00 \
    06 01 00 06 01 01 06 01 02 06 01 03 06 01 04 06 01 05 06";
const FAR_VALUES: [i64; 7] = [
    4_294_967_295,
    -1,
    -4_294_967_296,
    -4_294_967_297,
    i64::MIN,
    i64::MAX,
    1,
];
const FAR_ROWS: [[i32; 4]; 7] = [
    [-1, -1, 0, 0],
    [-1, -1, -1, 0],
    [-1, 0, -1, 0],
    [-1, -1, -2, 0],
    [-1, 0, i32::MIN, 0],
    [-1, -1, i32::MAX, 0],
    [-1, 1, 0, 0],
];

/// "A number's row holds −1 − t, then the low 32 bits as a signed number, then
/// the value divided by 4,294,967,296 rounded down."
#[test]
fn rows_of_numbers() {
    let file = unhex(FAR).expect("hexadecimal");
    let guard = read::read(&file, Limits::BASE).expect("accepted");
    let rows: Vec<i32> = FAR_ROWS.concat();
    let places: Vec<i32> = (0..7).collect();
    assert_eq!(check_shown(&guard, 7, &rows, &places), Ok(()));

    let mut printed = String::new();
    for (row, value) in FAR_VALUES.iter().enumerate() {
        printed += &format!("row {row} type 0 number {value}\n");
    }
    for term in 0..7 {
        printed += &format!("term {term} row {term}\n");
    }
    let numbers = parse(&printed).expect("printed rows");
    assert_eq!((&numbers.rows, &numbers.places), (&rows, &places));
    assert_eq!(checked(FAR, &format!("SAT 1\n{printed}")), Ok(()));

    for row in 0..FAR_ROWS.len() {
        for (at, change) in [(1, 1), (2, 1), (2, i32::MIN), (3, 1), (3, -1)] {
            let mut wrong = rows.clone();
            let number = &mut wrong[4 * row + at];
            *number = number.wrapping_add(change);
            let free = row == 6 && at < 3;
            let found = check_shown(&guard, 7, &wrong, &places);
            assert_eq!(found.is_ok(), free, "row {row}, number {at} by {change}");
        }
    }
    // The free number as one of the others, and as one with their low half.
    for (row, right) in [([-1, -1, 0, 0], false), ([-1, -1, 1, 0], true)] {
        let mut rows = rows.clone();
        rows[24..].copy_from_slice(&row);
        assert_eq!(check_shown(&guard, 7, &rows, &places).is_ok(), right);
    }
}

#[test]
fn more_than_4096_rows_fail() {
    // One natural, of any size.
    let file = unhex("01 02 00 01 00 01 00 00 00").expect("hexadecimal");
    let guard = read::read(&file, Limits::BASE).expect("accepted");
    for (count, right) in [(4_096, true), (4_097, false)] {
        let mut rows = vec![0, 0, 0, 0];
        for row in 1..count {
            rows.extend([1, row - 1, 0, 0]);
        }
        let shown = check_shown(&guard, count as usize, &rows, &[count - 1]);
        assert_eq!(shown.is_ok(), right, "{count} rows");
    }
}
