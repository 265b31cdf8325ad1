//! Document 01's cases by hand, with verdict, node count and splits.

use oracle::answer::{answer, answer_with_buffers, Answer};
use oracle::guard::Limits;
use oracle::read::Question;
use oracle::search::Splits;
use oracle::vectors::unhex;

const X: &str = "02 00 02 00 02 00 01 ";

fn file(text: &str) -> Vec<u8> {
    unhex(&text.replace("X ", X)).expect("hexadecimal")
}

fn given(text: &str, budget: u32) -> String {
    answer(&file(text), budget, Limits::BASE).to_string()
}

const C: &str = "X 02 00 01 03 00 01 01 01 00 00 01";
const H: &str = "01 02 00 00 03 00 00 00 00 00 00 03 01 00 01 01 00 02 01 01 02";

#[test]
fn cases_a_to_j() {
    let cases = [
        ("00 00 00", 1, "SAT 1 splits 0 0"),
        ("00 00 00", 0, "SPENT 0 splits 0 0"),
        (C, 3, "SAT 3 splits 1 0"),
        (C, 2, "SPENT 2 splits 1 0"),
        (
            "X 02 00 01 03 00 01 01 02 00 00 01 02 00 01",
            1,
            "UNSAT 1 splits 0 0",
        ),
        ("X 02 00 01 00 01 01 01 00 01", 1, "SAT 1 splits 0 0"),
        (
            "X 02 00 01 00 01 03 01 00 01 03 00 01 03 01 01",
            1,
            "UNSAT 1 splits 0 0",
        ),
        (H, 11, "UNSAT 11 splits 0 5"),
        (H, 10, "SPENT 10 splits 0 5"),
        (
            "01 00 02 01 00 05 01 00 08 01 00 00 01",
            1,
            "UNSAT 1 splits 0 0",
        ),
    ];
    for (text, budget, expected) in cases {
        assert_eq!(given(text, budget), expected, "{text} with {budget}");
    }
}

#[test]
fn case_k() {
    let files = [
        "",
        "80 00",
        "07",
        "01 00 01 00 01",
        "01 00 01 04",
        "01 00 01 02 00",
        "01 01 01 00",
        "02 01 00 01 01 00",
        "00 00 00 00",
    ];
    for (text, number) in files.iter().zip(2..) {
        assert_eq!(given(text, 1), format!("REFUSED {number}"), "{text}");
    }
}

#[test]
fn buffers_come_first() {
    let refused = Answer::Refused(Question::BuffersLongEnough);
    let with = |file: &[u8], rows, places| answer_with_buffers(file, 1, Limits::BASE, rows, places);
    assert_eq!(with(&[], 16_383, 24), refused);
    assert_eq!(with(&[], 16_384, 23), refused);
    assert_eq!(with(&[], 16_384, 24), Answer::Refused(Question::NumberEnds));
    let sat = Answer::Sat {
        nodes: 1,
        splits: Splits::default(),
    };
    assert_eq!(with(&[0, 0, 0], 20_000, 30), sat);
}

/// Two questions at one number, or two faults in one file.
#[test]
fn the_first_no_counts() {
    let files = [
        // The types lack a default, and the file stops after them.
        ("01 01 01 00", "REFUSED 8"),
        // Type 1 has no default, and type 2 no field that can grow.
        ("03 01 00 01 01 01 01 01 00", "REFUSED 8"),
        // A finite field alone, and the file stops after the types.
        ("02 01 00 01 01 00", "REFUSED 9"),
        // A part that names no earlier row, which can't fit either.
        ("X 01 02 01 01 00", "REFUSED 5"),
        // A constant of a variant type, with its value missing.
        ("X 01 01 01", "REFUSED 7"),
        // The second term of another type, and no more bytes.
        ("X 02 00 00 00 01 01 00 00 01", "REFUSED 7"),
        // A number is tested for a variant that isn't there.
        ("X 01 00 00 01 02 00 05", "REFUSED 7"),
        // A wrong count in a wrong form.
        ("87 00", "REFUSED 3"),
        ("87", "REFUSED 2"),
        // 16 + 16 + 16 variants, and one more.
        (
            "04 10 00 00 00 00 00 00 00 00 00 00 00 00 00 00 00 00 \
          10 00 00 00 00 00 00 00 00 00 00 00 00 00 00 00 00 \
          10 00 00 00 00 00 00 00 00 00 00 00 00 00 00 00 00 01",
            "REFUSED 4",
        ),
    ];
    for (text, expected) in files {
        assert_eq!(given(text, 1), expected, "{text}");
    }
}

/// The siblings of an absent variant stay free, and are split on.
#[test]
fn siblings_of_an_absent_variant_are_split_on() {
    let text = "02 02 00 00 02 00 02 01 00 02 00 01 03 00 01 00 01 02 00 00";
    assert_eq!(given(text, 2), "SAT 2 splits 0 1");
}

/// Request #104: "Signed values now run over 64 bits, with up to ten bytes and
/// at most 18,446,744,073,709,551,615 as written; a tenth byte with bit 80
/// counts as the end. Counts and names keep five."
#[test]
fn values_over_64_bits() {
    let nine = "ff ff ff ff ff ff ff ff ff";
    let one = |value: &str, rest: &str| given(&format!("01 00 01 01 00 {value} {rest}"), 1);
    for (value, rest, expected) in [
        // −9,223,372,036,854,775,808, and one more as written.
        (format!("{nine} 01"), "00", "SAT 1 splits 0 0"),
        (
            "80 80 80 80 80 80 80 80 80 02".to_string(),
            "00",
            "REFUSED 3",
        ),
        // A tenth byte with bit 80, with an eleventh and without.
        (format!("{nine} 81"), "00", "REFUSED 3"),
        (format!("{nine} 81"), "", "REFUSED 3"),
        // The file ends in the value, or behind it.
        (nine.to_string(), "", "REFUSED 2"),
        ("ff ff ff ff ff".to_string(), "", "REFUSED 2"),
        (format!("{nine} 01"), "", "REFUSED 2"),
        // One byte too many.
        (format!("{nine} 00"), "00", "REFUSED 3"),
        ("ff ff ff ff ff 00".to_string(), "00", "REFUSED 3"),
        ("ff ff ff ff 7f".to_string(), "00", "SAT 1 splits 0 0"),
    ] {
        assert_eq!(one(&value, rest), expected, "{value} {rest}");
    }
    // A count, a kind and a name of six bytes, and of five without an end.
    for before in ["", "01", "01 00", "01 00 01", "01 00 01 00"] {
        for number in ["80 80 80 80 80 01", "80 80 80 80 80", "80 80 80 80 10"] {
            assert_eq!(given(&format!("{before} {number}"), 1), "REFUSED 3");
        }
        assert_eq!(given(&format!("{before} 80 80 80 80"), 1), "REFUSED 2");
    }
    // 4,294,967,296 and 0, 4,294,967,295 and −1: their low 32 bits are the same.
    for pair in [
        "80 80 80 80 20 01 00 00",
        "fe ff ff ff 1f 01 00 01",
        // Both ends.
        "fe ff ff ff ff ff ff ff ff 01 01 00 ff ff ff ff ff ff ff ff ff 01",
    ] {
        let lines = |kind: u8| given(&format!("01 00 02 01 00 {pair} 01 0{kind} 00 01"), 1);
        assert_eq!(lines(0), "UNSAT 1 splits 0 0");
        assert_eq!(lines(1), "SAT 1 splits 0 0");
    }
}

/// "SPENT is given precisely if the walk would visit more nodes than the
/// budget." The splits up to each budget are counted by hand; a larger budget
/// than the node count keeps them.
#[test]
fn budgets_around_the_node_count() {
    // In case h each node in walk order splits on a flag, or is closed.
    let second = [0, 1, 2, 2, 3, 3, 3, 4, 5, 5, 5, 5];
    let guards: [(&str, &str, &[u32], &[u32]); 3] = [
        ("00 00 00", "SAT", &[0, 0], &[0, 0]),
        (C, "SAT", &[0, 1, 1, 1], &[0, 0, 0, 0]),
        (H, "UNSAT", &[0; 12], &second),
    ];
    for (text, verdict, first, second) in guards {
        let nodes = first.len() - 1;
        let with = |verdict: &str, nodes: usize| {
            format!(
                "{verdict} {nodes} splits {} {}",
                first[nodes], second[nodes]
            )
        };
        for budget in 0..20 {
            let expected = if budget < nodes {
                with("SPENT", budget)
            } else {
                with(verdict, nodes)
            };
            let given = given(text, budget as u32);
            assert_eq!(given, expected, "{text} with {budget}");
        }
        assert_eq!(given(text, u32::MAX), with(verdict, nodes));
    }
}

#[test]
fn limits_are_a_parameter() {
    let small = Limits {
        types: 1,
        terms: 2,
        lines: 1,
        ..Limits::LOADER
    };
    let given = |text: &str| answer(&file(text), 100, small).to_string();
    assert_eq!(given("02 00 00 00 00"), "REFUSED 4");
    assert_eq!(given("01 00 03 00 00 00 00 00 00 00"), "REFUSED 4");
    assert_eq!(given("01 00 02 00 00 00 00 02"), "REFUSED 4");
    let sat = "SAT 1 splits 0 0";
    assert_eq!(given("01 00 02 00 00 00 00 01 01 00 01"), sat);
    // nil or cons(list): x is its own tail, and isn't nil.
    assert_eq!(
        given("01 02 00 01 00 02 00 00 03 00 01 00 01 00 00 01"),
        "SAT 3 splits 1 0"
    );
}
