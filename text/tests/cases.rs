//! Cases of document 01, written as text.

use guardtext::encode::{encode, hex};
use guardtext::guard::Line;

const LISTS: &str = "type Num = number\ntype List = nil | cons(head: Num, tail: List)\n";

fn file(text: &str) -> String {
    let source = guardtext::read(text).unwrap_or_else(|fault| panic!("{fault}"));
    hex(&encode(&source.guard).unwrap_or_else(|refusal| panic!("{refusal}")))
}

fn with_lists(text: &str) -> String {
    file(&format!("{LISTS}{text}"))
}

#[test]
fn case_a_is_the_empty_text() {
    assert_eq!(file(""), "000000");
    assert_eq!(file("\n  # nothing\n\r\n"), "000000");
}

#[test]
fn case_c() {
    let wanted = "020002000200010200010300010101000001";
    assert_eq!(with_lists("var x: List\nx = x.cons.tail"), wanted);
    assert_eq!(
        with_lists("var x: List\nlet rest = x.tail\nx = rest"),
        wanted
    );
}

#[test]
fn case_e() {
    let wanted = "020002000200010200010300010102000001020001";
    let text = "var x: List\nlet rest = x.cons.tail\nx = rest\nx is cons\n";
    assert_eq!(with_lists(text), wanted);
}

#[test]
fn case_h() {
    let wanted = "010200000300000000000003010001010002010102";
    let text = "type Mode = on | off\nvar a, b, c: Mode\na != b\na != c\nb != c\n";
    assert_eq!(file(text), wanted);
}

#[test]
fn case_j() {
    let wanted = "01000201000501000801000001";
    assert_eq!(file("type Num = number\n-3 = 4\n"), wanted);
    assert_eq!(file("type Num = number\nlet a = -3: Num\na = 4"), wanted);
}

#[test]
fn numbers_over_64_bits() {
    for (number, bytes) in [
        ("2147483648", "8080808010"),
        ("-2147483649", "8180808010"),
        ("4294967296", "8080808020"),
        ("9223372036854775807", "feffffffffffffffff01"),
        ("-9223372036854775808", "ffffffffffffffffff01"),
    ] {
        let text = format!("type Time = number\nvar at: Time\nat = {number}");
        let wanted = format!("01000200000100{bytes}01000001");
        assert_eq!(file(&text), wanted, "{number}");
    }
}

#[test]
fn each_distinct_term_is_one_row() {
    let rows = |text: &str| {
        let source = guardtext::read(&format!("{LISTS}{text}"));
        let source = source.unwrap_or_else(|fault| panic!("{fault}"));
        source.guard.rows.len()
    };
    assert_eq!(rows("var x: List\nx = cons(1, nil)\nx != cons(1, nil)"), 4);
    assert_eq!(
        rows("var x: List\nlet a = x.tail\nlet b = x.cons.tail\na = b"),
        2
    );
    assert_eq!(rows("var x: List\nlet a = x\na = x"), 1);
    assert_eq!(rows("let a = 3: Num\nrow b = 3: Num\na = b\na = 3"), 2);
}

#[test]
fn a_term_in_place_is_its_first_row() {
    let source = guardtext::read("type N = number\nlet a = 3\nrow b = 3\nb = 3\n");
    let source = source.unwrap_or_else(|fault| panic!("{fault}"));
    assert_eq!(source.guard.lines, [Line::Equal(1, 0)]);
    let terms = [("a".to_string(), 0), ("b".to_string(), 1)];
    assert_eq!(source.names.terms, terms);
}

#[test]
fn the_type_comes_from_the_other_side_or_the_field() {
    let types = "type A = none | some(a: N)\ntype B = none | one(b: M)\n\
                 type N = number\ntype M = number\n";
    for text in [
        "var b: B\nnone = b",
        "var b: B\nb = none",
        "none: B = none",
        "var b: B\n3 = b.b",
        "one(7) = none",
    ] {
        let text = format!("{types}{text}");
        let source = guardtext::read(&text).unwrap_or_else(|fault| panic!("{text}: {fault}"));
        let ty = *source.guard.row_types.last().expect("a row");
        assert!(ty == 1 || ty == 3, "{text}");
    }
}

#[test]
fn a_statement_goes_on_within_parentheses_and_next_to_bars() {
    let broken = "type Num = number\ntype List =\n  | nil  # the end\n\n  | cons(head: Num,\n  tail: List)\n\
                  var x: List\nx = cons(\n1,\nnil\n)\n";
    let whole = "var x: List\nx = cons(1, nil)";
    assert_eq!(file(broken), with_lists(whole));
}
