//! The branches of guards that can't hold, in the author's names.

use guardtext::branches::branches;
use guardtext::check::Source;
use guardtext::desk::{explain, Answer};
use guardtext::encode::encode;

const LISTS: &str = "type Num = number\ntype List = nil | cons(head: Num, tail: List)\n";

fn read(text: &str) -> Source {
    guardtext::read(text).unwrap_or_else(|fault| panic!("{fault}"))
}

fn file(source: &Source) -> Vec<u8> {
    encode(&source.guard).unwrap_or_else(|refusal| panic!("{refusal}"))
}

/// The branches of a dead guard.
fn dead(text: &str) -> String {
    let source = read(text);
    let (answer, refutation) = explain(&file(&source), 1000);
    assert!(matches!(answer, Answer::Unsat { .. }), "{answer:?}");
    branches(&source, &refutation.expect("branches")).unwrap_or_else(|why| panic!("{why}"))
}

fn with_lists(text: &str) -> String {
    dead(&format!("{LISTS}{text}"))
}

#[test]
fn splits_have_two_branches() {
    assert_eq!(
        with_lists("var x, y: List\nx.head = 3\nx.tail = y\ny.tail = x"),
        "\
x is cons?
  yes: y is cons?
    yes: closed: x would contain itself
    no: closed: no variant left for x
  no: closed: x.head is equal to 0 and to 3
"
    );
}

/// Both numbers in full, where they differ in their high halves alone.
#[test]
fn numbers_over_64_bits_are_told_apart() {
    assert_eq!(
        with_lists("var x: List\nx.head = 4294967301\nx.head = 5"),
        "closed: x.head is equal to 5 and to 4294967301\n"
    );
    assert_eq!(
        with_lists("var x: List\nx is nil\nx.head = -9223372036854775808"),
        "closed: x.head is equal to -9223372036854775808 and to 0\n"
    );
}

#[test]
fn lines_are_those_of_the_text() {
    assert_eq!(
        with_lists("var x: List\n\n# Twice the same.\nlet y = x.tail\nx.tail != y"),
        "closed: line 7 \"y != y\": both sides are equal\n"
    );
    assert_eq!(
        with_lists("var x: List\ncons(x.head, x) != cons(x.head, x)"),
        "closed: line 4 \"cons(x.head, x) != cons(x.head, x)\": both sides are equal\n"
    );
}

#[test]
fn fields_beside_those_read_have_names() {
    let types = "type N = number\ntype F = on | off\ntype P = none | pair(a: N, b: F)\n";
    let text = "var x, y, z: P\nx.a = 1\ny.a = 1\nz.a = 1\nx != y\nx != z\ny != z\n";
    let found = dead(&format!("{types}{text}"));
    assert!(found.contains("x.b is on?\n"), "{found}");
    assert!(found.contains("no: z.b is on?\n"), "{found}");
}

#[test]
fn fields_of_several_variants_have_their_variant() {
    let types = "type N = number\ntype P = none | one(a: N) | two(a: N, b: N)\n";
    let found = dead(&format!("{types}var x: P\nx.two.a = 1\nx.two.a = 2\n"));
    assert_eq!(found, "closed: x.two.a is equal to 1 and to 2\n");
}

#[test]
fn numbers_are_those_that_are_equal() {
    assert_eq!(
        with_lists("var x: List\nx.head = 5\n7 = x.head\nx.head != 6\n6 != 4\n"),
        "closed: x.head is equal to 5 and to 7\n"
    );
    assert_eq!(with_lists("-3: Num = 4"), "closed: -3 is equal to 4\n");
    assert_eq!(with_lists("4: Num = -3"), "closed: 4 is equal to -3\n");
    assert_eq!(
        with_lists("let a = -3: Num\na = 4"),
        "closed: a is equal to -3 and to 4\n"
    );
    // Where x is nil its head is 0, and the 8 is that of another list.
    let text = "var x, y: List\nx.head = 2\nx.tail = x\ny.head = 8\ny is cons";
    assert_eq!(
        with_lists(text),
        "x is cons?\n  yes: closed: x would contain itself\n  no: closed: x.head is equal to 0 and to 2\n"
    );
}

#[test]
fn without_room_for_a_line_the_numbers_stay_out() {
    let text = format!("var n: Num\nn = 1\nn = 2\n{}", "n = n\n".repeat(30));
    assert_eq!(
        with_lists(&text),
        "closed: n is equal to two different numbers\n"
    );
}

#[test]
fn a_record_of_another_guard_is_an_error() {
    let file = file(&read("type N = number\n1 = 2"));
    let (_, refutation) = explain(&file, 1);
    let other = read("type N = number\n1 = 1");
    let why = branches(&other, &refutation.expect("branches")).expect_err("an error");
    assert!(why.starts_with("the desk's record of this guard isn't accepted, question 12"));
}

#[test]
fn other_answers_have_no_branches() {
    for file in [file(&read("")), vec![1, 1, 1, 0]] {
        let (_, refutation) = explain(&file, 1);
        assert_eq!(refutation, None, "{file:?}");
    }
}
