//! Two guards at once, in the names of both texts.

use guardtext::both::{both, Failure, Part};
use guardtext::check::Source;
use guardtext::desk::decide;
use guardtext::encode::encode;
use guardtext::show::show_of;

const LISTS: &str = "type Num = number\ntype List = nil | cons(head: Num, tail: List)\n";

fn read(text: &str) -> Source {
    guardtext::read(text).unwrap_or_else(|fault| panic!("{fault}"))
}

/// The merged guard of two texts, `outer` and `inner`, and its file.
fn merged(outer: &str, inner: &str) -> Result<(Vec<u8>, Source), Failure> {
    let sources = [outer, inner].map(read);
    let files = [0, 1].map(|i| encode(&sources[i].guard).expect("a file"));
    let [outer, inner] = [("outer", 0), ("inner", 1)].map(|(path, i)| Part {
        path,
        source: &sources[i],
        file: &files[i],
    });
    both(&outer, &inner)
}

/// What is shown of two texts behind the types of lists.
fn shown(outer: &str, inner: &str) -> String {
    let (file, source) = merged(&format!("{LISTS}{outer}"), &format!("{LISTS}{inner}"))
        .unwrap_or_else(|failure| panic!("{failure:?}"));
    show_of(&source, &decide(&file, 1_000), "both guards").expect("an answer")
}

fn refused(outer: &str, inner: &str) -> (u32, String) {
    match merged(outer, inner) {
        Err(Failure::Refused(question, fault)) => (question, fault.to_string()),
        other => panic!("{other:?}"),
    }
}

#[test]
fn both_can_hold() {
    // The tail is named in both, and is the same term.
    let outer = "var x: List\nlet rest = x.tail\nx.head = 3\nx is cons";
    let inner = "var x: List\nvar n: Num\nlet rest = x.tail\nrest = nil\nn = x.head";
    assert_eq!(
        shown(outer, inner),
        "SAT, 1 node, no splits\nx = cons(3, nil)\nrest = nil\nn = 3\n"
    );
}

#[test]
fn both_cannot_hold() {
    let unsat = "UNSAT, 1 node, no splits: no messages make both guards hold\n";
    assert_eq!(shown("var n: Num\nn = 3", "var n: Num\nn = 4"), unsat);
    // Variables are taken as one in order, whatever their names.
    assert_eq!(shown("var n: Num\nn = 3", "var m: Num\nm = 4"), unsat);
}

#[test]
fn one_name_for_two_terms() {
    let outer = "var n: Num\nlet other = 3\nn = other";
    let inner = "var n: Num\nlet other = 4\nn != other";
    assert_eq!(
        shown(outer, inner),
        "SAT, 1 node, no splits\nn = 3\nother (outer) = 3\nother (inner) = 4\n"
    );
    // The variables in another order: each is told under both names.
    let (outer, inner) = ("var a, b: Num\na = 1\nb = 2", "var b, a: Num");
    assert_eq!(
        shown(outer, inner),
        "SAT, 1 node, no splits\na (outer) = 1\nb (outer) = 2\nb (inner) = 1\na (inner) = 2\n"
    );
}

#[test]
fn unlike_types() {
    let alike = "; both guards need the same types, declared alike and in the same order";
    for (outer, inner, at) in [
        (
            "type A = a | b",
            "type A = a",
            "line 1, column 6: type `A` is another one in outer",
        ),
        (
            "type A = a",
            "type A = a\ntype N = number",
            "line 2, column 6: outer has no type `N`",
        ),
        (
            "type A = a\ntype N = number",
            "type A = a",
            "line 1, column 6: type `N` of outer is missing",
        ),
        (
            "type N = number",
            "type A = a",
            "line 1, column 6: outer has `N` where this has `A`",
        ),
    ] {
        assert_eq!(refused(outer, inner), (15, format!("{at}{alike}")));
    }
    // The same bytes, but other names.
    for (outer, inner) in [
        ("type N = number", "type M = number"),
        ("type A = a | b", "type A = a | c"),
    ] {
        assert!(matches!(merged(outer, inner), Err(Failure::Names(_))));
    }
}

#[test]
fn unlike_variables() {
    let outer = format!("{LISTS}var x, y: List");
    let inner = format!("{LISTS}var x: List\nvar n: Num");
    let why = "line 4, column 5: variable 2 is `n: Num` here and `y: List` in outer; \
               variables are taken as one in order, and have to be of the same type";
    assert_eq!(refused(&outer, &inner), (16, why.to_string()));
}

#[test]
fn too_many_together() {
    let numbers = |from: usize, many: usize| {
        let lets = (from..from + many).map(|n| format!("let c{n} = {n}\n"));
        format!("type Num = number\n{}", lets.collect::<String>())
    };
    let why = |what, found, most| {
        format!(
            "the two guards together have {found} {what}, at most {most} are taken; \
             this is the first too many"
        )
    };
    let (question, said) = refused(&numbers(0, 14), &numbers(20, 12));
    assert_eq!(
        (question, said),
        (4, format!("line 12, column 11: {}", why("terms", 26, 24)))
    );
    let lines = |many: usize| format!("type Num = number\nvar n: Num\n{}", "n = n\n".repeat(many));
    let (question, said) = refused(&lines(30), &lines(3));
    assert_eq!(
        (question, said),
        (4, format!("line 5, column 1: {}", why("lines", 33, 32)))
    );
}
