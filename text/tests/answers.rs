//! Answers in the author's names.

use guarddesk::Refusal;
use guardtext::check::Source;
use guardtext::desk::{Answer, Message, Splits};
use guardtext::encode::encode;
use guardtext::show::show;

const LISTS: &str = "type Num = number\ntype List = nil | cons(head: Num, tail: List)\n";

fn read(text: &str) -> Source {
    guardtext::read(text).unwrap_or_else(|fault| panic!("{fault}"))
}

fn answered(text: &str, answer: Answer) -> Result<String, String> {
    show(&read(text), &answer)
}

/// What is shown where the writer refuses the guard with this question.
fn refused(text: &str, question: u32) -> String {
    assert_eq!(encode(&read(text).guard), Err(Refusal(question)), "{text}");
    answered(text, Answer::Refused(question)).unwrap_or_else(|why| panic!("{why}"))
}

fn number(value: i64) -> Message {
    Message::Number { ty: 0, value }
}

fn built(variant: usize, parts: &[usize]) -> Message {
    Message::Built {
        ty: 1,
        variant,
        parts: parts.to_vec(),
    }
}

fn splits(reads: u32, values: u32) -> Splits {
    Splits { reads, values }
}

fn sat(rows: Vec<Message>, places: &[usize]) -> Answer {
    Answer::Sat {
        nodes: 3,
        splits: splits(1, 0),
        rows,
        places: places.to_vec(),
    }
}

#[test]
fn verdicts() {
    let shown = |answer| answered("", answer).expect("an answer");
    let unsat = |nodes, splits| shown(Answer::Unsat { nodes, splits });
    assert_eq!(
        unsat(11, splits(0, 5)),
        "UNSAT, 11 nodes, 0 splits on fields read, 5 on values: no messages make this guard hold\n"
    );
    assert_eq!(
        unsat(1, splits(0, 0)),
        "UNSAT, 1 node, no splits: no messages make this guard hold\n"
    );
    let spent = |budget, splits| shown(Answer::Spent { budget, splits });
    assert_eq!(
        spent(10, splits(2, 3)),
        "SPENT, budget 10 nodes, 2 splits on fields read, 3 on values: more nodes are needed to decide\n"
    );
    assert_eq!(
        spent(1, splits(1, 0)),
        "SPENT, budget 1 node, 1 split on fields read, 0 on values: more nodes are needed to decide\n"
    );
    assert_eq!(
        spent(0, splits(0, 0)),
        "SPENT, budget 0 nodes, no splits: more nodes are needed to decide\n"
    );
    let sat = Answer::Sat {
        nodes: 1,
        splits: splits(0, 0),
        rows: vec![],
        places: vec![],
    };
    assert_eq!(shown(sat), "SAT, 1 node, no splits\n");
}

#[test]
fn named_terms_get_their_messages() {
    let text = format!("{LISTS}var x: List\nlet rest = x.tail\nlet same = x\nx.head = -3");
    let rows = vec![number(-3), built(0, &[]), built(1, &[0, 1])];
    assert_eq!(
        answered(&text, sat(rows, &[2, 1, 0, 0])).expect("an answer"),
        "SAT, 3 nodes, 1 split on fields read, 0 on values\n\
         x = cons(-3, nil)\nrest = nil\nsame = cons(-3, nil)\n"
    );
}

#[test]
fn thousands_of_levels_are_printed_in_full() {
    let mut rows = vec![number(7), built(0, &[])];
    for row in 2..4_096 {
        rows.push(built(1, &[0, row - 1]));
    }
    let shown = answered(&format!("{LISTS}var x: List"), sat(rows, &[4_095]));
    let wanted = format!("x = {}nil{}\n", "cons(7, ".repeat(4_094), ")".repeat(4_094));
    let shown = shown.expect("an answer");
    let (line_one, shown) = shown.split_once('\n').expect("lines");
    assert!(line_one.starts_with("SAT, 3 nodes, "), "{line_one}");
    assert_eq!(shown, wanted);
}

#[test]
fn parts_of_huge_messages_are_printed_once() {
    let text = "type Num = number\ntype Tree = leaf | node(a: Tree, b: Tree)\nvar x, m3: Tree";
    let mut rows = vec![built(0, &[])];
    for row in 1..60 {
        rows.push(built(1, &[row - 1, row - 1]));
    }
    let shown = answered(text, sat(rows, &[59, 3])).expect("an answer");
    let lines: Vec<&str> = shown.lines().collect();
    assert_eq!(lines[1], "let m1 = node(leaf, leaf): Tree");
    assert_eq!(lines[3], "let m3_ = node(m2, m2): Tree");
    assert_eq!(lines[4], "let m4 = node(m3_, m3_): Tree");
    assert_eq!(lines[59], "x = node(m58, m58)");
    assert_eq!(lines[60], "m3 = m3_");
    assert_eq!(lines.len(), 61);
}

#[test]
fn messages_of_another_guard_are_errors() {
    let text = format!("{LISTS}var x: List");
    for (rows, places) in [
        (vec![], vec![]),
        (vec![number(1)], vec![0]),
        (vec![built(0, &[])], vec![1]),
        (vec![built(1, &[0, 0])], vec![0]),
        (vec![built(0, &[]), built(1, &[0, 0])], vec![1]),
        (vec![built(2, &[])], vec![0]),
    ] {
        assert!(answered(&text, sat(rows, &places)).is_err());
    }
}

#[test]
fn refusals_have_a_place() {
    assert_eq!(
        refused("type A = a\ntype B = b | c(x: C)\ntype C = d(y: C)", 8),
        "REFUSED 8, line 3, column 6: type `C` has no default, as it has no messages: \
         each of its variants has a field that no message can fill\n"
    );
    assert_eq!(
        refused("type A = a | b\ntype B = c | d(x: A)", 9),
        "REFUSED 9, line 2, column 14: variant `d` of `B` has fields of finite types only: \
         at least one field has to be of an infinite type, such as a number type\n"
    );
    assert_eq!(
        refused("type N = number\ntype A = a\ntype M = number\nvar x: M", 18),
        "REFUSED 18, line 3, column 6: more than one number type: `M` is the second\n"
    );
    let seven: String = (0..7).map(|t| format!("type T{t} = number\n")).collect();
    assert_eq!(
        refused(&seven, 4),
        "REFUSED 4, line 7, column 6: the guard has 7 types, at most 6 are taken; \
         this is the first too many\n"
    );
    let variants = |letter: char, n: usize| {
        let names: Vec<String> = (0..n).map(|v| format!("{letter}{v}")).collect();
        format!("type {letter} =\n{}\n", names.join("\n| ")).replacen("\n", " ", 1)
    };
    let wide = refused(&variants('A', 17), 4);
    assert!(wide.starts_with("REFUSED 4, line 17, column 3: type `A` has 17 variants, at most 16 "));
    let four: String = "ABCD".chars().map(|letter| variants(letter, 13)).collect();
    let four = refused(&four, 4);
    assert!(
        four.starts_with("REFUSED 4, line 49, column 3: type `D` has 13 variants, and at most 48"),
        "{four}"
    );
    assert!(four.contains("there is room for 9 here"));
    assert_eq!(
        refused("type N = number\ntype A = a(w: N, x: N,\n  y: N, z: N)", 4),
        "REFUSED 4, line 3, column 9: variant `a` has 4 fields, at most 3 are taken; \
         this is the first too many\n"
    );
    let terms: String = (0..25).map(|x| format!("let x{x} = {x}\n")).collect();
    assert_eq!(
        refused(&format!("type N = number\n{terms}"), 4),
        "REFUSED 4, line 26, column 11: the guard has 25 different terms, at most 24 are taken; \
         this is the first too many\n"
    );
    let lines = "x = x\n".repeat(40);
    assert_eq!(
        refused(&format!("type N = number\nvar x: N\n{lines}"), 4),
        "REFUSED 4, line 35, column 1: the guard has 40 lines, at most 32 are taken; \
         this is the first too many\n"
    );
}

#[test]
fn refusals_without_a_reason_are_errors() {
    assert!(answered("type A = a", Answer::Refused(8)).is_err());
    assert!(answered("type A = number", Answer::Refused(18)).is_err());
    assert!(answered("type A = a(x: A)", Answer::Refused(4)).is_err());
}
