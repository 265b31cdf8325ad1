//! What is wrong with a text is said with its line and column.

const TYPES: &str =
    "type Num = number\ntype List = nil | cons(head: Num, tail: List)\nvar x: List\n";

fn fault(text: &str) -> String {
    match guardtext::read(text) {
        Ok(_) => panic!("{text:?} is taken"),
        Err(fault) => fault.to_string(),
    }
}

/// The fault of a text that goes on, on line 4, after lists and a variable.
fn after(text: &str) -> String {
    fault(&format!("{TYPES}{text}"))
}

#[test]
fn marks_and_numbers() {
    assert_eq!(
        fault("type A = b;"),
        "line 1, column 11: expected a name, a number or a mark, found `;`"
    );
    assert_eq!(
        fault("\n  x ! y"),
        "line 2, column 5: expected a name, a number or a mark, found `!`"
    );
    assert_eq!(
        after("x.head = 9223372036854775808"),
        "line 4, column 10: expected a number from -9223372036854775808 to 9223372036854775807, \
         found `9223372036854775808`"
    );
    assert_eq!(
        after("x.head = -9223372036854775809"),
        "line 4, column 10: expected a number from -9223372036854775808 to 9223372036854775807, \
         found `-9223372036854775809`"
    );
    assert_eq!(
        after("x.head = 3x"),
        "line 4, column 10: expected a whole number, found `3x`"
    );
    assert_eq!(
        after("x.head = -"),
        "line 4, column 10: expected a whole number, found `-`"
    );
}

#[test]
fn forms() {
    assert_eq!(
        fault("type = a"),
        "line 1, column 6: expected a name for the type, found `=`"
    );
    assert_eq!(
        fault("type A = "),
        "line 1, column 9: expected `number` or a variant, found the end of the text"
    );
    assert_eq!(
        fault("type A = a | is\n"),
        "line 1, column 14: expected a variant, found the keyword `is`"
    );
    assert_eq!(
        fault("type A = a(b, c: A)"),
        "line 1, column 13: expected `:`, found `,`"
    );
    assert_eq!(
        fault("type A = a(b: A c: A)"),
        "line 1, column 17: expected `,` or `)`, found `c`"
    );
    assert_eq!(
        fault("var x\n"),
        "line 1, column 6: expected `:` and a type, or `,`, found the end of the line"
    );
    assert_eq!(
        after("x\n"),
        "line 4, column 2: expected `=`, `!=`, `is` or `is not`, found the end of the line"
    );
    assert_eq!(
        after("x is"),
        "line 4, column 5: expected `not` or a variant, found the end of the text"
    );
    assert_eq!(
        after("x is not 3"),
        "line 4, column 10: expected a variant, found `3`"
    );
    assert_eq!(
        after("x = nil nil"),
        "line 4, column 9: expected the end of the line, found `nil`"
    );
    assert_eq!(
        after("= x"),
        "line 4, column 1: expected `type`, `var`, `let`, `row` or a term, found `=`"
    );
    assert_eq!(
        after("x = cons(1, nil # not closed\nx is nil"),
        "line 5, column 1: expected `,` or `)`, found `x`"
    );
}

#[test]
fn names() {
    assert_eq!(fault("var x: A"), "line 1, column 8: there is no type `A`");
    assert_eq!(
        fault("type A = a\ntype A = b"),
        "line 2, column 6: there is a type `A` already, at line 1, column 6"
    );
    assert_eq!(
        fault("type A = a | b | a"),
        "line 1, column 18: there is a variant `a` already, at line 1, column 10"
    );
    assert_eq!(
        fault("type A = a(f: A, f: A)"),
        "line 1, column 18: there is a field `f` already, at line 1, column 12"
    );
    assert_eq!(
        after("let x = nil"),
        "line 4, column 5: there is a term `x` already, at line 3, column 5"
    );
    assert_eq!(
        after("var y, nil: List"),
        "line 4, column 8: `nil` is a variant of `List`; a term needs another name"
    );
    assert_eq!(
        after("x = y\nvar y: List"),
        "line 4, column 5: expected a variant or a term named above, found `y`"
    );
    assert_eq!(
        after("row y = x"),
        "line 4, column 9: expected a number, a built term or a field, \
         found a term that has its row"
    );
}

#[test]
fn kinds_and_types() {
    assert_eq!(
        after("x = x.head"),
        "line 4, column 5: expected a `List`, found a `Num`"
    );
    assert_eq!(
        after("x = 3"),
        "line 4, column 5: expected a `List`, found the number `3`"
    );
    assert_eq!(
        after("x = cons(x, nil)"),
        "line 4, column 10: expected a `Num`, found a `List`"
    );
    assert_eq!(
        after("x.head = nil"),
        "line 4, column 10: expected a `Num`, found `nil`, a variant of `List`"
    );
    assert_eq!(
        after("x: Num = 3"),
        "line 4, column 1: expected a `Num`, found a `List`"
    );
    assert_eq!(
        after("x = cons(3)"),
        "line 4, column 5: expected 2 parts (`head`, `tail`) after `cons`, found 1"
    );
    assert_eq!(
        after("x = nil(3)"),
        "line 4, column 5: expected no parts after `nil`, found 1"
    );
    assert_eq!(
        after("x = x(3)"),
        "line 4, column 5: expected a variant before `(`, found the term `x`"
    );
    assert_eq!(
        after("x is node"),
        "line 4, column 6: expected a variant of `List` (`nil`, `cons`), found `node`"
    );
    assert_eq!(
        after("3 is nil"),
        "line 4, column 1: expected a term of a variant type before `is`, found a `Num`"
    );
}

#[test]
fn fields() {
    assert_eq!(
        after("x.cons = x"),
        "line 4, column 3: expected `.` and a field of `cons` (`head`, `tail`) after `cons`"
    );
    assert_eq!(
        after("x.cons.next = x"),
        "line 4, column 8: expected a field of `cons` (`head`, `tail`), found `next`"
    );
    assert_eq!(
        after("x.nil.tail = x"),
        "line 4, column 7: expected a field of `nil` (it has none), found `tail`"
    );
    assert_eq!(
        after("x.next = x"),
        "line 4, column 3: expected a variant or a field of `List`, found `next`"
    );
    assert_eq!(
        after("x = x.head.tail"),
        "line 4, column 12: `Num` is a number type and has no field `tail`"
    );
    assert_eq!(
        fault("type N = number\ntype A = a(f: N) | b(f: N)\nvar x: A\nx.f = 3"),
        "line 4, column 3: more than one variant of `A` has a field `f`: write `.a.f`, say"
    );
}

#[test]
fn unclear_types() {
    assert_eq!(
        fault("type N = number\ntype M = number\nlet a = 3"),
        "line 3, column 9: the type of `3` isn't clear: write `3: TYPE`"
    );
    assert_eq!(
        fault("type A = a | b\ntype B = b\nb is b"),
        "line 3, column 1: `b` is a variant of `A`, `B`: write `b: A`, say"
    );
}

#[test]
fn deep_texts_are_refused_before_they_overflow() {
    let deep = format!("x = {}nil", "cons(1, ".repeat(1_000_000));
    let fault = after(&deep);
    assert!(
        fault.ends_with("terms inside terms go deeper than 200 here"),
        "{fault}"
    );
    let long = format!("x = x{}", ".tail".repeat(100_000));
    let source = guardtext::read(&format!("{TYPES}{long}"));
    assert_eq!(source.expect("a text").guard.rows.len(), 100_001);
}

#[test]
fn columns_are_characters() {
    assert_eq!(
        fault("type Größe = number\ntype Länge = klein | größer(a: Größe) | é ;"),
        "line 2, column 43: expected a name, a number or a mark, found `;`"
    );
}
