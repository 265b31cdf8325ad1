//! A guard as an SMT-LIB 2 script, for solvers of other people.

use crate::guard::{Guard, Line, Row};
use crate::types::DefaultOf;

/// The script: its `check-sat` answers like the guard's verdict.
pub fn script(guard: &Guard) -> String {
    let mut script = vec!["(set-logic ALL)".to_string()];
    script.extend(datatypes(guard));
    for (term, row) in guard.rows.iter().enumerate() {
        script.push(term_definition(guard, term, row));
    }
    script.extend(
        guard
            .lines
            .iter()
            .map(|line| format!("(assert {})", formula(guard, line))),
    );
    script.push("(check-sat)".to_string());
    script.join("\n") + "\n"
}

/// The script between `push` and `pop`, with a prefix before each name and
/// without the logic: many guards for one process. z3 keeps names past a `pop`.
pub fn scoped(guard: &Guard, prefix: &str) -> String {
    let script = script(guard);
    let (_, script) = script.split_once('\n').expect("the logic's line");
    let mut scoped = "(push 1)\n".to_string();
    let mut before = ' ';
    let mut rest = script.chars().peekable();
    while let Some(letter) = rest.next() {
        // Names are a letter and a number, with more after it.
        let first = !before.is_alphanumeric() && "Tcft".contains(letter);
        if first && rest.peek().is_some_and(char::is_ascii_digit) {
            scoped += prefix;
        }
        scoped.push(letter);
        before = letter;
    }
    scoped + "(pop 1)\n"
}

/// Number types are all `Int`: no term is of two types.
fn sort(guard: &Guard, ty: usize) -> String {
    if guard.types[ty].is_number() {
        "Int".to_string()
    } else {
        format!("T{ty}")
    }
}

/// All variant types at once, since they may name each other.
fn datatypes(guard: &Guard) -> Option<String> {
    let mut names = Vec::new();
    let mut bodies = Vec::new();
    for (ty, definition) in guard.types.iter().enumerate() {
        if definition.is_number() {
            continue;
        }
        let mut variants = Vec::new();
        for (variant, fields) in definition.variants.iter().enumerate() {
            let mut text = format!("(c{ty}_{variant}");
            for (position, &field) in fields.iter().enumerate() {
                text += &format!(" (f{ty}_{variant}_{position} {})", sort(guard, field));
            }
            variants.push(text + ")");
        }
        names.push(format!("(T{ty} 0)"));
        bodies.push(format!("({})", variants.join(" ")));
    }
    let some = !names.is_empty();
    some.then(|| {
        format!(
            "(declare-datatypes ({}) ({}))",
            names.join(" "),
            bodies.join(" ")
        )
    })
}

fn integer(value: i64) -> String {
    if value < 0 {
        format!("(- {})", value.unsigned_abs())
    } else {
        value.to_string()
    }
}

fn built(ty: usize, variant: usize, parts: &[String]) -> String {
    if parts.is_empty() {
        format!("c{ty}_{variant}")
    } else {
        format!("(c{ty}_{variant} {})", parts.join(" "))
    }
}

fn default(guard: &Guard, ty: usize) -> String {
    match guard.defaults[ty] {
        DefaultOf::Zero => "0".to_string(),
        DefaultOf::Variant(variant) => {
            let fields = guard.fields(ty, variant).iter();
            let parts: Vec<String> = fields.map(|&field| default(guard, field)).collect();
            built(ty, variant, &parts)
        }
    }
}

fn term_definition(guard: &Guard, term: usize, row: &Row) -> String {
    let ty = guard.row_types[term];
    let sort = sort(guard, ty);
    let value = match row {
        Row::Variable { .. } => return format!("(declare-const t{term} {sort})"),
        Row::Constant { value, .. } => integer(*value),
        Row::Built { ty, variant, parts } => {
            let parts: Vec<String> = parts.iter().map(|part| format!("t{part}")).collect();
            built(*ty, *variant, &parts)
        }
        // Other solvers leave such a read of another variant open.
        Row::Read {
            term: from,
            variant,
            position,
        } => {
            let of = guard.row_types[*from];
            format!(
                "(ite ((_ is c{of}_{variant}) t{from}) (f{of}_{variant}_{position} t{from}) {})",
                default(guard, ty)
            )
        }
    };
    format!("(define-fun t{term} () {sort} {value})")
}

fn formula(guard: &Guard, line: &Line) -> String {
    let is =
        |term: usize, variant| format!("((_ is c{}_{variant}) t{term})", guard.row_types[term]);
    match *line {
        Line::Equal(a, b) => format!("(= t{a} t{b})"),
        Line::Unequal(a, b) => format!("(not (= t{a} t{b}))"),
        Line::Is(term, variant) => is(term, variant),
        Line::Isnt(term, variant) => format!("(not {})", is(term, variant)),
    }
}

#[cfg(test)]
mod tests {
    use super::*;
    use crate::guard::Limits;
    use crate::read::read;
    use crate::vectors::unhex;

    #[test]
    fn a_prefix_before_every_name() {
        // Case c of document 01, with a constant.
        let file = unhex("02 00 02 00 02 00 01 03 00 01 03 00 01 01 01 00 05 01 00 00 01");
        let guard = read(&file.expect("bytes"), Limits::BASE).expect("a guard");
        let expected = "\
(push 1)
(declare-datatypes ((g7T1 0)) (((g7c1_0) (g7c1_1 (g7f1_1_0 Int) (g7f1_1_1 g7T1)))))
(declare-const g7t0 g7T1)
(define-fun g7t1 () g7T1 (ite ((_ is g7c1_1) g7t0) (g7f1_1_1 g7t0) g7c1_0))
(define-fun g7t2 () Int (- 3))
(assert (= g7t0 g7t1))
(check-sat)
(pop 1)
";
        assert_eq!(scoped(&guard, "g7"), expected);
    }
}
