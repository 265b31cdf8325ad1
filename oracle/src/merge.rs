//! Request #107: two guards that have to hold at once, as one guard file.

use crate::encode::Draft;
use crate::guard::{Guard, Limits, Line, Row};
use crate::read::{self, Question};

/// Why the merge refuses.
#[derive(Clone, Copy, Debug, PartialEq, Eq)]
pub enum Refusal {
    /// A question about the first file, which "is asked before the second".
    First(Question),
    Second(Question),
    /// "When the type parts differ in any byte."
    Types,
    /// "When two variables taken as one differ in type."
    Variables,
    /// "Too many rows or lines is 4."
    TooMany,
    /// "Too short an output."
    Output,
}

impl Refusal {
    pub fn number(self) -> u8 {
        match self {
            Refusal::First(question) | Refusal::Second(question) => question.number(),
            Refusal::Types => 15,
            Refusal::Variables => 16,
            Refusal::TooMany => Question::CountWithinLimits.number(),
            Refusal::Output => 14,
        }
    }
}

/// The bytes of the file that two accepted files merge to.
pub fn merge(first: &[u8], second: &[u8], limits: Limits) -> Result<Vec<u8>, Refusal> {
    let first = read::read(first, limits).map_err(Refusal::First)?;
    let second = read::read(second, limits).map_err(Refusal::Second)?;
    Ok(merge_guards(&first, &second)?.bytes())
}

/// The same for an output buffer of so many bytes, which is asked last.
pub fn merge_within(
    first: &[u8],
    second: &[u8],
    room: usize,
    limits: Limits,
) -> Result<Vec<u8>, Refusal> {
    let file = merge(first, second, limits)?;
    if file.len() > room {
        return Err(Refusal::Output);
    }
    Ok(file)
}

/// Two accepted guards as one.
pub fn merge_guards(first: &Guard, second: &Guard) -> Result<Draft, Refusal> {
    // Accepted types are written in one way only.
    if first.types != second.types {
        return Err(Refusal::Types);
    }
    let (own, others) = (variables(first), variables(second));
    // "While both last."
    let unlike = |(&a, &b): (&usize, &usize)| first.row_types[a] != second.row_types[b];
    if own.iter().zip(&others).any(unlike) {
        return Err(Refusal::Variables);
    }
    let merged = joined(first, &own, second);
    let (rows, lines) = (merged.rows.len(), merged.lines.len());
    if rows > first.limits.terms || lines > first.limits.lines {
        return Err(Refusal::TooMany);
    }
    Ok(merged)
}

/// The rows that are variables, in order.
pub fn variables(guard: &Guard) -> Vec<usize> {
    let variable = |&row: &usize| matches!(guard.rows[row], Row::Variable { .. });
    (0..guard.rows.len()).filter(variable).collect()
}

/// "The first's rows, then the second's renumbered, then the lines likewise",
/// whatever the limits. The second's variables are "taken in order as the
/// first's", these rows, "and not written again".
fn joined(first: &Guard, variables: &[usize], second: &Guard) -> Draft {
    let mut merged = Draft::of(first);
    let mut taken = variables.iter().copied();
    // The merged row of each row of the second.
    let mut rows = Vec::new();
    for (row, &ty) in second.rows.iter().zip(&second.row_types) {
        let shared = match row {
            Row::Variable { .. } => taken.next(),
            _ => None,
        };
        rows.push(shared.unwrap_or_else(|| merged.push(renumbered(row, &rows), ty)));
    }
    let lines = second.lines.iter();
    merged
        .lines
        .extend(lines.map(|line| renumbered_line(*line, &rows)));
    merged
}

/// A row over the merged rows of those that it names.
fn renumbered(row: &Row, rows: &[usize]) -> Row {
    let mut row = row.clone();
    match &mut row {
        Row::Variable { .. } | Row::Constant { .. } => {}
        Row::Built { parts, .. } => parts.iter_mut().for_each(|part| *part = rows[*part]),
        Row::Read { term, .. } => *term = rows[*term],
    }
    row
}

fn renumbered_line(line: Line, rows: &[usize]) -> Line {
    match line {
        Line::Equal(a, b) => Line::Equal(rows[a], rows[b]),
        Line::Unequal(a, b) => Line::Unequal(rows[a], rows[b]),
        Line::Is(term, variant) => Line::Is(rows[term], variant),
        Line::Isnt(term, variant) => Line::Isnt(rows[term], variant),
    }
}

#[cfg(test)]
mod tests {
    use super::*;
    use crate::vectors::unhex;

    /// Two types, numbers and lists of them, in document 01's cases.
    const X: &str = "02 00 02 00 02 00 01";

    fn file(text: &str) -> Vec<u8> {
        unhex(&text.replace('X', X)).expect("hexadecimal")
    }

    fn within(first: &str, second: &str, room: usize) -> Result<Vec<u8>, u8> {
        merge_within(&file(first), &file(second), room, Limits::BASE).map_err(Refusal::number)
    }

    fn merged(first: &str, second: &str) -> Result<Vec<u8>, u8> {
        within(first, second, 1_000)
    }

    fn assert_merged(first: &str, second: &str, expected: &str) {
        let expected = file(expected);
        assert_eq!(merged(first, second), Ok(expected), "{first}, {second}");
    }

    /// Document 01's case c: a list equal to its own tail.
    const C: &str = "X 02 00 01 03 00 01 01 01 00 00 01";

    #[test]
    fn a_list_and_its_tail_with_themselves() {
        // One variable; its tail is read by each of the guards.
        let twice = "X 03 00 01 03 00 01 01 03 00 01 01 02 00 00 01 00 00 02";
        assert_merged(C, C, twice);
        // Once more: the first's variable is taken again, behind it its rows.
        let thrice = "X 04 00 01 03 00 01 01 03 00 01 01 03 00 01 01 03 00 00 01 00 00 02 00 00 03";
        assert_merged(twice, C, thrice);
        assert_merged(C, twice, thrice);
    }

    #[test]
    fn guards_without_rows() {
        assert_merged("00 00 00", "00 00 00", "00 00 00");
        assert_merged("X 00 00", C, C);
        assert_merged(C, "X 00 00", C);
    }

    #[test]
    fn variables_that_only_one_has() {
        // The second has two variables more, of other types in between.
        assert_merged(
            "X 01 00 01 01 02 00 00",
            "X 03 00 01 00 00 00 01 02 01 00 02 03 02 01",
            "X 03 00 01 00 00 00 01 03 02 00 00 01 00 02 03 02 01",
        );
        // The first has them.
        assert_merged(
            "X 03 00 01 00 00 00 01 01 01 00 02",
            "X 01 00 01 01 02 00 01",
            "X 03 00 01 00 00 00 01 02 01 00 02 02 00 01",
        );
        // No variables in one of the two: nothing is taken as one.
        assert_merged(
            "X 01 02 01 00 01 02 00 00",
            "X 01 00 01 01 02 00 01",
            "X 02 02 01 00 00 01 02 02 00 00 02 01 01",
        );
    }

    #[test]
    fn variables_behind_other_rows() {
        // First: nil, x, x's head, [that head], and x is it. Second: 7, y, z, cons
        // of 7 and z, y's tail. y is x, row 1; 7 is row 4, and z row 5 behind it.
        assert_merged(
            "X 04 02 01 00 00 01 03 01 01 00 02 01 01 02 00 01 00 01 03",
            "X 05 01 00 0e 00 01 00 01 02 01 01 00 02 03 01 01 01 03 00 03 01 01 04 02 03 01 00",
            "X 08 02 01 00 00 01 03 01 01 00 02 01 01 02 00 01 00 0e 00 01 02 01 01 04 05 03 01 01 01 \
             04 00 01 03 00 06 01 01 07 05 03 01 00",
        );
    }

    #[test]
    fn constants_keep_their_bytes() {
        // The least value and the greatest, in ten bytes each.
        let least = "01 00 ff ff ff ff ff ff ff ff ff 01";
        let most = "01 00 fe ff ff ff ff ff ff ff ff 01";
        assert_merged(
            &format!("01 00 02 00 00 {least} 01 00 00 01"),
            &format!("01 00 02 {most} 00 00 01 01 01 00"),
            &format!("01 00 03 00 00 {least} {most} 02 00 00 01 01 00 02"),
        );
        // Alike in both, they are written twice.
        assert_merged(
            "01 00 01 01 00 80 01 00",
            "01 00 01 01 00 80 01 00",
            "01 00 02 01 00 80 01 01 00 80 01 00",
        );
    }

    /// A file for each question about it, document 01's case k.
    const REFUSED: [(&str, u8); 9] = [
        ("-", 2),
        ("80 00", 3),
        ("07", 4),
        ("01 00 01 00 01", 5),
        ("01 00 01 04", 6),
        ("01 00 01 02 00", 7),
        ("01 01 01 00", 8),
        ("02 01 00 01 01 00", 9),
        ("00 00 00 00", 10),
    ];

    #[test]
    fn the_first_is_asked_before_the_second() {
        for (bad, question) in REFUSED {
            assert_eq!(merged(bad, C), Err(question), "{bad}");
            assert_eq!(merged(C, bad), Err(question), "{bad}");
            for (other, later) in REFUSED {
                assert_eq!(merged(bad, other), Err(question), "{bad}, {other}");
                assert_eq!(merged(other, bad), Err(later), "{other}, {bad}");
            }
        }
    }

    /// A number type and so many variables, or constants 0, of it.
    fn rows(kind: &str, many: usize) -> String {
        format!("01 00 {many:02x} {} 00", format!("{kind} ").repeat(many))
    }

    /// A number, and that it equals itself, so many times.
    fn lines(many: usize) -> String {
        format!("01 00 01 00 00 {many:02x} {}", "00 00 00 ".repeat(many))
    }

    #[test]
    fn too_many_rows_or_lines() {
        let (variables, constants) = ("00 00", "01 00 00");
        for (first, second, most) in [
            (0, 24, true),
            (12, 12, true),
            (12, 13, false),
            (24, 1, false),
        ] {
            let answer = merged(&rows(constants, first), &rows(constants, second));
            assert_eq!(answer.is_ok(), most, "{first}, {second}");
            assert!(most || answer == Err(4));
            let answer = merged(&rows(variables, first), &rows(constants, second));
            assert_eq!(answer.is_ok(), most, "{first}, {second}");
        }
        // Variables are written once.
        let answer = merged(&rows(variables, 24), &rows(variables, 24));
        assert_eq!(answer, Ok(file(&rows(variables, 24))));
        for (first, second, most) in [
            (0, 32, true),
            (16, 16, true),
            (17, 16, false),
            (32, 1, false),
        ] {
            let answer = merged(&lines(first), &lines(second));
            let expected = match most {
                true => Ok(file(&lines(first + second))),
                false => Err(4),
            };
            assert_eq!(answer, expected, "{first}, {second}");
        }
    }

    #[test]
    fn unlike_types() {
        for (first, second) in [
            ("00 00 00", "01 00 00 00"),
            ("02 00 02 00 02 00 01 00 00", "02 00 02 02 00 01 00 00 00"),
            ("01 02 00 00 00 00", "01 03 00 00 00 00 00"),
            // The second's types begin as the first's do, and go on.
            ("01 00 01 00 00 00", "02 00 01 00 00 00"),
        ] {
            assert_eq!(merged(first, second), Err(15), "{first}, {second}");
            assert_eq!(merged(second, first), Err(15), "{second}, {first}");
        }
    }

    #[test]
    fn variables_of_unlike_types() {
        for (first, second) in [
            ("X 01 00 00 00", "X 01 00 01 00"),
            ("X 02 00 00 00 00 00", "X 02 00 00 00 01 00"),
            // The first variables, behind other rows.
            ("X 02 01 00 00 00 01 00", "X 02 02 01 00 00 00 00"),
        ] {
            assert_eq!(merged(first, second), Err(16), "{first}, {second}");
            assert_eq!(merged(second, first), Err(16), "{second}, {first}");
        }
        // The same rows of unlike types are fine, and so are variables without a partner.
        assert!(merged("X 02 01 00 00 00 01 00", "X 02 00 01 00 00 00").is_ok());
    }

    /// Each has the faults behind it as well.
    #[test]
    fn the_order_of_the_questions() {
        let (many, other) = (rows("01 00 00", 24), "02 00 00 01 00 01 00");
        assert_eq!(within("07", other, 0), Err(4));
        assert_eq!(within(&many, "01 00 01 00", 0), Err(2));
        assert_eq!(within(&many, other, 0), Err(15));
        let full = |ty: &str| format!("02 00 00 18 {} 00", format!("00 {ty} ").repeat(24));
        let over = format!("02 00 00 18 00 00 {} 00", "01 00 00 ".repeat(23));
        assert_eq!(within(&full("01"), &over, 0), Err(16));
        assert_eq!(within(&full("00"), &over, 0), Err(4));
        assert_eq!(within(C, C, 0), Err(14));
    }

    #[test]
    fn the_output_is_asked_last() {
        let length = merged(C, C).expect("merged").len();
        for room in 0..length {
            assert_eq!(within(C, C, room), Err(14));
        }
        assert_eq!(within(C, C, length), merged(C, C));
        assert_eq!(within(C, C, length + 1), merged(C, C));
    }
}
