//! The text that `guarddesk` prints: reading it into numbers, and checking it.

use std::fmt::Write;

use crate::answer::{answer, line_one};
use crate::guard::{Guard, Limits, FIELDS, VARIANTS_PER_TYPE};
use crate::number;
use crate::read;
use crate::shown::{check_shown, Fault};

/// Far more types than any limits allow; keeps a row's first number small.
const TYPE_NUMBERS: usize = 1_000;

/// The numbers that a printed answer stands for.
#[derive(Clone, Debug, Default, PartialEq, Eq)]
pub struct Numbers {
    pub rows: Vec<i32>,
    pub places: Vec<i32>,
}

/// Checks all of a printed answer against the file.
pub fn check(file: &[u8], output: &str, budget: u32, limits: Limits) -> Result<(), Fault> {
    let expected = answer(file, budget, limits).to_string();
    check_known(file, output, &expected, limits)
}

/// Checks all of a printed answer to a file whose answer is known.
pub fn check_known(file: &[u8], output: &str, answer: &str, limits: Limits) -> Result<(), Fault> {
    let expected = line_one(answer);
    let (verdict, rest) = match output.split_once('\n') {
        Some(split) => split,
        None => return Err("line one doesn't end, or is missing".to_string()),
    };
    if verdict != expected {
        return Err(format!("line one is {verdict:?}, expected {expected}"));
    }
    match read::read(file, limits) {
        Ok(guard) if expected.starts_with("SAT ") => check_messages(&guard, rest),
        // "After the others nothing follows."
        _ if rest.is_empty() => Ok(()),
        _ => Err(format!("something follows after {expected}")),
    }
}

/// The first of several printed answers, a line and the rows and terms that
/// follow it, and what comes after.
pub fn split_first(text: &str) -> (&str, &str) {
    let mut end = 0;
    for line in text.split_inclusive('\n') {
        let shown = line.starts_with("row ") || line.starts_with("term ");
        if end > 0 && !shown {
            break;
        }
        end += line.len();
    }
    text.split_at(end)
}

/// Checks the printed rows and terms of a SAT answer.
fn check_messages(guard: &Guard, text: &str) -> Result<(), Fault> {
    let numbers = parse(text)?;
    let (printed, terms) = (numbers.places.len(), guard.rows.len());
    if printed != terms {
        return Err(format!(
            "{printed} terms are printed, the guard has {terms}"
        ));
    }
    check_shown(
        guard,
        numbers.rows.len() / 4,
        &numbers.rows,
        &numbers.places,
    )?;
    // The parser is lenient about spaces and leading zeros; this isn't.
    let exact = print(guard, &numbers);
    if text == exact {
        return Ok(());
    }
    let (found, wanted) = (text.split('\n'), exact.split('\n'));
    match found.zip(wanted).find(|(found, wanted)| found != wanted) {
        Some((found, wanted)) => Err(format!("found {found:?}, the form is {wanted:?}")),
        None => Err("the text goes on, or stops early".to_string()),
    }
}

/// Prints the rows and terms of numbers that are known to be right.
pub fn print(guard: &Guard, numbers: &Numbers) -> String {
    let mut text = String::new();
    for (i, row) in numbers.rows.chunks(4).enumerate() {
        let head = row[0];
        let line = if head < 0 {
            let (ty, value) = (-1 - i64::from(head), number::of_words([row[1], row[2]]));
            format!("row {i} type {ty} number {value}")
        } else {
            let (ty, variant) = (head as usize / 16, head as usize % 16);
            let mut line = format!("row {i} type {ty} variant {variant}");
            let fields = guard.fields(ty, variant).len();
            if fields > 0 {
                line.push_str(" parts");
            }
            for part in &row[1..=fields] {
                let _ = write!(line, " {part}");
            }
            line
        };
        text.push_str(&line);
        text.push('\n');
    }
    for (term, row) in numbers.places.iter().enumerate() {
        let _ = writeln!(text, "term {term} row {row}");
    }
    text
}

/// Reads printed rows and terms into numbers.
pub fn parse(text: &str) -> Result<Numbers, Fault> {
    let mut numbers = Numbers::default();
    for line in text.lines() {
        parse_line(&mut numbers, line).map_err(|why| format!("{line:?}: {why}"))?;
    }
    Ok(numbers)
}

fn parse_line(numbers: &mut Numbers, line: &str) -> Result<(), Fault> {
    let words: Vec<&str> = line.split_whitespace().collect();
    match words[..] {
        ["row", row, "type", ty, "number", value] => {
            in_turn(numbers, row)?;
            let ty = below(TYPE_NUMBERS, ty)?;
            let value = value
                .parse()
                .map_err(|_| "the value isn't a signed 64-bit number")?;
            let [low, high] = number::words(value);
            numbers.rows.extend([-1 - ty, low, high, 0]);
        }
        ["row", row, "type", ty, "variant", variant, ref parts @ ..] => {
            in_turn(numbers, row)?;
            let ty = below(TYPE_NUMBERS, ty)?;
            let variant = below(VARIANTS_PER_TYPE, variant)?;
            let parts = match parts {
                [] => &[],
                ["parts", parts @ ..] => parts,
                _ => return Err("expected parts".to_string()),
            };
            if parts.len() > FIELDS {
                return Err("too many parts".to_string());
            }
            let mut row = [16 * ty + variant, 0, 0, 0];
            for (number, part) in row[1..].iter_mut().zip(parts) {
                *number = below(i32::MAX as usize, part)?;
            }
            numbers.rows.extend(row);
        }
        ["term", term, "row", row] => {
            if term.parse() != Ok(numbers.places.len()) {
                return Err(format!("expected term {}", numbers.places.len()));
            }
            numbers.places.push(below(i32::MAX as usize, row)?);
        }
        _ => return Err("neither a row nor a term".to_string()),
    }
    Ok(())
}

/// Rows come numbered from 0, before the terms.
fn in_turn(numbers: &Numbers, row: &str) -> Result<(), Fault> {
    if !numbers.places.is_empty() {
        return Err("a row after a term".to_string());
    }
    let next = numbers.rows.len() / 4;
    if row.parse() != Ok(next) {
        return Err(format!("expected row {next}"));
    }
    Ok(())
}

fn below(bound: usize, word: &str) -> Result<i32, Fault> {
    let number = word.parse().ok().filter(|&number: &usize| number < bound);
    let number = number.and_then(|number| i32::try_from(number).ok());
    number.ok_or_else(|| format!("{word} isn't a number below {bound}"))
}
