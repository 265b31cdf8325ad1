//! The test vectors: a fixed set of files with their expected answers.

pub mod branches;
pub mod broken;
mod cases;
pub mod columns;
mod families;
pub mod far;
pub mod lists;
pub mod loads;
pub mod merges;
mod numbers;
pub mod profiles;
pub mod records;
mod splits;
pub mod summaries;
mod walks;
pub mod written;

use std::collections::HashSet;

use crate::answer::{answer, Answer};
use crate::encode::Draft;
use crate::guard::Limits;
use crate::order;
use crate::random::Random;
use crate::read::read;
use crate::text;

/// The budget of the program `guarddesk`.
pub const USUAL_BUDGET: u32 = 1_000_000;

/// Enough for each family that is drawn.
const MOST_DRAWS: usize = 10_000;

const HEADER: &str = "\
# Guard files with their expected answers, written by `oracle vectors`.
# NAME, BUDGET, HEX and ANSWER, separated by single tabs; HEX is the file, - if empty.
";

#[derive(Clone, Debug, PartialEq, Eq)]
pub struct Vector {
    pub name: String,
    pub budget: u32,
    pub file: Vec<u8>,
    pub answer: String,
}

/// A growing list of vectors.
#[derive(Default)]
struct Set(Vec<Vector>);

impl Set {
    fn add(&mut self, name: impl Into<String>, budget: u32, file: &[u8]) -> Answer {
        let answer = answer(file, budget, Limits::BASE);
        self.0.push(Vector {
            name: name.into(),
            budget,
            file: file.to_vec(),
            answer: answer.to_string(),
        });
        answer
    }

    fn draft(&mut self, name: impl Into<String>, draft: &Draft) -> Answer {
        self.add(name, USUAL_BUDGET, &draft.bytes())
    }
}

/// All vectors, family by family.
pub fn all() -> Vec<Vector> {
    let mut set = Set::default();
    cases::add(&mut set);
    numbers::add(&mut set);
    broken::add(&mut set);
    families::add(&mut set);
    walks::add(&mut set);
    profiles::add(&mut set);
    far::add(&mut set);
    splits::add(&mut set);
    set.0
}

/// Whether records and lists are drawn from a vector. Those of requests #104
/// and #105 came later: what was drawn before them stays as it is.
fn is_drawn_from(vector: &Vector) -> bool {
    let guard = read(&vector.file, Limits::BASE);
    let far = guard.is_ok_and(|guard| far::is_far(&guard.rows));
    let mut prefixes = [far::PREFIX, splits::PREFIX].into_iter();
    !far && !prefixes.any(|prefix| vector.name.starts_with(prefix))
}

/// Draws from the named generator until there are so many different ones.
fn different<T: PartialEq>(
    name: &str,
    many: usize,
    mut make: impl FnMut(&mut Random) -> Option<T>,
) -> Result<Vec<T>, String> {
    let mut random = Random::named(name);
    let mut made = Vec::new();
    for _ in 0..MOST_DRAWS {
        let new = make(&mut random);
        made.extend(new.filter(|new| !made.contains(new)));
        if made.len() == many {
            return Ok(made);
        }
    }
    Err(format!("{name}: the vectors give only {}", made.len()))
}

/// The vectors as the text of `vectors.txt`.
pub fn text(vectors: &[Vector]) -> String {
    let mut text = HEADER.to_string();
    for vector in vectors {
        let hex = hex(&vector.file);
        text += &format!(
            "{}\t{}\t{hex}\t{}\n",
            vector.name, vector.budget, vector.answer
        );
    }
    text
}

/// Reads the text of `vectors.txt`.
pub fn parse(text: &str) -> Result<Vec<Vector>, String> {
    parse_lines(text, "a vector", parse_line)
}

/// Reads each line but the comments.
fn parse_lines<T>(
    text: &str,
    what: &str,
    parse_line: fn(&str) -> Option<T>,
) -> Result<Vec<T>, String> {
    let lines = text.lines().enumerate();
    lines
        .filter(|(_, line)| !line.starts_with('#'))
        .map(|(i, line)| parse_line(line).ok_or(format!("line {} isn't {what}", i + 1)))
        .collect()
}

/// The columns of a line; there are four.
fn columns(line: &str) -> Option<[&str; 4]> {
    let columns: Vec<&str> = line.split('\t').collect();
    columns.try_into().ok()
}

fn parse_line(line: &str) -> Option<Vector> {
    let [name, budget, hex, answer] = columns(line)?;
    Some(Vector {
        name: name.to_string(),
        budget: budget.parse().ok()?,
        file: unhex(hex)?,
        answer: answer.to_string(),
    })
}

/// The expected answers, one to a line. `vectors --check` holds them to the solver.
pub fn answers(vectors: &[Vector]) -> String {
    vectors
        .iter()
        .map(|vector| vector.answer.clone() + "\n")
        .collect()
}

/// Checks printed answers to all vectors, one after the other, in full.
pub fn check_answers(vectors: &[Vector], output: &str) -> Result<(), String> {
    let mut rest = output;
    for vector in vectors {
        let (first, others) = text::split_first(rest);
        text::check_known(&vector.file, first, &vector.answer, Limits::BASE)
            .map_err(|why| format!("{}: {why}", vector.name))?;
        rest = others;
    }
    match rest.lines().next() {
        None => Ok(()),
        Some(line) => Err(format!("{line:?} follows after the last answer")),
    }
}

/// Checks search trees of the guards with a verdict, in many orders (request
/// #108), and tells how many. A guard that stands in several vectors is tried
/// once.
pub fn check_orders(vectors: &[Vector]) -> Result<String, String> {
    const RANDOM: u64 = 8;
    const MOST_NODES: u32 = 400;
    let mut seen = HashSet::new();
    let (mut trees, mut all, mut varied) = (0, 0, 0);
    for vector in vectors {
        let sat = match vector.answer.split(' ').next() {
            Some("SAT") => true,
            Some("UNSAT") => false,
            _ => continue,
        };
        if !seen.insert(&vector.file) {
            continue;
        }
        let wrong = |why: String| format!("{}: {why}", vector.name);
        let guard = read(&vector.file, Limits::BASE).map_err(|_| wrong("is refused".into()))?;
        let tried = order::check(&guard, sat, RANDOM, MOST_NODES).map_err(wrong)?;
        trees += tried.trees;
        all += usize::from(tried.all);
        varied += usize::from(tried.varied);
    }
    let guards = seen.len();
    Ok(format!(
        "{trees} trees of {guards} guards, all orders of {all}, and sizes that depend on the order for {varied}"
    ))
}

/// "For each vector a 2-byte length, the bytes, a 4-byte budget; ended by a
/// length of 65535"; all low byte first.
pub fn pack(vectors: &[Vector]) -> Result<Vec<u8>, String> {
    const END: u16 = u16::MAX;
    let mut out = Vec::new();
    for vector in vectors {
        let length = u16::try_from(vector.file.len())
            .ok()
            .filter(|&length| length != END);
        let length = length.ok_or(format!("{} is too long to pack", vector.name))?;
        out.extend(length.to_le_bytes());
        out.extend(&vector.file);
        out.extend(vector.budget.to_le_bytes());
    }
    out.extend(END.to_le_bytes());
    Ok(out)
}

/// Where two texts first differ.
pub fn first_difference(found: &str, expected: &str) -> Option<String> {
    if found == expected {
        return None;
    }
    let mut lines = found.lines().zip(expected.lines()).enumerate();
    let place = lines.find(|(_, (found, expected))| found != expected);
    Some(match place {
        Some((i, (found, expected))) => {
            format!("line {}: found {found:?}, expected {expected:?}", i + 1)
        }
        None => {
            let counts = (found.lines().count(), expected.lines().count());
            format!(
                "{} lines found, {} expected, or another line end",
                counts.0, counts.1
            )
        }
    })
}

/// Bytes in hexadecimal, - if there are none.
pub fn hex(bytes: &[u8]) -> String {
    if bytes.is_empty() {
        return "-".to_string();
    }
    bytes.iter().map(|byte| format!("{byte:02x}")).collect()
}

/// Reads bytes in hexadecimal; spaces are allowed.
pub fn unhex(text: &str) -> Option<Vec<u8>> {
    if text == "-" {
        return Some(Vec::new());
    }
    let digits: Option<Vec<u32>> = text
        .chars()
        .filter(|digit| *digit != ' ')
        .map(|digit| digit.to_digit(16))
        .collect();
    let digits = digits.filter(|digits| digits.len() % 2 == 0)?;
    let byte = |pair: &[u32]| u8::try_from(16 * pair[0] + pair[1]).ok();
    digits.chunks(2).map(byte).collect()
}
