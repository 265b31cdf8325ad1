//! Answers in the author's names.

use std::collections::HashSet;
use std::fmt::Write;

use crate::check::Source;
use crate::desk::{Answer, Message, Splits};
use crate::guard::{Guard, Names};
use crate::refusals::explain;

/// Up to so many parts in all, messages are printed in full; beyond, parts that occur in
/// more than one place are printed once, with a name.
const IN_FULL: u64 = 100_000;

/// What is printed for an answer. The error is for an answer that can't be one.
pub fn show(source: &Source, answer: &Answer) -> Result<String, String> {
    show_of(source, answer, "this guard")
}

/// The same, with words for what was asked about.
pub fn show_of(source: &Source, answer: &Answer, what: &str) -> Result<String, String> {
    match answer {
        Answer::Refused(question) => {
            let fault = explain(source, *question)?;
            Ok(format!("REFUSED {question}, {fault}\n"))
        }
        Answer::Sat {
            nodes,
            splits,
            rows,
            places,
        } => {
            fits(&source.guard, rows, places)
                .ok_or("the desk's messages aren't messages of this guard")?;
            let shown = messages(&source.names, rows, places);
            Ok(format!("SAT, {}\n{shown}", counted(*nodes, *splits)))
        }
        Answer::Unsat { nodes, splits } => {
            let nodes = counted(*nodes, *splits);
            Ok(format!("UNSAT, {nodes}: no messages make {what} hold\n"))
        }
        Answer::Spent { budget, splits } => {
            let nodes = counted(*budget, *splits);
            Ok(format!(
                "SPENT, budget {nodes}: more nodes are needed to decide\n"
            ))
        }
    }
}

/// The nodes, and what they went on.
fn counted(nodes: u32, splits: Splits) -> String {
    let nodes = many(nodes, "node");
    if splits == Splits::default() {
        return format!("{nodes}, no splits");
    }
    let Splits { reads, values } = splits;
    let reads = many(reads, "split");
    format!("{nodes}, {reads} on fields read, {values} on values")
}

fn many(number: u32, what: &str) -> String {
    match number {
        1 => format!("1 {what}"),
        _ => format!("{number} {what}s"),
    }
}

/// Every row is a message of its type over earlier rows, every term has a row of its type.
fn fits(guard: &Guard, rows: &[Message], places: &[usize]) -> Option<()> {
    let mut types = Vec::new();
    for row in rows {
        let (ty, fits) = match row {
            Message::Number { ty, .. } => (*ty, guard.types.get(*ty)?.is_number()),
            Message::Built { ty, variant, parts } => {
                let fields = guard.types.get(*ty)?.variants.get(*variant)?;
                let found = parts.iter().map(|&part| types.get(part).copied());
                let found = found.collect::<Option<Vec<usize>>>()?;
                (*ty, found == *fields)
            }
        };
        if !fits {
            return None;
        }
        types.push(ty);
    }
    let found = places.iter().map(|&row| types.get(row).copied());
    let found = found.collect::<Option<Vec<usize>>>()?;
    (found == guard.row_types).then_some(())
}

fn parts(row: &Message) -> &[usize] {
    match row {
        Message::Number { .. } => &[],
        Message::Built { parts, .. } => parts,
    }
}

fn type_of(row: &Message) -> usize {
    match row {
        Message::Number { ty, .. } | Message::Built { ty, .. } => *ty,
    }
}

/// Each named term with its message, in a line. All lines are lines of the text's language.
fn messages(names: &Names, rows: &[Message], places: &[usize]) -> String {
    let shared = shared(names, rows, places);
    let mut text = String::new();
    for (row, name) in shared.iter().enumerate() {
        if let Some(name) = name {
            let _ = write!(text, "let {name} = ");
            message(&mut text, names, rows, &shared, row);
            let _ = writeln!(text, ": {}", names.types[type_of(&rows[row])].name);
        }
    }
    for (name, row) in &names.terms {
        let _ = write!(text, "{name} = ");
        match &shared[places[*row]] {
            Some(shared) => text.push_str(shared),
            None => message(&mut text, names, rows, &shared, places[*row]),
        }
        text.push('\n');
    }
    text
}

/// The names of the rows that are printed once for all: none if everything fits in full.
fn shared(names: &Names, rows: &[Message], places: &[usize]) -> Vec<Option<String>> {
    let mut sizes: Vec<u64> = Vec::new();
    for row in rows {
        let inside = parts(row).iter().map(|&part| sizes[part]);
        sizes.push(inside.fold(1, u64::saturating_add));
    }
    let shown = || names.terms.iter().map(|(_, row)| places[*row]);
    let in_all = shown().map(|row| sizes[row]).fold(0, u64::saturating_add);
    let mut shared = vec![None; rows.len()];
    if in_all <= IN_FULL {
        return shared;
    }
    let mut uses = vec![0; rows.len()];
    for part in rows.iter().flat_map(parts).copied().chain(shown()) {
        uses[part] += 1;
    }
    let variants = names.types.iter().flat_map(|ty| &ty.variants);
    let terms = names.terms.iter().map(|(name, _)| name);
    let taken: HashSet<&String> = terms.chain(variants.map(|variant| &variant.name)).collect();
    for (row, name) in shared.iter_mut().enumerate() {
        if uses[row] > 1 && sizes[row] > 1 {
            let mut made_up = format!("m{row}");
            while taken.contains(&made_up) {
                made_up.push('_');
            }
            *name = Some(made_up);
        }
    }
    shared
}

/// Prints a message without calling itself: it may be thousands of levels deep.
fn message(
    text: &mut String,
    names: &Names,
    rows: &[Message],
    shared: &[Option<String>],
    row: usize,
) {
    enum Piece<'a> {
        Row(usize),
        Text(&'a str),
    }
    let mut pieces = vec![Piece::Row(row)];
    let mut first = true;
    while let Some(piece) = pieces.pop() {
        let row = match piece {
            Piece::Text(piece) => {
                text.push_str(piece);
                continue;
            }
            Piece::Row(row) => row,
        };
        match (&shared[row], &rows[row]) {
            (Some(name), _) if !first => text.push_str(name),
            (_, Message::Number { value, .. }) => {
                let _ = write!(text, "{value}");
            }
            (_, Message::Built { ty, variant, parts }) => {
                text.push_str(&names.variant(*ty, *variant).name);
                for (i, &part) in parts.iter().enumerate().rev() {
                    pieces.push(Piece::Text(match i + 1 == parts.len() {
                        true => ")",
                        false => ", ",
                    }));
                    pieces.push(Piece::Row(part));
                }
                if !parts.is_empty() {
                    text.push('(');
                }
            }
        }
        first = false;
    }
}
