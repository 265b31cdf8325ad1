//! Two guards that have to hold at once: the library merges their files, and the answer has the
//! names of both authors.

use std::collections::HashMap;

use guarddesk::{merge, MergeRefusal};

use crate::check::Source;
use crate::decode::decode;
use crate::guard::{Guard, Names, Row, LINES, TERMS};
use crate::lex::{Fault, Place};
use crate::refusals::too_many;

/// A text, the name of its file and its guard file.
#[derive(Debug)]
pub struct Part<'a> {
    pub path: &'a str,
    pub source: &'a Source,
    pub file: &'a [u8],
}

/// Why two guards aren't merged; the place is one in the second text.
#[derive(Debug, PartialEq, Eq)]
pub enum Failure {
    /// The question that got a no.
    Refused(u32, Fault),
    /// The types have other names.
    Names(Fault),
    /// What can't be.
    Sense(String),
}

/// The merged guard file, and its guard with the names of both texts.
pub fn both(first: &Part, second: &Part) -> Result<(Vec<u8>, Source), Failure> {
    let file = match merge(first.file, second.file) {
        Ok(file) => file,
        Err(MergeRefusal(question)) => return Err(refused(first, second, question)),
    };
    if let Some(fault) = other_types(first, second) {
        return Err(Failure::Names(fault));
    }
    let guard = decode(&file)
        .map_err(|refusal| Failure::Sense(format!("the merged file is none, {refusal}")))?;
    let names = names(first, second, &guard);
    let source = Source {
        guard,
        names,
        ..Source::default()
    };
    Ok((file, source))
}

/// A refusal with its place in the second text.
fn refused(first: &Part, second: &Part, question: u32) -> Failure {
    let fault = match question {
        15 => other_types(first, second),
        16 => other_variable(first, second),
        4 => too_long(first, second),
        _ => None,
    };
    match fault {
        Some(fault) => Failure::Refused(question, fault),
        None => Failure::Sense(format!(
            "the merge is REFUSED {question} and guardtext sees no reason for it; \
             this is an error in one of the two"
        )),
    }
}

/// The first type of the second that isn't declared as in the first, or the one that only one of
/// them has.
fn other_types(first: &Part, second: &Part) -> Option<Fault> {
    let declared = |part: &Part, t: usize| {
        let guard = part.source.guard.types.get(t).cloned();
        guard.zip(part.source.names.types.get(t).cloned())
    };
    let many = [first, second].map(|part| part.source.guard.types.len());
    let t = (0..many[0].max(many[1])).find(|&t| declared(first, t) != declared(second, t))?;
    let name = |part: &Part| format!("`{}`", part.source.names.types[t].name);
    let places = &second.source.places.types;
    let (at, why) = if t >= many[0] {
        let why = format!("{} has no type {}", first.path, name(second));
        (places[t], why)
    } else if t >= many[1] {
        let why = format!("type {} of {} is missing", name(first), first.path);
        (places.last().copied().unwrap_or_default(), why)
    } else if name(first) == name(second) {
        let why = format!("type {} is another one in {}", name(second), first.path);
        (places[t], why)
    } else {
        let why = format!(
            "{} has {} where this has {}",
            first.path,
            name(first),
            name(second)
        );
        (places[t], why)
    };
    let why =
        format!("{why}; both guards need the same types, declared alike and in the same order");
    Some(Fault::new(at, why))
}

/// The rows that are variables, in order.
fn variables(source: &Source) -> Vec<usize> {
    let rows = source.guard.rows.iter().enumerate();
    let variable = |(row, what): (usize, &Row)| matches!(what, Row::Variable(_)).then_some(row);
    rows.filter_map(variable).collect()
}

/// The first two variables that are taken as one, and differ in type.
fn other_variable(first: &Part, second: &Part) -> Option<Fault> {
    let (own, others) = (variables(first.source), variables(second.source));
    let ty = |part: &Part, row: usize| part.source.guard.row_types[row];
    let mut pairs = own.into_iter().zip(others).enumerate();
    let unlike = |&(_, (a, b)): &(usize, (usize, usize))| ty(first, a) != ty(second, b);
    let (k, (a, b)) = pairs.find(unlike)?;
    let shown = |part: &Part, row| {
        let names = &part.source.names;
        let name = names.terms.iter().find(|(_, named)| *named == row);
        let name = name.map_or("", |(name, _)| name);
        format!("`{name}: {}`", names.types[ty(part, row)].name)
    };
    let why = format!(
        "variable {} is {} here and {} in {}; \
         variables are taken as one in order, and have to be of the same type",
        k + 1,
        shown(second, b),
        shown(first, a),
        first.path
    );
    Some(Fault::new(second.source.places.rows[b], why))
}

/// The first row or line too many.
fn too_long(first: &Part, second: &Part) -> Option<Fault> {
    let merged = merged_rows(first.source, second.source);
    let [own, others] = [first, second].map(|part| &part.source.places);
    let new = merged.iter().zip(&others.rows);
    let new = new.filter(|(&row, _)| row >= own.rows.len());
    let rows: Vec<Place> = own
        .rows
        .iter()
        .chain(new.map(|(_, at)| at))
        .copied()
        .collect();
    let lines = [&own.lines[..], &others.lines].concat();
    let together = |found: usize, what: &str, most: usize| {
        format!("the two guards together have {found} {what}, at most {most} are taken")
    };
    too_many(&rows, TERMS, |found| together(found, "terms", TERMS))
        .or_else(|| too_many(&lines, LINES, |found| together(found, "lines", LINES)))
}

/// The merged row of each row of the second.
fn merged_rows(first: &Source, second: &Source) -> Vec<usize> {
    let mut shared = variables(first).into_iter();
    let mut next = first.guard.rows.len()..;
    let row = |row: &Row| match row {
        Row::Variable(_) => shared.next().or_else(|| next.next()),
        _ => next.next(),
    };
    second.guard.rows.iter().filter_map(row).collect()
}

/// For each row the first one that is the same term.
fn same_terms(guard: &Guard) -> Vec<usize> {
    let mut seen: HashMap<Row, usize> = HashMap::new();
    let mut same: Vec<usize> = Vec::new();
    for (row, what) in guard.rows.iter().enumerate() {
        same.push(match what {
            Row::Variable(_) => row,
            Row::Constant(..) => *seen.entry(what.clone()).or_insert(row),
            Row::Built(ty, variant, parts) => {
                let parts = parts.iter().map(|&part| same[part]).collect();
                *seen.entry(Row::Built(*ty, *variant, parts)).or_insert(row)
            }
            Row::Read(term, variant, position) => {
                let read = Row::Read(same[*term], *variant, *position);
                *seen.entry(read).or_insert(row)
            }
        });
    }
    same
}

/// The first's names, then the second's but for those that stand for the same term in both. A name
/// that stands for two terms has the name of its file behind it.
fn names(first: &Part, second: &Part, merged: &Guard) -> Names {
    let same = same_terms(merged);
    let rows = merged_rows(first.source, second.source);
    let mut terms = first.source.names.terms.clone();
    for (name, row) in &second.source.names.terms {
        let row = rows[*row];
        let own = terms.iter_mut().find(|(own, _)| own == name);
        match own {
            Some((_, other)) if same[*other] == same[row] => {}
            Some((own, _)) => {
                *own = format!("{name} ({})", first.path);
                terms.push((format!("{name} ({})", second.path), row));
            }
            None => terms.push((name.clone(), row)),
        }
    }
    Names {
        types: first.source.names.types.clone(),
        terms,
    }
}
