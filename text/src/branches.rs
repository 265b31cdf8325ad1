//! The branches of a guard that can't hold, in the author's names.

use std::collections::BTreeSet;
use std::fmt::Write;

use guarddesk::{check, Branch, Question, Reason, Refutation, Term};

use crate::check::Source;
use crate::encode::encode;
use crate::guard::{Guard, Line, Row};

/// The bytes of records that may be checked to find numbers, in all; a second's work or less.
const LOOKED_AT: usize = 1_000_000;

/// A line for each node of the search, the branches of a split indented by two. The error is
/// for a record that isn't one of this guard.
pub fn branches(source: &Source, refutation: &Refutation) -> Result<String, String> {
    let file =
        encode(&source.guard).map_err(|refusal| format!("the guard has no file, {refusal}"))?;
    check(&file, refutation.bytes()).map_err(|question| {
        format!("the desk's record of this guard isn't accepted, {question}")
    })?;
    let mut printer = Printer {
        terms: Terms { source },
        record: refutation.bytes(),
        at: 0,
        left: LOOKED_AT,
        text: String::new(),
    };
    printer.branch(&refutation.tree(), 0, "");
    Ok(printer.text)
}

struct Printer<'a> {
    terms: Terms<'a>,
    record: &'a [u8],
    /// Where in the record the node begins. Its numbers are one byte each, as none is above 127.
    at: usize,
    /// What is left of `LOOKED_AT`.
    left: usize,
    text: String,
}

impl Printer<'_> {
    fn branch(&mut self, branch: &Branch, depth: usize, answer: &str) {
        let node = match branch {
            Branch::Closed(reason) => format!("closed: {}", self.reason(*reason)),
            Branch::Split { term, variant, .. } => self.terms.question(*term, *variant),
        };
        let indent = 2 * depth;
        let _ = writeln!(self.text, "{:indent$}{answer}{node}", "");
        match branch {
            Branch::Closed(_) => self.at += 2,
            Branch::Split { is, isnt, .. } => {
                self.at += 3;
                self.branch(is, depth + 1, "yes: ");
                self.branch(isnt, depth + 1, "no: ");
            }
        }
    }

    fn reason(&mut self, reason: Reason) -> String {
        match reason {
            Reason::NoVariant(term) => format!("no variant left for {}", self.terms.term(term)),
            Reason::EqualSides(line) => {
                let at = self.terms.source.places.lines[line].line;
                let line = self.terms.unequal(line);
                format!("line {at} \"{line}\": both sides are equal")
            }
            Reason::TwoNumbers(term) => {
                let name = self.terms.term(term);
                match self.two_numbers(term) {
                    Some((first, second)) if name == first.to_string() => {
                        format!("{first} is equal to {second}")
                    }
                    Some((first, second)) if name == second.to_string() => {
                        format!("{second} is equal to {first}")
                    }
                    Some((first, second)) => format!("{name} is equal to {first} and to {second}"),
                    None => format!("{name} is equal to two different numbers"),
                }
            }
            Reason::InsideItself(term) => format!("{} would contain itself", self.terms.term(term)),
        }
    }

    /// Two different numbers that a term is equal to at this node. They are the constants of the
    /// guard for which this holds; if it's only one, the other is the default 0. None if the line
    /// that asks for it doesn't fit into the guard, or if it takes too long.
    fn two_numbers(&mut self, term: Term) -> Option<(i64, i64)> {
        // Of equal terms the record names the lowest one, and one of the constants is a row.
        let Term::Row(row) = term else { return None };
        let guard = &self.terms.source.guard;
        let mut equal = BTreeSet::new();
        for (constant, value) in constants(guard, guard.row_types[row]) {
            if !equal.contains(&value) {
                self.left = self.left.checked_sub(self.at)?;
                if self.is_equal(row, constant)? {
                    equal.insert(value);
                }
            }
        }
        if equal.len() == 1 {
            equal.insert(0);
        }
        let mut equal = equal.into_iter();
        Some((equal.next()?, equal.next()?))
    }

    /// Whether two rows are equal at this node: with a line that says they aren't, the checker
    /// has to take it for broken here. None if there is no room for a line.
    fn is_equal(&self, row: usize, other: usize) -> Option<bool> {
        let mut guard = self.terms.source.guard.clone();
        let line = u8::try_from(guard.lines.len()).ok()?;
        guard.lines.push(Line::Unequal(row, other));
        let record = [&self.record[..self.at], &[1, line]].concat();
        match check(&encode(&guard).ok()?, &record) {
            // Taken; the nodes after it are left out.
            Ok(()) | Err(Question(13)) => Some(true),
            Err(Question(12)) => Some(false),
            Err(_) => None,
        }
    }
}

/// The rows of a type that are constants, with their values.
fn constants(guard: &Guard, ty: usize) -> impl Iterator<Item = (usize, i64)> + '_ {
    let rows = guard.rows.iter().enumerate();
    rows.filter_map(move |(row, constant)| match constant {
        Row::Constant(of, value) if *of == ty => Some((row, *value)),
        _ => None,
    })
}

/// Terms as an author would write them.
struct Terms<'a> {
    source: &'a Source,
}

impl Terms<'_> {
    fn question(&self, term: Term, variant: usize) -> String {
        let variant = &self.source.names.variant(self.ty(term), variant).name;
        format!("{} is {variant}?", self.term(term))
    }

    fn unequal(&self, line: usize) -> String {
        match self.source.guard.lines[line] {
            Line::Unequal(a, b) => format!("{} != {}", self.row(a), self.row(b)),
            other => unreachable!("the checker takes no {other:?} for a broken unequal line"),
        }
    }

    fn term(&self, term: Term) -> String {
        match term {
            Term::Row(row) => self.row(row),
            Term::Sibling { row, other } => {
                let (read, variant, position) = self.sibling(row, other);
                self.read(read, variant, position)
            }
            Term::Default(ty) => format!("the default of {}", self.source.names.types[ty].name),
        }
    }

    fn ty(&self, term: Term) -> usize {
        let guard = &self.source.guard;
        match term {
            Term::Row(row) => guard.row_types[row],
            Term::Sibling { row, other } => {
                let (read, variant, position) = self.sibling(row, other);
                guard.types[guard.row_types[read]].variants[variant][position]
            }
            Term::Default(ty) => ty,
        }
    }

    /// The row, variant and position of a field beside the one that a row reads.
    fn sibling(&self, row: usize, other: usize) -> (usize, usize, usize) {
        match self.source.guard.rows[row] {
            Row::Read(read, variant, position) => {
                let before = other < position;
                (read, variant, if before { other } else { other + 1 })
            }
            ref row => unreachable!("the checker takes no fields beside {row:?}"),
        }
    }

    /// The first name of a row, or the term that it is.
    fn row(&self, row: usize) -> String {
        let names = &self.source.names;
        if let Some((name, _)) = names.terms.iter().find(|(_, named)| *named == row) {
            return name.clone();
        }
        match &self.source.guard.rows[row] {
            Row::Variable(ty) => format!("a {}", names.types[*ty].name),
            Row::Constant(_, value) => value.to_string(),
            Row::Built(ty, variant, parts) => {
                let parts: Vec<String> = parts.iter().map(|&part| self.row(part)).collect();
                crate::write::applied(&names.variant(*ty, *variant).name, &parts)
            }
            Row::Read(read, variant, position) => self.read(*read, *variant, *position),
        }
    }

    /// A field of a row, with its variant only where the field alone isn't clear.
    fn read(&self, row: usize, variant: usize, position: usize) -> String {
        let variants = &self.source.names.types[self.source.guard.row_types[row]].variants;
        let (of, field) = (&variants[variant].name, &variants[variant].fields[position]);
        let have_it = variants.iter().filter(|other| other.fields.contains(field));
        let clear = have_it.count() == 1 && variants.iter().all(|other| other.name != *field);
        match clear {
            true => format!("{}.{field}", self.row(row)),
            false => format!("{}.{of}.{field}", self.row(row)),
        }
    }
}

#[cfg(test)]
mod tests {
    use super::*;

    #[test]
    fn terms_without_a_row() {
        let text = "type N = number\ntype P = none | three(a: N, b: N, c: P)\n\
                    var x: P\nlet b = x.b\nlet c = x.c\n";
        let source = crate::read(text).expect("a text");
        let terms = Terms { source: &source };
        let sibling = |row, other| terms.term(Term::Sibling { row, other });
        assert_eq!([sibling(1, 0), sibling(1, 1)], ["x.a", "x.c"]);
        assert_eq!([sibling(2, 0), sibling(2, 1)], ["x.a", "x.b"]);
        assert_eq!(terms.ty(Term::Sibling { row: 1, other: 1 }), 1);
        assert_eq!(terms.term(Term::Default(1)), "the default of P");
        let question = terms.question(Term::Default(1), 1);
        assert_eq!(question, "the default of P is three?");
    }
}
