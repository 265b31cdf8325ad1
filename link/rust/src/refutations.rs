//! Why a guard cannot hold: the branches of its search, each closed for a reason. The library writes them as a record, the bytes
//! of a [`Refutation`], and checks records from anywhere.

use crate::{numbers::number, raw};
use std::fmt;

/// The record of a search that found no messages: every branch is closed.
///
/// Its text is that of its [`tree`](Refutation::tree).
#[derive(Clone, Debug, PartialEq, Eq)]
pub struct Refutation {
    record: Vec<u8>,
}

impl Refutation {
    /// The record that the library wrote.
    pub(crate) fn new(record: Vec<u8>) -> Refutation {
        Refutation { record }
    }

    /// The record, as [`check`] takes it. `link/guarddesk.h` says what its numbers are.
    pub fn bytes(&self) -> &[u8] {
        &self.record
    }

    /// The record as a tree, from the root of the search on. It is less than 1,100 levels deep.
    pub fn tree(&self) -> Branch {
        branch(&mut self.record.iter()).expect("a record that the library has written")
    }
}

impl fmt::Display for Refutation {
    fn fmt(&self, f: &mut fmt::Formatter<'_>) -> fmt::Result {
        self.tree().fmt(f)
    }
}

/// A node of the search with all below it.
///
/// Its text has a line for each node, the branches of a split indented by two.
#[derive(Clone, Debug, PartialEq, Eq)]
pub enum Branch {
    /// Nothing below it can hold.
    Closed(Reason),
    /// Either the term is of the variant, or it is not; neither can hold.
    Split {
        /// The term.
        term: Term,
        /// The variant, counted from 0 within the term's type.
        variant: usize,
        /// The branch where the term is of the variant.
        is: Box<Branch>,
        /// The branch where it is not.
        isnt: Box<Branch>,
    },
}

/// Why a branch is closed.
#[derive(Clone, Copy, Debug, PartialEq, Eq)]
pub enum Reason {
    /// No variant is left for the term.
    NoVariant(Term),
    /// The two terms of an unequal line are equal. Lines are counted from 0.
    EqualSides(usize),
    /// The term is equal to two different numbers.
    TwoNumbers(Term),
    /// The term would be a part of itself.
    InsideItself(Term),
}

/// A term of the search.
#[derive(Clone, Copy, Debug, PartialEq, Eq, Hash)]
pub enum Term {
    /// A term of the file, counted from 0.
    Row(usize),
    /// A field beside the one that a term of the file reads: of the same term and variant.
    Sibling {
        /// The term of the file that reads a field.
        row: usize,
        /// Which of the variant's other fields, in order of position: 0 or 1.
        other: usize,
    },
    /// The default of a type, counted from 0.
    Default(usize),
}

impl Term {
    /// A term by its number in a record.
    fn numbered(number: usize) -> Term {
        match number {
            0..=23 => Term::Row(number),
            24..=71 => Term::Sibling {
                row: (number - 24) / 2,
                other: number % 2,
            },
            _ => Term::Default(number - 72),
        }
    }
}

/// The branch at the front of a record.
fn branch(record: &mut std::slice::Iter<'_, u8>) -> Option<Branch> {
    let kind = number(record)?;
    let about = number(record)?;
    let term = Term::numbered(about);
    Some(Branch::Closed(match kind {
        0 => Reason::NoVariant(term),
        1 => Reason::EqualSides(about),
        2 => Reason::TwoNumbers(term),
        3 => Reason::InsideItself(term),
        4 => {
            return Some(Branch::Split {
                term,
                variant: number(record)?,
                is: Box::new(branch(record)?),
                isnt: Box::new(branch(record)?),
            })
        }
        _ => return None,
    }))
}

impl Branch {
    /// Writes the line of this node and those of all below it; `begin` is what the line begins with.
    fn lines(&self, f: &mut fmt::Formatter<'_>, depth: usize, begin: &str) -> fmt::Result {
        let indent = 2 * depth;
        write!(f, "{:indent$}{begin}", "")?;
        match self {
            Branch::Closed(reason) => writeln!(f, "closed: {reason}"),
            Branch::Split {
                term,
                variant,
                is,
                isnt,
            } => {
                writeln!(f, "{term} is variant {variant}?")?;
                is.lines(f, depth + 1, "yes: ")?;
                isnt.lines(f, depth + 1, "no: ")
            }
        }
    }
}

impl fmt::Display for Branch {
    fn fmt(&self, f: &mut fmt::Formatter<'_>) -> fmt::Result {
        self.lines(f, 0, "")
    }
}

impl fmt::Display for Reason {
    fn fmt(&self, f: &mut fmt::Formatter<'_>) -> fmt::Result {
        match self {
            Reason::NoVariant(term) => write!(f, "no variant left for {term}"),
            Reason::EqualSides(line) => write!(f, "both sides of line {line} are equal"),
            Reason::TwoNumbers(term) => write!(f, "{term} is equal to two numbers"),
            Reason::InsideItself(term) => write!(f, "{term} would contain itself"),
        }
    }
}

impl fmt::Display for Term {
    fn fmt(&self, f: &mut fmt::Formatter<'_>) -> fmt::Result {
        match self {
            Term::Row(row) => write!(f, "term {row}"),
            Term::Sibling { row, other } => write!(f, "other field {other} beside term {row}"),
            Term::Default(ty) => write!(f, "the default of type {ty}"),
        }
    }
}

/// The first question about a guard file and a record that got a no.
#[derive(Clone, Copy, Debug, PartialEq, Eq)]
pub struct Question(pub u32);

impl fmt::Display for Question {
    fn fmt(&self, f: &mut fmt::Formatter<'_>) -> fmt::Result {
        let why = match self.0 {
            12 => "a node is cut short, malformed or claims what doesn't hold",
            13 => "the record ends before its last branch is closed, or goes on after it",
            _ => "the bytes are no guard file",
        };
        write!(f, "question {}: {why}", self.0)
    }
}

impl std::error::Error for Question {}

/// Checks a record, from wherever it comes, against a guard file. If it is accepted, no messages make the guard hold; that is
/// proved. Every record of [`explain`](crate::explain) is accepted.
///
/// ```
/// use guarddesk::{check, Question};
///
/// // A number type; the numbers -3 and 4, which are equal.
/// let file = [1, 0, 2, 1, 0, 5, 1, 0, 8, 1, 0, 0, 1];
/// assert_eq!(check(&file, &[2, 0]), Ok(()));
/// // Term 0 isn't inside itself.
/// assert_eq!(check(&file, &[3, 0]), Err(Question(12)));
/// ```
pub fn check(file: &[u8], record: &[u8]) -> Result<(), Question> {
    match raw::check(file, record) {
        raw::ACCEPTED => Ok(()),
        question => Err(Question(question)),
    }
}

#[cfg(test)]
mod tests {
    use super::*;

    #[test]
    fn text_of_a_tree() {
        let record = [4, 2, 1, 4, 25, 0, 0, 73, 3, 1, 4, 0, 2, 1, 5, 2, 24];
        let text = "\
term 2 is variant 1?
  yes: other field 1 beside term 0 is variant 0?
    yes: closed: no variant left for the default of type 1
    no: closed: term 1 would contain itself
  no: term 0 is variant 2?
    yes: closed: both sides of line 5 are equal
    no: closed: other field 0 beside term 0 is equal to two numbers
";
        assert_eq!(Refutation::new(record.to_vec()).to_string(), text);
    }

    #[test]
    fn terms_by_their_numbers() {
        let sibling = |row, other| Term::Sibling { row, other };
        for (number, term) in [
            (0, Term::Row(0)),
            (23, Term::Row(23)),
            (24, sibling(0, 0)),
            (71, sibling(23, 1)),
            (72, Term::Default(0)),
            (77, Term::Default(5)),
        ] {
            assert_eq!(Term::numbered(number), term);
        }
    }

    #[test]
    fn records_that_are_none() {
        for record in [&[][..], &[0], &[4, 0, 0, 0, 0], &[5, 0]] {
            assert_eq!(branch(&mut record.iter()), None);
        }
    }
}
