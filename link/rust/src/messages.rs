//! Messages as the library shows them: rows, parts before wholes, each message once. They stay in that form, and a
//! [`Message`] is a view of one row. Terms share parts, so as trees they could be larger than any memory: a row over twice
//! the row before it, twenty times, has a million leaves. And nothing here recurses, so deep messages are shown and dropped
//! within a small stack.

use crate::fields;
use std::fmt;

/// A message of each term of a guard file, for which the guard holds.
///
/// Its text has a line for each row and one for each term, as the program `guarddesk` prints them.
#[derive(Clone, Debug, PartialEq, Eq)]
pub struct Messages {
    rows: Vec<Row>,
    places: Vec<usize>,
}

#[derive(Clone, Debug, PartialEq, Eq)]
enum Row {
    Number {
        ty: u8,
        value: i64,
    },
    /// `many` parts, each a lower row.
    Variant {
        ty: u8,
        variant: u8,
        parts: [u16; 3],
        many: u8,
    },
}

impl Messages {
    /// The first `many` rows and the places, for an accepted file.
    pub(crate) fn read(file: &[u8], many: usize, rows: &[i32], places: &[i32]) -> Messages {
        let fields = fields::read(file).expect("a file that the library has accepted");
        let row = |row: &[i32]| match row[0] {
            tag if tag < 0 => Row::Number {
                ty: (-1 - tag) as u8,
                // The low 32 bits, and the value divided by 2^32.
                value: i64::from(row[2]) << 32 | i64::from(row[1] as u32),
            },
            tag => Row::Variant {
                ty: (tag / 16) as u8,
                variant: (tag % 16) as u8,
                parts: [row[1] as u16, row[2] as u16, row[3] as u16],
                many: fields.types[tag as usize / 16][tag as usize % 16] as u8,
            },
        };
        Messages {
            rows: rows.chunks_exact(4).take(many).map(row).collect(),
            places: places[..fields.terms]
                .iter()
                .map(|&place| place as usize)
                .collect(),
        }
    }

    /// How many terms there are.
    pub fn len(&self) -> usize {
        self.places.len()
    }

    /// Whether the file has no terms.
    pub fn is_empty(&self) -> bool {
        self.places.is_empty()
    }

    /// The message of a term of the file, counted from 0.
    pub fn term(&self, term: usize) -> Option<Message<'_>> {
        self.places.get(term).map(|&row| self.row(row))
    }

    /// The messages of all terms, in the file's order.
    pub fn terms(&self) -> impl ExactSizeIterator<Item = Message<'_>> + '_ {
        self.places.iter().map(|&row| self.row(row))
    }

    /// All different messages, parts before wholes.
    pub fn rows(&self) -> impl ExactSizeIterator<Item = Message<'_>> + '_ {
        (0..self.rows.len()).map(|row| self.row(row))
    }

    fn row(&self, row: usize) -> Message<'_> {
        Message {
            messages: self,
            row,
        }
    }
}

impl fmt::Display for Messages {
    fn fmt(&self, f: &mut fmt::Formatter<'_>) -> fmt::Result {
        for message in self.rows() {
            write!(f, "row {} type {} ", message.row, message.ty())?;
            match message.kind() {
                Kind::Number(value) => write!(f, "number {value}")?,
                Kind::Variant(variant, parts) => {
                    write!(f, "variant {variant}")?;
                    for (i, part) in parts.enumerate() {
                        write!(f, "{} {}", if i == 0 { " parts" } else { "" }, part.row)?;
                    }
                }
            }
            writeln!(f)?;
        }
        for (term, message) in self.terms().enumerate() {
            writeln!(f, "term {term} row {}", message.row)?;
        }
        Ok(())
    }
}

/// One message.
///
/// Its text is that of the whole message, `t1v1(3, t1v0)` for variant 1 of type 1 over the number 3 and variant 0 of type 1;
/// [`with_names`](Message::with_names) has it as `cons(3, nil)`. Messages share parts, so that text may be too long to
/// print: [`size`](Message::size) says how many messages it has, and a precision stops it after so many, `{:.100}`.
#[derive(Clone, Copy)]
pub struct Message<'a> {
    messages: &'a Messages,
    row: usize,
}

/// What a message is: a number, or a variant of its type over parts.
#[derive(Clone, Debug)]
pub enum Kind<'a> {
    /// A number.
    Number(i64),
    /// A variant, counted from 0 within its type, and a part for each of its fields.
    Variant(u8, Parts<'a>),
}

impl<'a> Message<'a> {
    /// Its row. Two messages of one answer are equal exactly if they have the same row.
    pub fn row(self) -> usize {
        self.row
    }

    /// Its type, counted from 0.
    pub fn ty(self) -> u8 {
        match self.messages.rows[self.row] {
            Row::Number { ty, .. } | Row::Variant { ty, .. } => ty,
        }
    }

    /// Its number, or its variant and parts.
    pub fn kind(self) -> Kind<'a> {
        match &self.messages.rows[self.row] {
            Row::Number { value, .. } => Kind::Number(*value),
            Row::Variant {
                variant,
                parts,
                many,
                ..
            } => {
                let rows = parts[..*many as usize].iter();
                Kind::Variant(
                    *variant,
                    Parts {
                        messages: self.messages,
                        rows,
                    },
                )
            }
        }
    }

    /// How many messages it has as a tree, itself and parts of parts included; `u64::MAX` if there are more.
    pub fn size(self) -> u64 {
        let mut sizes: Vec<u64> = Vec::with_capacity(self.row + 1);
        for message in self.messages.rows().take(self.row + 1) {
            let size = match message.kind() {
                Kind::Number(_) => 1,
                Kind::Variant(_, parts) => {
                    parts.fold(1, |sum: u64, part| sum.saturating_add(sizes[part.row]))
                }
            };
            sizes.push(size);
        }
        sizes[self.row]
    }

    /// The message with names for its variants, to be printed.
    pub fn with_names(self, names: &'a Names<'a>) -> Named<'a> {
        Named {
            message: self,
            names,
        }
    }
}

impl fmt::Debug for Message<'_> {
    fn fmt(&self, f: &mut fmt::Formatter<'_>) -> fmt::Result {
        write!(f, "{self:.100}")
    }
}

impl fmt::Display for Message<'_> {
    fn fmt(&self, f: &mut fmt::Formatter<'_>) -> fmt::Result {
        self.with_names(&Names { variants: &[] }).fmt(f)
    }
}

/// The parts of a message, in the order of its fields.
#[derive(Clone, Debug)]
pub struct Parts<'a> {
    messages: &'a Messages,
    rows: std::slice::Iter<'a, u16>,
}

impl<'a> Iterator for Parts<'a> {
    type Item = Message<'a>;

    fn next(&mut self) -> Option<Message<'a>> {
        self.rows.next().map(|&row| self.messages.row(row as usize))
    }

    fn size_hint(&self) -> (usize, Option<usize>) {
        self.rows.size_hint()
    }
}

impl ExactSizeIterator for Parts<'_> {}

/// Names for variants: `variants[t][v]` for variant v of type t. A variant without one is shown as `t1v0`.
#[derive(Clone, Copy, Debug, Default)]
pub struct Names<'a> {
    /// Lists of names by type. The list of a number type is empty, and lists may be short.
    pub variants: &'a [&'a [&'a str]],
}

impl<'a> Names<'a> {
    fn of(&self, ty: u8, variant: u8) -> Option<&'a str> {
        self.variants
            .get(ty as usize)?
            .get(variant as usize)
            .copied()
    }
}

/// A message with names, to be printed as `cons(3, nil)`.
#[derive(Clone, Copy, Debug)]
pub struct Named<'a> {
    message: Message<'a>,
    names: &'a Names<'a>,
}

/// What is still to be written.
enum Piece<'a> {
    Text(&'static str),
    Whole(Message<'a>),
}

impl fmt::Display for Named<'_> {
    fn fmt(&self, f: &mut fmt::Formatter<'_>) -> fmt::Result {
        let mut left = f.precision();
        // The piece to be written next is the last.
        let mut pending = vec![Piece::Whole(self.message)];
        while let Some(piece) = pending.pop() {
            let message = match piece {
                Piece::Text(text) => {
                    f.write_str(text)?;
                    continue;
                }
                Piece::Whole(message) => message,
            };
            if left == Some(0) {
                return f.write_str("…");
            }
            left = left.map(|many| many - 1);
            match message.kind() {
                Kind::Number(value) => write!(f, "{value}")?,
                Kind::Variant(variant, parts) => {
                    match self.names.of(message.ty(), variant) {
                        Some(name) => f.write_str(name)?,
                        None => write!(f, "t{}v{variant}", message.ty())?,
                    }
                    let next = pending.len();
                    for part in parts {
                        pending.push(Piece::Text(if pending.len() == next { "(" } else { ", " }));
                        pending.push(Piece::Whole(part));
                    }
                    if pending.len() > next {
                        pending.push(Piece::Text(")"));
                    }
                    pending[next..].reverse();
                }
            }
        }
        Ok(())
    }
}

#[cfg(test)]
mod tests {
    use super::*;

    const NAMES: Names<'_> = Names {
        variants: &[&[], &["nil", "cons"]],
    };
    // Type 0: numbers; type 1: nil or cons; type 2: a leaf with a number, or a pair.
    const FILE: &[u8] = &[3, 0, 2, 0, 2, 0, 1, 2, 1, 0, 2, 2, 2, 1];

    fn messages(rows: &[[i32; 4]], place: i32) -> Messages {
        Messages::read(FILE, rows.len(), &rows.concat(), &[place])
    }

    /// A list of so many numbers.
    fn list(many: i32) -> Messages {
        let mut rows = vec![[-1, -3, -1, 0], [16, 0, 0, 0]];
        rows.extend((1..=many).map(|row| [17, 0, row, 0]));
        messages(&rows, many + 1)
    }

    #[test]
    fn text_of_a_message() {
        let shown = list(2);
        let message = shown.term(0).unwrap();
        assert_eq!(message.to_string(), "t1v1(-3, t1v1(-3, t1v0))");
        assert_eq!(
            message.with_names(&NAMES).to_string(),
            "cons(-3, cons(-3, nil))"
        );
        assert_eq!(message.size(), 5);
        assert!(shown.term(1).is_none());
    }

    #[test]
    fn text_of_rows() {
        let text = "row 0 type 0 number -3\nrow 1 type 1 variant 0\nrow 2 type 1 variant 1 parts 0 1\nterm 0 row 2\n";
        assert_eq!(list(1).to_string(), text);
    }

    #[test]
    fn numbers_over_64_bits() {
        for (low, high, value) in [
            (0, 0, 0),
            (-1, -1, -1),
            (-1, 0, 4_294_967_295),
            (0, 1, 4_294_967_296),
            (0, -1, -4_294_967_296),
            (-1, -2, -4_294_967_297),
            (-1, i32::MAX, i64::MAX),
            (0, i32::MIN, i64::MIN),
        ] {
            let shown = messages(&[[-1, low, high, 0]], 0);
            let number = shown.term(0).unwrap();
            assert!(matches!(number.kind(), Kind::Number(found) if found == value));
            assert_eq!(number.to_string(), value.to_string());
            let text = format!("row 0 type 0 number {value}\nterm 0 row 0\n");
            assert_eq!(shown.to_string(), text);
        }
    }

    #[test]
    fn precision_stops_the_text() {
        let shown = list(2);
        let message = shown.term(0).unwrap();
        assert_eq!(
            format!("{:.3}", message.with_names(&NAMES)),
            "cons(-3, cons(…"
        );
        assert_eq!(format!("{message:.0}"), "…");
        assert_eq!(format!("{message:.5}"), message.to_string());
    }

    #[test]
    fn deep_messages_in_a_small_stack() {
        let thread = std::thread::Builder::new().stack_size(64 * 1024);
        let length = thread
            .spawn(|| list(4094).term(0).unwrap().to_string().len())
            .unwrap()
            .join()
            .unwrap();
        assert_eq!(length, 4094 * "t1v1(-3, )".len() + "t1v0".len());
    }

    #[test]
    fn shared_parts_are_counted_not_copied() {
        let mut rows = vec![[-1, 5, 0, 0], [32, 0, 0, 0]];
        rows.extend((1..=70).map(|row| [33, row, row, 0]));
        let shown = messages(&rows, 71);
        let message = shown.term(0).unwrap();
        assert_eq!(message.size(), u64::MAX);
        assert_eq!(format!("{message:.2}"), "t2v1(t2v1(…");
        assert_eq!(format!("{message:?}"), format!("{message:.100}"));
        assert_eq!(messages(&rows[..4], 3).term(0).unwrap().size(), 11);
    }

    #[test]
    fn parts_and_rows() {
        let shown = list(1);
        let Kind::Variant(1, mut parts) = shown.term(0).unwrap().kind() else {
            panic!()
        };
        assert_eq!(parts.len(), 2);
        assert!(matches!(parts.next().unwrap().kind(), Kind::Number(-3)));
        let nil = parts.next().unwrap();
        assert_eq!((nil.ty(), nil.row()), (1, 1));
        assert!(matches!(nil.kind(), Kind::Variant(0, parts) if parts.len() == 0));
    }
}
