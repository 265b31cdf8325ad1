//! Request #111: the term rows of a guard file by column, and the way back.

use crate::encode::{self, Draft, Token};
use crate::guard::{Guard, Limits};
use crate::number::{self, Width};
use crate::read::{self, Question};
use crate::types::Type;

/// Rows have up to six numbers: "all kinds", "all second numbers, then third to
/// sixth".
const COLUMNS: usize = 6;

/// Why a file isn't stored, or isn't given back.
#[derive(Clone, Copy, Debug, PartialEq, Eq)]
pub enum Refusal {
    /// A question about the bytes.
    Bytes(Question),
    /// "Too short an output is 14, asked last."
    Output,
}

impl Refusal {
    pub fn number(self) -> u8 {
        match self {
            Refusal::Bytes(question) => question.number(),
            Refusal::Output => 14,
        }
    }
}

/// The stored bytes of a file. "Storing asks 2 to 10 first."
pub fn store(file: &[u8], limits: Limits) -> Result<Vec<u8>, Question> {
    let guard = read::read(file, limits)?;
    Ok(encode::bytes(&stored_tokens(&guard)))
}

/// The numbers of an accepted guard as they are stored: "all kinds in row order,
/// then all second numbers, then third to sixth, missing ones left out; other
/// numbers keep their order".
pub fn stored_tokens(guard: &Guard) -> Vec<Token> {
    let [head, rows, lines] = Draft::of(guard).parts(guard.limits);
    let mut tokens = head.concat();
    for column in 0..COLUMNS {
        tokens.extend(rows.iter().filter_map(|row| row.get(column)));
    }
    tokens.extend(lines.concat());
    tokens
}

/// The file that these bytes are stored of.
pub fn restore(stored: &[u8], limits: Limits) -> Result<Vec<u8>, Question> {
    // "Back again, up to N the base's questions are asked."
    let (types, many, rest) = read::read_up_to_rows(stored, limits)?;
    let head = &stored[..stored.len() - rest.len()];
    let mut columns = Columns { types, rest };
    let mut rows = vec![Row::default(); many];
    for column in 0..COLUMNS {
        for row in &mut rows {
            columns.number(column, row)?;
        }
    }
    let rows: Vec<&[u8]> = rows.iter().flat_map(|row| row.numbers.clone()).collect();
    let file = [head, &rows.concat(), columns.rest].concat();
    // "The rest are asked of the restored file."
    read::read(&file, limits)?;
    Ok(file)
}

/// The same for an output buffer of so many bytes.
pub fn within(bytes: Result<Vec<u8>, Question>, room: usize) -> Result<Vec<u8>, Refusal> {
    let bytes = bytes.map_err(Refusal::Bytes)?;
    if bytes.len() > room {
        return Err(Refusal::Output);
    }
    Ok(bytes)
}

/// What is read of a row, column by column.
#[derive(Clone, Default)]
struct Row<'a> {
    kind: u64,
    /// Of a built row.
    ty: usize,
    /// Of a built row's variant, once that is read.
    fields: usize,
    /// The bytes of each number.
    numbers: Vec<&'a [u8]>,
}

impl Row<'_> {
    /// How many numbers it has.
    fn length(&self) -> usize {
        match self.kind {
            0 => 2,
            1 => 3,
            2 => 3 + self.fields,
            _ => 4,
        }
    }
}

/// The columns that aren't read yet, and what follows them.
struct Columns<'a> {
    types: Vec<Type>,
    rest: &'a [u8],
}

impl<'a> Columns<'a> {
    /// The number of a row in this column, if it has one there.
    fn number(&mut self, column: usize, row: &mut Row<'a>) -> Result<(), Question> {
        if column >= row.length() {
            return Ok(());
        }
        // "In the columns each number is asked 2 and 3", a constant's value as one.
        let value = column == 2 && row.kind == 1;
        let width: Width = if value { number::VALUE } else { number::PLAIN };
        let (number, length) = read::read_number(self.rest, width)?;
        let (bytes, rest) = self.rest.split_at(length);
        self.rest = rest;
        row.numbers.push(bytes);
        match (column, row.kind) {
            (0, _) => {
                Question::KindListed.ask(number < 4)?;
                row.kind = number;
            }
            // "And a built row's type and variant 5 and 7."
            (1, 2) => {
                row.ty = named(number, self.types.len())?;
                Question::TypeFits.ask(!self.types[row.ty].is_number())?;
            }
            (2, 2) => {
                let variants = &self.types[row.ty].variants;
                row.fields = variants[named(number, variants.len())?].len();
            }
            _ => {}
        }
        Ok(())
    }
}

/// A number that names one of so many things.
fn named(number: u64, things: usize) -> Result<usize, Question> {
    let thing = usize::try_from(number).ok().filter(|&thing| thing < things);
    thing.ok_or(Question::NamedThingExists)
}

#[cfg(test)]
mod tests {
    use super::*;
    use crate::vectors::unhex;

    /// Two types, numbers and lists of them, in document 01's cases.
    const X: &str = "02 00 02 00 02 00 01";

    fn bytes(text: &str) -> Vec<u8> {
        unhex(&text.replace('X', X)).expect("hexadecimal")
    }

    fn stored(file: &str) -> Result<Vec<u8>, u8> {
        store(&bytes(file), Limits::BASE).map_err(Question::number)
    }

    fn restored(stored: &str) -> Result<Vec<u8>, u8> {
        restore(&bytes(stored), Limits::BASE).map_err(Question::number)
    }

    /// Files with what is stored of them.
    const STORED: [(&str, &str); 9] = [
        ("00 00 00", "00 00 00"),
        ("X 00 00", "X 00 00"),
        // Case c: a list, and its tail. Kinds 0 and 3; type 1 and term 0; the variant; the position.
        (
            "X 02 00 01 03 00 01 01 01 00 00 01",
            "X 02 00 03 01 00 01 01 01 00 00 01",
        ),
        // Case g: two lists.
        (
            "X 02 00 01 00 01 03 01 00 01 03 00 01 03 01 01",
            "X 02 00 00 01 01 03 01 00 01 03 00 01 03 01 01",
        ),
        // Case j: the numbers −3 and 4.
        (
            "01 00 02 01 00 05 01 00 08 01 00 00 01",
            "01 00 02 01 01 00 00 05 08 01 00 00 01",
        ),
        // One row is one row either way.
        ("X 01 02 01 00 00", "X 01 02 01 00 00"),
        // Values of one byte, ten and two.
        (
            "01 00 03 01 00 05 01 00 ff ff ff ff ff ff ff ff ff 01 01 00 80 01 00",
            "01 00 03 01 01 01 00 00 00 05 ff ff ff ff ff ff ff ff ff 01 80 01 00",
        ),
        // Three fields, and so six numbers; behind it a variable.
        (
            "02 00 01 03 00 00 00 03 01 00 07 02 01 00 00 00 00 00 01 00",
            "02 00 01 03 00 00 00 03 01 02 00 00 01 01 07 00 00 00 00 00",
        ),
        // nil, 3, [3], x, x's head, the end of the values.
        (
            "X 06 02 01 00 01 00 06 02 01 01 01 00 00 01 03 03 01 00 01 00 ff ff ff ff ff ff ff ff ff 01 01 00 02 03",
            "X 06 02 01 02 00 03 01 01 00 01 01 03 00 00 06 01 01 ff ff ff ff ff ff ff ff ff 01 01 00 00 01 00 02 03",
        ),
    ];

    #[test]
    fn files_by_column_and_back() {
        for (file, by_column) in STORED {
            assert_eq!(stored(file), Ok(bytes(by_column)), "{file}");
            assert_eq!(restored(by_column), Ok(bytes(file)), "{by_column}");
        }
    }

    #[test]
    fn storing_asks_the_bases_questions() {
        for (file, question) in [
            ("-", 2),
            ("80 00", 3),
            ("07", 4),
            ("01 00 01 00 01", 5),
            ("01 00 01 04", 6),
            ("01 00 01 02 00", 7),
            ("01 01 01 00", 8),
            ("02 01 00 01 01 00", 9),
            ("00 00 00 00", 10),
        ] {
            assert_eq!(stored(file), Err(question), "{file}");
        }
    }

    #[test]
    fn up_to_the_rows_the_bases_questions() {
        for (by_column, question) in [
            ("-", 2),
            ("01", 2),
            ("80 00", 3),
            ("07", 4),
            ("01 11", 4),
            ("01 01 01 01", 5),
            ("01 01 01 00", 8),
            ("02 01 00 01 01 00", 9),
            ("X", 2),
            ("X 80 00", 3),
            ("X 19", 4),
        ] {
            assert_eq!(restored(by_column), Err(question), "{by_column}");
        }
    }

    #[test]
    fn in_the_columns() {
        for (by_column, question) in [
            // Each kind, each second number, each third.
            ("X 02 00", 2),
            ("X 02 00 80 00", 3),
            ("X 02 00 04", 6),
            ("X 02 00 ff ff ff ff 0f", 6),
            ("X 02 00 00 01", 2),
            ("X 02 00 00 01 80 00", 3),
            ("X 01 03 00", 2),
            ("X 01 03 00 80 00", 3),
            // A field read's variant has five bytes, a value ten.
            ("X 01 03 00 ff ff ff ff 7f", 3),
            ("X 01 03 00 ff ff ff ff ff", 3),
            ("01 00 01 01 00 ff ff ff ff ff", 2),
            ("01 00 01 01 00 ff ff ff ff ff ff ff ff ff 02", 3),
            // The fourth and the fifth.
            ("X 01 03 00 01", 2),
            ("X 01 03 00 01 81 00", 3),
            ("X 01 02 01 01 00", 2),
            ("X 01 02 01 01 00 80 00", 3),
            // A built row's type and variant.
            ("X 01 02 02", 5),
            ("X 01 02 ff ff ff ff 0f", 5),
            ("X 01 02 00", 7),
            ("X 01 02 01 02", 5),
        ] {
            assert_eq!(restored(by_column), Err(question), "{by_column}");
        }
    }

    #[test]
    fn of_the_restored_file() {
        for (by_column, question) in [
            // A variable's type, a constant's, a term read, its variant and position, a part.
            ("X 01 00 02 00", 5),
            ("X 01 01 02 00 00", 5),
            ("X 01 01 01 00 00", 7),
            ("X 01 03 00 01 01 00", 5),
            ("X 02 00 03 00 00 01 01 00", 7),
            ("X 02 00 03 01 00 02 01 00", 5),
            ("X 02 00 03 01 00 01 02 00", 5),
            ("X 02 00 03 01 00 00 00 00", 5),
            ("X 02 02 00 01 01 01 01 01 00", 5),
            ("X 02 00 02 01 01 01 00 00 00", 7),
            // L, the lines, and the end.
            ("X 01 00 01", 2),
            ("X 01 00 01 80 00", 3),
            ("X 01 00 01 21", 4),
            ("X 01 00 01 01 04", 6),
            ("X 01 00 01 01 00 00 01", 5),
            ("X 01 00 00 01 02 00", 7),
            ("X 01 00 01 00 00", 10),
        ] {
            assert_eq!(restored(by_column), Err(question), "{by_column}");
        }
    }

    /// Each has the faults behind it as well, or one that stands before it and
    /// is asked later.
    #[test]
    fn the_order_of_the_questions() {
        for (by_column, question) in [
            // Kinds before types, whatever the row.
            ("X 02 02 04 00", 6),
            ("X 02 02 00 00 80 00", 7),
            // A variable's type, asked of the restored file, after a built row's.
            ("X 02 00 02 09 00", 7),
            ("X 02 00 02 09 02", 5),
            ("X 02 00 02 09 01 02", 5),
            ("X 02 00 02 09 01 01", 2),
            // The form of a later column before what a number names.
            ("X 02 00 03 09 00 80 00", 3),
            ("X 01 03 07 00 80 00", 3),
            // In row order: the constant's type before the term that the next row reads.
            ("X 02 01 03 01 09 00 01 01 00", 7),
            ("X 02 03 01 09 01 01 00 01 00", 5),
            // A wrong row before lines cut off or none at all.
            ("X 01 01 01 00", 7),
            ("X 01 00 02", 5),
            ("X 01 00 02 00 00", 5),
        ] {
            assert_eq!(restored(by_column), Err(question), "{by_column}");
        }
    }

    #[test]
    fn the_output_is_asked_last() {
        for (file, by_column) in STORED {
            let (file, by_column) = (bytes(file), bytes(by_column));
            let length = file.len();
            assert_eq!(by_column.len(), length);
            for room in [0, length - 1, length, length + 1] {
                let there = within(store(&file, Limits::BASE), room);
                let back = within(restore(&by_column, Limits::BASE), room);
                let (right, same) = match room < length {
                    true => (Err(Refusal::Output), Err(Refusal::Output)),
                    false => (Ok(by_column.clone()), Ok(file.clone())),
                };
                assert_eq!((there, back), (right, same), "{file:02x?}, {room}");
            }
        }
        let wrong = within(restore(&[0, 0, 0, 0], Limits::BASE), 0);
        assert_eq!(wrong.map_err(Refusal::number), Err(10));
        assert_eq!(within(Ok(vec![0]), 0).map_err(Refusal::number), Err(14));
    }
}
