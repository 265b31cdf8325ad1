//! Request #102: guard files from lists of their numbers, and the lists of
//! guard files.

use std::str::FromStr;

use crate::encode::{Draft, Role, Token};
use crate::guard::Limits;
use crate::number;
use crate::read::{self, Numbers, Question};
use crate::types::{self, Type};

/// Request #104: "the longest file is 585 bytes".
pub const LONGEST_FILE: usize = 585;

/// Why the writer refuses.
#[derive(Clone, Copy, Debug, PartialEq, Eq)]
pub enum Refusal {
    /// A question about the list.
    List(Question),
    /// "The output buffer is shorter than the bytes."
    Output,
}

impl Refusal {
    pub fn number(self) -> u8 {
        match self {
            Refusal::List(question) => question.number(),
            Refusal::Output => 14,
        }
    }
}

/// The numbers of a list that aren't taken yet.
struct List<'a> {
    rest: &'a [i64],
}

impl Numbers for List<'_> {
    /// "A list that stops early gets 2."
    fn plain(&mut self) -> Result<i64, Question> {
        let (&first, rest) = self.rest.split_first().ok_or(Question::NumberEnds)?;
        self.rest = rest;
        Ok(first)
    }

    /// Request #104: "the writer's 3 no longer occurs".
    fn value(&mut self) -> Result<i64, Question> {
        self.plain()
    }

    fn ended(&self) -> bool {
        self.rest.is_empty()
    }

    /// Request #112: "18, asked by the writer after 9, when more than one type
    /// is a number type".
    fn after_types(&self, types: &[Type]) -> Result<(), Question> {
        Question::OneNumberType.ask(types::one_number_type(types))
    }
}

/// The bytes of the file with these numbers.
///
/// "It asks the base's questions 4 to 10 of the list.", and request #112's 18
/// after 9. A negative number is no count, names nothing and is no kind.
pub fn write(list: &[i64], limits: Limits) -> Result<Vec<u8>, Question> {
    let guard = read::read_numbers(List { rest: list }, limits)?;
    Ok(Draft::of(&guard).bytes())
}

/// The same for an output buffer of so many bytes: "14, asked last".
pub fn write_within(list: &[i64], room: usize, limits: Limits) -> Result<Vec<u8>, Refusal> {
    let file = write(list, limits).map_err(Refusal::List)?;
    if file.len() > room {
        return Err(Refusal::Output);
    }
    Ok(file)
}

/// The numbers of an accepted file.
pub fn numbers(file: &[u8], limits: Limits) -> Result<Vec<i64>, Question> {
    let guard = read::read(file, limits)?;
    Ok(of_tokens(&Draft::of(&guard).tokens(limits)))
}

/// "The file's in file order and constants as their values."
pub fn of_tokens(tokens: &[Token]) -> Vec<i64> {
    let listed = |token: &Token| match token.role {
        Role::Value => number::unfold(token.number),
        _ => token.number as i64,
    };
    tokens.iter().map(listed).collect()
}

/// A list as text: its numbers with spaces between them, - if there are none.
pub fn text(list: &[i64]) -> String {
    if list.is_empty() {
        return "-".to_string();
    }
    let words: Vec<String> = list.iter().map(i64::to_string).collect();
    words.join(" ")
}

/// Reads the text of a list; any white space is allowed.
pub fn parse(text: &str) -> Option<Vec<i64>> {
    if text.trim() == "-" {
        return Some(Vec::new());
    }
    text.split_whitespace()
        .map(|word| i64::from_str(word).ok())
        .collect()
}

#[cfg(test)]
mod tests {
    use super::*;
    use crate::vectors::unhex;

    /// Document 01's cases with their lists; X is two types, numbers and lists
    /// of them.
    const X: &str = "02 00 02 00 02 00 01";
    const CASES: [(&str, &str); 7] = [
        ("00 00 00", "0 0 0"),
        (
            "X 02 00 01 03 00 01 01 01 00 00 01",
            "2 0 2 0 2 0 1  2 0 1 3 0 1 1  1 0 0 1",
        ),
        (
            "X 02 00 01 03 00 01 01 02 00 00 01 02 00 01",
            "2 0 2 0 2 0 1  2 0 1 3 0 1 1  2 0 0 1 2 0 1",
        ),
        (
            "X 02 00 01 00 01 01 01 00 01",
            "2 0 2 0 2 0 1  2 0 1 0 1  1 1 0 1",
        ),
        (
            "X 02 00 01 00 01 03 01 00 01 03 00 01 03 01 01",
            "2 0 2 0 2 0 1  2 0 1 0 1  3 1 0 1 3 0 1 3 1 1",
        ),
        (
            "01 02 00 00 03 00 00 00 00 00 00 03 01 00 01 01 00 02 01 01 02",
            "1 2 0 0  3 0 0 0 0 0 0  3 1 0 1 1 0 2 1 1 2",
        ),
        // "Values −3 and 4."
        (
            "01 00 02 01 00 05 01 00 08 01 00 00 01",
            "1 0  2 1 0 -3 1 0 4  1 0 0 1",
        ),
    ];

    fn written(text: &str) -> Result<Vec<u8>, u8> {
        let list = parse(text).expect("numbers");
        write(&list, Limits::BASE).map_err(Question::number)
    }

    #[test]
    fn the_cases_of_document_01() {
        for (hex, text) in CASES {
            let file = unhex(&hex.replace('X', X)).expect("hexadecimal");
            assert_eq!(written(text), Ok(file.clone()), "{text}");
            assert_eq!(numbers(&file, Limits::BASE).ok(), parse(text), "{hex}");
        }
    }

    /// A list with one constant, and its bytes.
    fn constant(value: i64) -> Result<Vec<u8>, u8> {
        written(&format!("1 0  1 1 0 {value}  0"))
    }

    #[test]
    fn values_to_both_ends() {
        for (value, bytes) in [
            (0, "00"),
            (-1, "01"),
            (1, "02"),
            (63, "7e"),
            (-64, "7f"),
            (64, "80 01"),
            (-65, "81 01"),
            (i64::from(i32::MAX), "fe ff ff ff 0f"),
            (i64::from(i32::MIN), "ff ff ff ff 0f"),
            (i64::from(i32::MAX) + 1, "80 80 80 80 10"),
            (i64::from(i32::MIN) - 1, "81 80 80 80 10"),
            // Their low 32 bits are 0 and −1.
            (1 << 32, "80 80 80 80 20"),
            ((1 << 32) - 1, "fe ff ff ff 1f"),
            ((1 << 34) - 1, "fe ff ff ff 7f"),
            (-(1 << 34), "ff ff ff ff 7f"),
            (1 << 34, "80 80 80 80 80 01"),
            ((1 << 62) - 1, "fe ff ff ff ff ff ff ff 7f"),
            (1 << 62, "80 80 80 80 80 80 80 80 80 01"),
            (i64::MAX, "fe ff ff ff ff ff ff ff ff 01"),
            (i64::MIN, "ff ff ff ff ff ff ff ff ff 01"),
        ] {
            let expected = unhex(&format!("01 00 01 01 00 {bytes} 00")).expect("hexadecimal");
            assert_eq!(constant(value), Ok(expected.clone()), "{value}");
            let list = numbers(&expected, Limits::BASE).expect("an accepted file");
            assert_eq!(list, [1, 0, 1, 1, 0, value, 0]);
        }
    }

    #[test]
    fn every_question() {
        for (text, question) in [
            ("-", 2),
            ("1", 2),
            ("1 0  1 1 0", 2),
            ("0 0", 2),
            ("7", 4),
            ("-1", 4),
            ("4294967296", 4),
            ("-9223372036854775808", 4),
            ("1 17", 4),
            ("1 1 4", 4),
            ("0 25", 4),
            ("0 0 33", 4),
            ("1 0  1 0 1", 5),
            ("1 0  1 0 -1", 5),
            ("1 0  1 0 4294967296", 5),
            ("1 0  1 0 9223372036854775807", 5),
            ("1 0  1 4", 6),
            ("1 0  1 -1", 6),
            ("1 0  1 4294967297", 6),
            ("1 0  1 0 0  1 -4", 6),
            ("1 0  1 2 0", 7),
            ("1 1 1 0", 8),
            ("2 1 0 1 1 0", 9),
            ("0 0 0 0", 10),
            ("0 0 0 -9223372036854775808", 10),
            ("2 0 0  0  0", 18),
            ("6 0 0 0 0 0 0  0  0", 18),
        ] {
            assert_eq!(written(text), Err(question), "{text}");
        }
    }

    /// Two faults in one list, or two questions at one number.
    #[test]
    fn the_first_no_counts() {
        for (text, question) in [
            // A constant of a variant type.
            ("1 1 0  1 1 0 4294967296", 7),
            // A constant beyond 32 bits is no fault: what is behind it counts.
            ("1 0  1 1 0 2147483648", 2),
            ("1 0  1 1 0 2147483648  1 9 9 9  7", 6),
            // No default, then a count that is too large.
            ("1 1 1 0  25", 8),
            // Both 8 and 9.
            ("3 1 0 1 1 1 1 1 0", 8),
            // Two number types: 18 comes after all that is asked of types, and
            // before what stands behind them.
            ("2 0 0", 18),
            ("2 0 0  25", 18),
            ("2 0 0  1 1 0 5  0 0", 18),
            ("3 0 1 0 0  -1", 18),
            ("3 0 0", 2),
            ("3 0 0 17", 4),
            ("3 0 0 1 1 3", 5),
            ("3 0 0 1 1 2", 8),
            ("4 0 0 1 0 1 1 2", 9),
        ] {
            assert_eq!(written(text), Err(question), "{text}");
        }
    }

    /// "Existing files with several are still taken everywhere else."
    #[test]
    fn files_with_two_number_types_are_read() {
        let file = [2, 0, 0, 0, 0];
        let list = numbers(&file, Limits::BASE).expect("an accepted file");
        assert_eq!(list, [2, 0, 0, 0, 0]);
        assert_eq!(write(&list, Limits::BASE), Err(Question::OneNumberType));
        assert_eq!(written("3 1 0 0 1 1 1  0  0").map(|file| file.len()), Ok(9));
    }

    #[test]
    fn the_output_is_asked_last() {
        let within = |text: &str, room| {
            let list = parse(text).expect("numbers");
            write_within(&list, room, Limits::BASE).map_err(Refusal::number)
        };
        assert_eq!(within("0 0 0", 3), Ok(vec![0, 0, 0]));
        assert_eq!(within("0 0 0", LONGEST_FILE), Ok(vec![0, 0, 0]));
        assert_eq!(within("0 0 0", 2), Err(14));
        assert_eq!(within("0 0 0", 0), Err(14));
        assert_eq!(within("0 0 0 0", 0), Err(10));
        assert_eq!(within("-", 0), Err(2));
        assert_eq!(within("2 0 0  0  0", 0), Err(18));
    }

    #[test]
    fn lists_as_text() {
        for list in [vec![], vec![0], vec![i64::MIN, -1, i64::MAX]] {
            assert_eq!(parse(&text(&list)), Some(list));
        }
        assert_eq!(parse(" 1\n2\t3 \n"), Some(vec![1, 2, 3]));
        assert_eq!(parse(""), Some(vec![]));
        for wrong in ["x", "1,2", "9223372036854775808", "1 -", "0x1"] {
            assert_eq!(parse(wrong), None, "{wrong}");
        }
    }
}
