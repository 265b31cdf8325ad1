//! The library's writer of guard files against the outside solver's: the lists of accepted files, damaged lists and random ones, into
//! buffers that are long enough and into others.

use crate::counts::Numbered;
use crate::desk::Desk;
use crate::known::Known;
use crate::mismatch::Mismatch;
use crate::outputs::{rooms, Given, Output};
use oracle::encode::{Draft, Token};
use oracle::guard::Limits;
use oracle::list;
use oracle::random::Random;
use oracle::read::Question;
use oracle::types::one_number_type;
use oracle::vectors::lists::damaged;

/// How many damaged lists are made from an accepted file.
const DAMAGED: usize = 4;

impl Given for Vec<i64> {
    fn call(&self, desk: &impl Desk, out: &mut [u8]) -> i64 {
        desk.write(self, out)
    }

    fn facts(&self) -> Vec<(&'static str, String)> {
        vec![("list", list::text(self))]
    }
}

/// What compares: a buffer to lend.
pub struct Writer {
    out: Output,
}

impl Writer {
    pub fn new(random: &mut Random) -> Writer {
        let out = Output::new(random);
        Writer { out }
    }

    /// All lists that are made of a file.
    pub fn compare(
        &mut self,
        desk: &impl Desk,
        random: &mut Random,
        file: &[u8],
        known: &Known,
        written: &mut Numbered,
    ) -> Result<(), Box<Mismatch>> {
        let Ok(guard) = &known.guard else {
            let list = as_list(random, file);
            return self.out.compare(desk, random, &list, written);
        };
        let tokens = Draft::of(guard).tokens(Limits::BASE);
        let whole = list::of_tokens(&tokens);
        // "An accepted file, read and written, has the same bytes." Request #112: not one with several number types.
        for room in rooms(random, file.len()) {
            let expected = if !one_number_type(&guard.types) {
                Err(Question::OneNumberType.number())
            } else if room < file.len() {
                Err(14)
            } else {
                Ok(file.to_vec())
            };
            self.out
                .call(desk, random, &whole, room, expected, written)?;
        }
        for list in tried(random, &tokens) {
            self.out.compare(desk, random, &list, written)?;
        }
        Ok(())
    }
}

/// Lists that aren't quite that of these numbers.
fn tried(random: &mut Random, tokens: &[Token]) -> Vec<Vec<i64>> {
    (0..DAMAGED)
        .filter_map(|_| damaged(random, tokens))
        .collect()
}

/// The bytes of a file as numbers, signed or not.
fn as_list(random: &mut Random, file: &[u8]) -> Vec<i64> {
    let signed = random.percent(50);
    let number = |&byte: &u8| match signed {
        true => i64::from(byte as i8),
        false => i64::from(byte),
    };
    file.iter().map(number).collect()
}

#[cfg(test)]
mod tests {
    use super::*;
    use crate::desk::planted::Write;
    use crate::desk::Library;
    use crate::outputs::compare_lines;
    use crate::outputs::planted::{
        assert_words, change_last, first_fault, mark_last, taken, MARKED,
    };
    use guarddesk::raw::write_into;

    /// The first fault that a desk shows on some hundred files.
    fn fault(desk: impl Desk) -> Option<String> {
        let mut writer = Writer::new(&mut Random::named("writer"));
        let mut counts = Numbered::default();
        first_fault(|random, file, known| writer.compare(&desk, random, file, known, &mut counts))
    }

    type Wrong = fn(&[i64], &mut [u8]) -> i64;

    fn assert_found(wrong: Wrong, words: &str) {
        assert_words(fault(Write(wrong)), words);
    }

    #[test]
    fn the_library_is_right() {
        assert_eq!(fault(Library), None);
    }

    #[test]
    fn a_wrong_number_is_found() {
        let wrongs: [Wrong; 5] = [
            |list, out| write_into(list, out) + 1,
            |list, out| write_into(list, out).max(0),
            |list, out| write_into(list, out).abs(),
            |list, out| write_into(list, out).max(-11),
            |list, out| match write_into(list, out) {
                -6 => -5,
                code => code,
            },
        ];
        for wrong in wrongs {
            assert_found(wrong, "what it returned is another");
        }
    }

    #[test]
    fn a_wrong_byte_is_found() {
        let last: Wrong = |list, out| change_last(write_into(list, out), out);
        assert_found(last, "the file is another");
        // Behind the file, after 14, and after another refusal.
        let marked: [Wrong; 3] = [
            |list, out| mark_last(write_into(list, out), out, MARKED[0]),
            |list, out| mark_last(write_into(list, out), out, MARKED[1]),
            |list, out| mark_last(write_into(list, out), out, MARKED[2]),
        ];
        for wrong in marked {
            assert_found(wrong, "isn't 0");
        }
    }

    #[test]
    fn a_short_buffer_that_is_taken_is_found() {
        let taken: Wrong = |list, out| taken(out, |own| write_into(list, own));
        assert_found(taken, "what it returned is another");
    }

    #[test]
    fn lines_of_lists() {
        let lines = "written\t3\t0 0 0\t000000\nrefused\t9\t-\tREFUSED 2\n";
        let counts = compare_lines::<Vec<i64>>(&Library, lines).expect("no mismatch");
        assert_eq!((counts.total(), counts.0[0], counts.0[2]), (2, 1, 1));
        let wrong = lines.replace("REFUSED 2", "REFUSED 3");
        let why = compare_lines::<Vec<i64>>(&Library, &wrong).expect_err("a mismatch");
        assert!(
            why.starts_with("MISMATCH in refused\nlist      -\n"),
            "{why}"
        );
        assert!(compare_lines::<Vec<i64>>(&Library, "written\t3").is_err());
        let never: Wrong = |list, out| write_into(list, out).min(-1);
        assert!(compare_lines::<Vec<i64>>(&Write(never), lines).is_err());
    }
}
