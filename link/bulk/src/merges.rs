//! The library's merge of two guard files against the outside solver's: accepted files with themselves, with others of the same types
//! and with damaged ones, into buffers that are long enough and into others.

use crate::counts::Numbered;
use crate::desk::Desk;
use crate::files::{self, Maker};
use crate::known::Known;
use crate::mismatch::Mismatch;
use crate::outputs::{rooms, Given, Output};
use oracle::guard::{Guard, Limits};
use oracle::random::Random;
use oracle::read::read;
use oracle::vectors::hex;
use oracle::vectors::merges::{thinned, with_types, Pair};
use oracle::vectors::written::Input;

/// How many other guards there are to choose from.
const OTHERS: usize = 400;

impl Given for Pair {
    fn call(&self, desk: &impl Desk, out: &mut [u8]) -> i64 {
        desk.merge(&self.first, &self.second, out)
    }

    fn facts(&self) -> Vec<(&'static str, String)> {
        vec![("first", hex(&self.first)), ("second", hex(&self.second))]
    }
}

/// What compares: a buffer to lend, and other guards.
pub struct Merger {
    out: Output,
    others: Vec<(Vec<u8>, Guard)>,
}

impl Merger {
    pub fn new(random: &mut Random, maker: &Maker) -> Merger {
        let out = Output::new(random);
        let mut random = Random::named("guards to merge");
        let mut others = Vec::new();
        while others.len() < OTHERS {
            let file = maker.make(&mut random);
            if let Ok(guard) = read(&file, Limits::BASE) {
                others.push((file, guard));
            }
        }
        Merger { out, others }
    }

    /// All pairs that are made of a file.
    pub fn compare(
        &mut self,
        desk: &impl Desk,
        random: &mut Random,
        file: &[u8],
        known: &Known,
        merged: &mut Numbered,
    ) -> Result<(), Box<Mismatch>> {
        let Ok(guard) = &known.guard else {
            let other = &self.others[random.below(OTHERS)].0;
            // Often refused as well.
            let mut damaged = other.clone();
            files::change(random, &mut damaged);
            let pairs = [other, &damaged].map(|o| [Pair::new(file, o), Pair::new(o, file)]);
            return self.compare_all(desk, random, &pairs.concat(), merged);
        };
        let same = Pair::new(file, file);
        let length = same.answer(usize::MAX).map_or(0, |file| file.len());
        for room in rooms(random, length) {
            let expected = same.answer(room);
            self.out.call(desk, random, &same, room, expected, merged)?;
        }
        let pairs = self.tried(random, file, guard);
        self.compare_all(desk, random, &pairs, merged)
    }

    fn compare_all(
        &mut self,
        desk: &impl Desk,
        random: &mut Random,
        pairs: &[Pair],
        merged: &mut Numbered,
    ) -> Result<(), Box<Mismatch>> {
        let mut pairs = pairs.iter();
        pairs.try_for_each(|pair| self.out.compare(desk, random, pair, merged))
    }

    /// The file with a random guard of its types on either side, with itself but for some lines, with another guard, of the same types
    /// if there is one, and with a damaged one.
    fn tried(&self, random: &mut Random, file: &[u8], guard: &Guard) -> [Pair; 5] {
        let made = with_types(random, &guard.types).bytes();
        let thinned = thinned(random, guard).bytes();
        let mut damaged = [&made, &thinned][random.below(2)].clone();
        files::change(random, &mut damaged);
        let alike = self.others.iter().filter(|o| o.1.types == guard.types);
        let alike: Vec<&(Vec<u8>, Guard)> = alike.collect();
        let other = random.pick(&alike).unwrap_or(&self.others[0]);
        [
            Pair::new(file, &made),
            Pair::new(&made, file),
            Pair::new(file, &thinned),
            Pair::new(&other.0, file),
            match random.percent(50) {
                true => Pair::new(file, &damaged),
                false => Pair::new(&damaged, file),
            },
        ]
    }
}

#[cfg(test)]
mod tests {
    use super::*;
    use crate::desk::planted::Merge;
    use crate::desk::Library;
    use crate::outputs::compare_lines;
    use crate::outputs::planted::{
        assert_words, change_last, first_fault, mark_last, taken, MARKED,
    };
    use guarddesk::raw::merge_into;

    /// The first fault that a desk shows on some hundred files.
    fn fault(desk: impl Desk) -> Option<String> {
        let mut merger = Merger::new(&mut Random::named("merger"), &Maker::default());
        let mut counts = Numbered::default();
        first_fault(|random, file, known| merger.compare(&desk, random, file, known, &mut counts))
    }

    type Wrong = fn(&[u8], &[u8], &mut [u8]) -> i64;

    fn assert_found(wrong: Wrong, words: &str) {
        assert_words(fault(Merge(wrong)), words);
    }

    #[test]
    fn the_library_is_right() {
        assert_eq!(fault(Library), None);
    }

    /// As the library, with one code in place of another.
    fn instead(code: i64, wrong: i64, found: i64) -> i64 {
        if code == wrong {
            found
        } else {
            code
        }
    }

    #[test]
    fn a_wrong_number_is_found() {
        let wrongs: [Wrong; 7] = [
            |first, second, out| merge_into(first, second, out) + 1,
            |first, second, out| merge_into(first, second, out).max(0),
            |first, second, out| instead(merge_into(first, second, out), -15, -16),
            |first, second, out| instead(merge_into(first, second, out), -16, -15),
            |first, second, out| instead(merge_into(first, second, out), -4, -14),
            |first, second, out| instead(merge_into(first, second, out), -10, -2),
            // The second is asked before the first.
            |first, second, out| {
                let exchanged = merge_into(second, first, &mut out.to_vec());
                let code = merge_into(first, second, out);
                match code < 0 {
                    true => exchanged,
                    false => code,
                }
            },
        ];
        for wrong in wrongs {
            assert_found(wrong, "what it returned is another");
        }
    }

    #[test]
    fn a_wrong_byte_is_found() {
        let last: Wrong = |first, second, out| change_last(merge_into(first, second, out), out);
        assert_found(last, "the file is another");
        // The first as it is, where both are the same guard; and the files exchanged.
        let once: Wrong = |first, second, out| match first == second && first.len() <= out.len() {
            true => merge_into(first, &[0, 0, 0], out).max(first.len() as i64),
            false => merge_into(first, second, out),
        };
        assert_found(once, "");
        let exchanged: Wrong = |first, second, out| merge_into(second, first, out);
        assert_found(exchanged, "");
        // Behind the file, after 14, and after another refusal.
        let marked: [Wrong; 3] = [
            |first, second, out| mark_last(merge_into(first, second, out), out, MARKED[0]),
            |first, second, out| mark_last(merge_into(first, second, out), out, MARKED[1]),
            |first, second, out| mark_last(merge_into(first, second, out), out, MARKED[2]),
        ];
        for wrong in marked {
            assert_found(wrong, "isn't 0");
        }
    }

    #[test]
    fn a_short_buffer_that_is_taken_is_found() {
        let taken: Wrong = |first, second, out| taken(out, |own| merge_into(first, second, own));
        assert_found(taken, "what it returned is another");
    }

    #[test]
    fn lines_of_merges() {
        let lines = "merged\t3\t000000\t000000\t000000\nrefused\t9\t000000\t-\tREFUSED 2\n";
        let counts = compare_lines::<Pair>(&Library, lines).expect("no mismatch");
        assert_eq!((counts.total(), counts.0[0], counts.0[2]), (2, 1, 1));
        let wrong = lines.replace("REFUSED 2", "REFUSED 3");
        let why = compare_lines::<Pair>(&Library, &wrong).expect_err("a mismatch");
        let facts = "MISMATCH in refused\nfirst     000000\nsecond    -\n";
        assert!(why.starts_with(facts), "{why}");
        assert!(compare_lines::<Pair>(&Library, "merged\t3\t000000\t000000").is_err());
    }
}
