//! The library's store of guard files by column and its way back against the outside solver's: accepted files there and back, stored
//! bytes with damage, files that aren't stored, and refused ones, into buffers that are long enough and into others.

use crate::counts::Numbered;
use crate::desk::Desk;
use crate::files;
use crate::known::Known;
use crate::mismatch::Mismatch;
use crate::outputs::{rooms, Given, Output};
use oracle::guard::{Guard, Limits};
use oracle::random::Random;
use oracle::vectors::columns::{damaged, Asked, Way};
use oracle::vectors::hex;

/// How many damaged stores are made from an accepted file.
const DAMAGED: usize = 4;

impl Given for Asked {
    fn call(&self, desk: &impl Desk, out: &mut [u8]) -> i64 {
        match self.way {
            Way::Store => desk.store(&self.bytes, out),
            Way::Restore => desk.restore(&self.bytes, out),
        }
    }

    fn facts(&self) -> Vec<(&'static str, String)> {
        let name = match self.way {
            Way::Store => "file",
            Way::Restore => "stored",
        };
        vec![(name, hex(&self.bytes))]
    }
}

/// What compares: a buffer to lend.
pub struct Columns {
    out: Output,
}

impl Columns {
    pub fn new(random: &mut Random) -> Columns {
        let out = Output::new(random);
        Columns { out }
    }

    /// A file there and back, and what is made of it.
    pub fn compare(
        &mut self,
        desk: &impl Desk,
        random: &mut Random,
        file: &[u8],
        known: &Known,
        stored: &mut Numbered,
        restored: &mut Numbered,
    ) -> Result<(), Box<Mismatch>> {
        let Ok(guard) = &known.guard else {
            self.out
                .compare(desk, random, &Asked::store(file), stored)?;
            return self
                .out
                .compare(desk, random, &Asked::restore(file), restored);
        };
        let there = Asked::store(file);
        let by_column = oracle::columns::store(file, Limits::BASE);
        let by_column = by_column.expect("an accepted file is stored");
        let back = Asked::restore(&by_column);
        // "The inverse gives the original bytes, for every accepted file."
        for room in rooms(random, file.len()) {
            let fits = |bytes: &[u8]| match room < file.len() {
                true => Err(14),
                false => Ok(bytes.to_vec()),
            };
            let (stores, restores) = (fits(&by_column), fits(file));
            self.out.call(desk, random, &there, room, stores, stored)?;
            self.out
                .call(desk, random, &back, room, restores, restored)?;
        }
        for bytes in tried(random, file, guard, &by_column) {
            let back = Asked::restore(&bytes);
            self.out.compare(desk, random, &back, restored)?;
        }
        // Stored once more, which is often refused.
        let twice = Asked::store(&by_column);
        self.out.compare(desk, random, &twice, stored)
    }
}

/// Bytes that aren't quite those stored of a file: with damage, with a byte changed, and the file itself.
fn tried(random: &mut Random, file: &[u8], guard: &Guard, by_column: &[u8]) -> Vec<Vec<u8>> {
    let mut tried: Vec<Vec<u8>> = (0..DAMAGED)
        .filter_map(|_| damaged(random, guard))
        .collect();
    let mut changed = by_column.to_vec();
    files::change(random, &mut changed);
    tried.extend([changed, file.to_vec()]);
    tried
}

#[cfg(test)]
mod tests {
    use super::*;
    use crate::desk::planted::{Restore, Store};
    use crate::desk::Library;
    use crate::outputs::compare_lines;
    use crate::outputs::planted::{
        assert_words, change_last, first_fault, mark_last, taken, MARKED,
    };
    use guarddesk::raw::{restore_into, store_into};

    /// The first fault that a desk shows on some hundred files.
    fn fault(desk: impl Desk) -> Option<String> {
        let mut columns = Columns::new(&mut Random::named("columns"));
        let [mut stored, mut restored] = [Numbered::default(); 2];
        first_fault(|random, file, known| {
            columns.compare(&desk, random, file, known, &mut stored, &mut restored)
        })
    }

    type Call = fn(&[u8], &mut [u8]) -> i64;

    /// A call that is wrong in some way, made of a right one.
    type Wrong = fn(Call, &[u8], &mut [u8]) -> i64;

    /// Found in either call.
    fn assert_found(wrong: Wrong, words: &str) {
        let there = |file: &[u8], out: &mut [u8]| wrong(store_into, file, out);
        let back = |stored: &[u8], out: &mut [u8]| wrong(restore_into, stored, out);
        assert_words(fault(Store(there)), words);
        assert_words(fault(Restore(back)), words);
    }

    #[test]
    fn the_library_is_right() {
        assert_eq!(fault(Library), None);
    }

    #[test]
    fn a_wrong_number_is_found() {
        let wrongs: [Wrong; 6] = [
            |call, bytes, out| call(bytes, out) + 1,
            |call, bytes, out| call(bytes, out).max(0),
            |call, bytes, out| call(bytes, out).abs(),
            |call, bytes, out| call(bytes, out).max(-11),
            |call, bytes, out| match call(bytes, out) {
                -7 => -5,
                code => code,
            },
            |call, bytes, out| match call(bytes, out) {
                -10 => -2,
                code => code,
            },
        ];
        for wrong in wrongs {
            assert_found(wrong, "what it returned is another");
        }
    }

    #[test]
    fn a_wrong_byte_is_found() {
        let last: Wrong = |call, bytes, out| change_last(call(bytes, out), out);
        assert_found(last, "the file is another");
        // Behind the bytes, after 14, and after another refusal.
        let marked: [Wrong; 3] = [
            |call, bytes, out| mark_last(call(bytes, out), out, MARKED[0]),
            |call, bytes, out| mark_last(call(bytes, out), out, MARKED[1]),
            |call, bytes, out| mark_last(call(bytes, out), out, MARKED[2]),
        ];
        for wrong in marked {
            assert_found(wrong, "isn't 0");
        }
    }

    /// The questions of the file alone on the way back, or of the stored bytes as of a file: other refusals.
    #[test]
    fn a_call_for_the_other_is_found() {
        let there = |file: &[u8], out: &mut [u8]| restore_into(file, out);
        assert_words(fault(Store(there)), "");
        let back = |stored: &[u8], out: &mut [u8]| store_into(stored, out);
        assert_words(fault(Restore(back)), "");
    }

    #[test]
    fn a_short_buffer_that_is_taken_is_found() {
        let taken: Wrong = |call, bytes, out| taken(out, |own| call(bytes, own));
        assert_found(taken, "what it returned is another");
    }

    #[test]
    fn lines_of_columns() {
        let lines = "there\t3\tstore\t000000\t000000\nback\t9\trestore\t-\tREFUSED 2\n";
        let counts = compare_lines::<Asked>(&Library, lines).expect("no mismatch");
        assert_eq!((counts.total(), counts.0[0], counts.0[2]), (2, 1, 1));
        let wrong = lines.replace("REFUSED 2", "REFUSED 3");
        let why = compare_lines::<Asked>(&Library, &wrong).expect_err("a mismatch");
        assert!(why.starts_with("MISMATCH in back\nstored    -\n"), "{why}");
        assert!(compare_lines::<Asked>(&Library, "there\t3\t000000\t000000").is_err());
    }
}
