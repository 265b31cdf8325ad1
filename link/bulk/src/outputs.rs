//! Calls that write a file into an output buffer: what they return, every byte that they leave, and the margins.

use crate::buffers::{Buffer, MOST_EXTRA};
use crate::compare::{all_zero, ensure};
use crate::counts::Numbered;
use crate::desk::Desk;
use crate::mismatch::Mismatch;
use oracle::list::LONGEST_FILE;
use oracle::random::Random;
use oracle::vectors::hex;
use oracle::vectors::written::{parse, Answer, Input};

/// What such a call is given besides the output buffer.
pub trait Given: Input {
    /// Makes the call.
    fn call(&self, desk: &impl Desk, out: &mut [u8]) -> i64;

    /// What was asked.
    fn facts(&self) -> Vec<(&'static str, String)>;
}

/// An output buffer to lend.
pub struct Output(Buffer<u8>);

impl Output {
    pub fn new(random: &mut Random) -> Output {
        Output::of_length(random, LONGEST_FILE + MOST_EXTRA)
    }

    fn of_length(random: &mut Random, usual: usize) -> Output {
        // Cut down to a byte, the noise has no 0 either.
        Output(Buffer::new(random, usual, |n| n as u8))
    }

    /// The call with the solver's answer, into a long enough buffer and another one.
    pub fn compare(
        &mut self,
        desk: &impl Desk,
        random: &mut Random,
        given: &impl Given,
        counts: &mut Numbered,
    ) -> Result<(), Box<Mismatch>> {
        let enough = LONGEST_FILE + random.below(MOST_EXTRA);
        let length = given.answer(enough).map_or(0, |file| file.len());
        for room in [enough, rooms(random, length)[random.below(ROOMS)]] {
            self.call(desk, random, given, room, given.answer(room), counts)?;
        }
        Ok(())
    }

    /// One call.
    pub fn call(
        &mut self,
        desk: &impl Desk,
        random: &mut Random,
        given: &impl Given,
        room: usize,
        expected: Answer,
        counts: &mut Numbered,
    ) -> Result<(), Box<Mismatch>> {
        let code = given.call(desk, self.0.lend(random, room));
        if let Err(why) = self.check(code, &expected) {
            let solver = match &expected {
                Ok(file) => hex(file),
                Err(question) => format!("REFUSED {question}"),
            };
            let mut facts = given.facts();
            facts.extend([
                ("room", room.to_string()),
                ("solver", solver),
                ("library", format!("returned {code}")),
                ("output", hex(self.0.content())),
            ]);
            return Err(Box::new(Mismatch { facts, why }));
        }
        counts.add(expected.err().unwrap_or(0));
        Ok(())
    }

    fn check(&self, code: i64, expected: &Answer) -> Result<(), String> {
        let (right, file) = match expected {
            Ok(file) => (file.len() as i64, &file[..]),
            Err(question) => (-i64::from(*question), &[][..]),
        };
        ensure(code == right, "what it returned is another")?;
        let kept = self.0.margins_kept();
        ensure(kept, "something is written outside the buffer")?;
        let (front, behind) = self.0.content().split_at(file.len());
        ensure(front == file, "the file is another")?;
        ensure(all_zero(behind), "a byte that isn't of a file isn't 0")
    }
}

const ROOMS: usize = 5;

/// Lengths of the buffer for a file of this length: exact, longer, one byte less, empty, and any that is shorter.
pub fn rooms(random: &mut Random, exact: usize) -> [usize; ROOMS] {
    [
        exact,
        exact + 1 + random.below(MOST_EXTRA),
        exact.saturating_sub(1),
        0,
        random.below(exact.max(1)),
    ]
}

/// All lines of `lists.txt`, of `merges.txt` or of `columns.txt`.
pub fn compare_lines<G: Given>(desk: &impl Desk, text: &str) -> Result<Numbered, String> {
    let random = &mut Random::named("lines");
    let lines = parse::<G>(text)?;
    let longest = lines.iter().map(|line| line.room).max().unwrap_or(0);
    let mut output = Output::of_length(random, longest);
    let mut counts = Numbered::default();
    for line in lines {
        output
            .call(
                desk,
                random,
                &line.input,
                line.room,
                line.answer,
                &mut counts,
            )
            .map_err(|mismatch| format!("MISMATCH in {}\n{mismatch}", line.name))?;
    }
    Ok(counts)
}

/// What the tests of these calls share.
#[cfg(test)]
pub mod planted {
    use crate::files::Maker;
    use crate::known::Known;
    use crate::mismatch::Mismatch;
    use oracle::random::Random;

    /// The first fault that a comparison shows on some hundred files.
    pub fn first_fault(
        mut compare: impl FnMut(&mut Random, &[u8], &Known) -> Result<(), Box<Mismatch>>,
    ) -> Option<String> {
        let maker = Maker::default();
        let mut random = Random::named("planted files");
        (0..300).find_map(|_| {
            let file = maker.make(&mut random);
            let compared = compare(&mut random, &file, &Known::new(&file, 1));
            compared.err().map(|mismatch| mismatch.why)
        })
    }

    /// Such a fault has these words.
    pub fn assert_words(fault: Option<String>, words: &str) {
        let why = fault.unwrap_or_else(|| panic!("nothing found, wanted {words:?}"));
        assert!(why.contains(words), "{why:?} lacks {words:?}");
    }

    /// A mark in the last byte behind the file, after some codes.
    pub fn mark_last(code: i64, out: &mut [u8], marks: fn(i64) -> bool) -> i64 {
        if marks(code) {
            if let Some(byte) = out[code.max(0) as usize..].last_mut() {
                *byte = 1;
            }
        }
        code
    }

    /// Codes after which a byte behind the file may not be marked: those of a file, of 14, and of other refusals.
    pub const MARKED: [fn(i64) -> bool; 3] = [
        |code| code > 0,
        |code| code == -14,
        |code| code < 0 && code != -14,
    ];

    /// Another last byte of the file.
    pub fn change_last(code: i64, out: &mut [u8]) -> i64 {
        if code > 0 {
            out[code as usize - 1] ^= 1;
        }
        code
    }

    /// Over a longer buffer of its own, all right but for question 14.
    pub fn taken(out: &mut [u8], call: impl FnOnce(&mut [u8]) -> i64) -> i64 {
        let mut own = [0; oracle::list::LONGEST_FILE];
        let code = call(&mut own);
        let shown = out.len().min(own.len());
        out.fill(0);
        out[..shown].copy_from_slice(&own[..shown]);
        code
    }
}
