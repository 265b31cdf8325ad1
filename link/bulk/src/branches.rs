//! The library's call for the branches of a procedure against the outside solver's: procedures of random guards, damaged ones and files
//! that are none, into buffers that are long enough and into others.

use crate::buffers::{Buffer, MOST_EXTRA};
use crate::compare::ensure;
use crate::counts::Numbered;
use crate::desk::Desk;
use crate::files::{self, Maker};
use crate::mismatch::Mismatch;
use crate::of_file;
use oracle::branch::{self, Codes, BUFFER};
use oracle::encode::{bytes, Draft};
use oracle::guard::Limits;
use oracle::random::Random;
use oracle::read::{read, Question};
use oracle::vectors::branches::{damaged, deal, parse};
use oracle::vectors::hex;

/// The budgets that are tried.
const BUDGETS: [u32; 6] = [0, 1, 2, 3, 12, 40];

/// A call.
struct Asked<'f> {
    file: &'f [u8],
    budget: u32,
    room: usize,
}

impl Asked<'_> {
    fn expected(&self) -> Result<Codes, u8> {
        branch::branches(self.file, self.budget, self.room).map_err(Question::number)
    }
}

/// A buffer to lend.
struct Output(Buffer<u8>);

impl Output {
    fn new(random: &mut Random, usual: usize) -> Output {
        Output(Buffer::new(random, usual, |n| n as u8))
    }

    fn call(
        &mut self,
        desk: &impl Desk,
        random: &mut Random,
        asked: &Asked,
        expected: Result<Codes, u8>,
        counts: &mut Numbered,
    ) -> Result<(), Box<Mismatch>> {
        let out = self.0.lend(random, asked.room);
        let code = desk.branches(asked.file, asked.budget, out);
        self.check(code, &expected).map_err(|why| {
            let facts = vec![
                ("file", hex(asked.file)),
                ("budget", asked.budget.to_string()),
                ("room", asked.room.to_string()),
                ("solver", format!("{expected:?}")),
                ("library", format!("returned {code}")),
                ("output", hex(self.0.content())),
            ];
            Box::new(Mismatch { facts, why })
        })?;
        counts.add(expected.err().unwrap_or(0));
        Ok(())
    }

    fn check(&self, code: i64, expected: &Result<Codes, u8>) -> Result<(), String> {
        let room = self.0.content().len();
        let (right, left) = match expected {
            Ok(codes) => (codes.branches.len() as i64, codes.buffer(room)),
            Err(question) => (-i64::from(*question), vec![0; room]),
        };
        ensure(code == right, "what it returned is another")?;
        let kept = self.0.margins_kept();
        ensure(kept, "something is written outside the buffer")?;
        ensure(self.0.content() == left, "a byte of the buffer is another")
    }
}

/// The files that are made of a random one: procedures of its lines and damaged ones; if it is refused, it is itself one of them.
fn procedures(random: &mut Random, file: Vec<u8>) -> Vec<Vec<u8>> {
    let Ok(guard) = read(&file, Limits::BASE) else {
        return vec![file];
    };
    let branches = deal(random, &guard);
    let tokens = branch::tokens(&Draft::of(&guard), &branches);
    let whole = bytes(&tokens);
    let mut changed = whole.clone();
    files::change(random, &mut changed);
    vec![whole, damaged(random, tokens), changed]
}

/// So many random files from a seed.
pub fn compare(desk: &impl Desk, seed: u64, many: u64) -> Result<Numbered, String> {
    let maker = Maker::default();
    let mut output = Output::new(&mut Random::named("noise"), BUFFER);
    let mut counts = Numbered::default();
    for number in 0..many {
        let random = &mut of_file(seed, number);
        let file = maker.make(random);
        for file in procedures(random, file) {
            let short = random.below(BUFFER);
            let rooms = [BUFFER, BUFFER + random.below(MOST_EXTRA), BUFFER - 1, short];
            let asked = Asked {
                file: &file,
                budget: BUDGETS[random.below(BUDGETS.len())],
                room: rooms[random.weighted(&[6, 6, 1, 1])],
            };
            output
                .call(desk, random, &asked, asked.expected(), &mut counts)
                .map_err(|mismatch| format!("MISMATCH in file number {number}\n{mismatch}"))?;
        }
    }
    Ok(counts)
}

/// All lines of `branches.txt`.
pub fn compare_lines(desk: &impl Desk, text: &str) -> Result<Numbered, String> {
    let random = &mut Random::named("lines");
    let lines = parse(text)?;
    let longest = lines.iter().map(|line| line.room).max().unwrap_or(0);
    let mut output = Output::new(random, longest);
    let mut counts = Numbered::default();
    for line in lines {
        let asked = Asked {
            file: &line.file,
            budget: line.budget,
            room: line.room,
        };
        output
            .call(desk, random, &asked, line.answer, &mut counts)
            .map_err(|mismatch| format!("MISMATCH in {}\n{mismatch}", line.name))?;
    }
    Ok(counts)
}

#[cfg(test)]
mod tests {
    use super::*;
    use crate::desk::planted::Branches;
    use crate::desk::Library;
    use guarddesk::raw::branches_into;

    type Wrong = fn(&[u8], u32, &mut [u8]) -> i64;

    fn assert_found(wrong: Wrong, words: &str) {
        let why = compare(&Branches(wrong), 3, 200).expect_err("a mismatch");
        assert!(why.contains(words), "{why:?} lacks {words:?}");
    }

    #[test]
    fn the_library_is_right() {
        let counts = compare(&Library, 3, 400).expect("no mismatch");
        for (answer, many) in counts.0.into_iter().enumerate() {
            let never = (11..19).contains(&answer);
            assert_eq!(many == 0, never, "{answer}: {many}");
        }
    }

    #[test]
    fn a_wrong_number_is_found() {
        let wrongs: [Wrong; 4] = [
            |file, budget, out| branches_into(file, budget, out) + 1,
            |file, budget, out| branches_into(file, budget, out).max(-10),
            |file, budget, out| branches_into(file, budget, out).min(7),
            |file, budget, out| branches_into(file, budget, out).abs(),
        ];
        for wrong in wrongs {
            assert_found(wrong, "what it returned is another");
        }
    }

    #[test]
    fn a_wrong_byte_is_found() {
        let wrongs: [Wrong; 3] = [
            // Another budget; a byte behind the pairs; a byte after a refusal.
            |file, budget, out| branches_into(file, budget + 1, out),
            |file, budget, out| {
                let code = branches_into(file, budget, out);
                if code > 0 && out.len() > BUFFER {
                    out[BUFFER] = 1;
                }
                code
            },
            |file, budget, out| {
                let code = branches_into(file, budget, out);
                if code < 0 {
                    out.fill(1);
                }
                code
            },
        ];
        for wrong in wrongs {
            assert_found(wrong, "a byte of the buffer is another");
        }
    }

    #[test]
    fn lines_of_branches() {
        let lines = "none\t1\t36\t000000\tREFUSED 19\none\t1\t36\t00000100\t1 -\n";
        let counts = compare_lines(&Library, lines).expect("no mismatch");
        assert_eq!((counts.total(), counts.0[0], counts.0[19]), (2, 1, 1));
        let wrong = lines.replace("1 -", "2 -");
        let why = compare_lines(&Library, &wrong).expect_err("a mismatch");
        assert!(why.starts_with("MISMATCH in one\n"), "{why}");
        assert!(compare_lines(&Library, "none\t1\t36\t000000").is_err());
    }
}
