//! The library's summaries against the outside solver's: made anew of random guards, brought up to date line by line, and held against
//! those made anew; with damaged lines, summaries that aren't true, and buffers that are too short.

use crate::buffers::{Buffer, MOST_EXTRA};
use crate::compare::ensure;
use crate::counts::Numbered;
use crate::desk::Desk;
use crate::files::{self, Maker};
use crate::mismatch::Mismatch;
use crate::of_file;
use oracle::encode::Draft;
use oracle::guard::{Guard, Limits};
use oracle::random::Random;
use oracle::read::{read, Question};
use oracle::summary::{add_line, summarize, Summary, NUMBERS};
use oracle::vectors::loads::small;
use oracle::vectors::summaries::parse;
use oracle::vectors::{hex, USUAL_BUDGET};

/// The budgets that are tried: of a small guard, and of any.
const SMALL: [u32; 5] = [0, 1, 2, 5, 20];
const ANY: [u32; 3] = [0, 1, 3];
/// The lines that are added to a guard, at the most.
const LINES: usize = 3;
/// The bytes of a line: its kind and two names.
const LINE: usize = 3;

/// A call: without a line the summary is made anew.
struct Asked<'f> {
    file: &'f [u8],
    line: Option<&'f [u8]>,
    budget: u32,
    /// What the summary is before the call.
    old: Summary,
    room: usize,
}

impl Asked<'_> {
    fn expected(&self) -> Result<Summary, u8> {
        if self.room < NUMBERS {
            return Err(Question::BuffersLongEnough.number());
        }
        let answer = match self.line {
            None => summarize(self.file, self.budget),
            Some(line) => add_line(self.file, line, self.budget, &self.old),
        };
        answer.map_err(Question::number)
    }
}

/// A buffer to lend.
struct Lender(Buffer<u16>);

impl Lender {
    fn new(random: &mut Random) -> Lender {
        Lender(Buffer::new(random, NUMBERS, |n| n as u16))
    }

    fn call(
        &mut self,
        desk: &impl Desk,
        random: &mut Random,
        asked: &Asked,
        expected: Result<Summary, u8>,
        counts: &mut Numbered,
    ) -> Result<(), Box<Mismatch>> {
        let front = asked.room.min(NUMBERS);
        let lent = self.0.lend(random, asked.room);
        lent[..front].copy_from_slice(&asked.old[..front]);
        let code = match asked.line {
            None => desk.summarize(asked.file, asked.budget, lent),
            Some(line) => desk.add_line(asked.file, line, asked.budget, lent),
        };
        self.check(code, asked, &expected).map_err(|why| {
            let facts = vec![
                ("file", hex(asked.file)),
                ("line", asked.line.map_or("anew".to_string(), hex)),
                ("budget", asked.budget.to_string()),
                ("room", asked.room.to_string()),
                ("old", format!("{:x?}", asked.old)),
                ("solver", format!("{expected:x?}")),
                ("library", format!("returned {code}")),
                ("summary", format!("{:x?}", self.0.content())),
            ];
            Box::new(Mismatch { facts, why })
        })?;
        counts.add(expected.err().unwrap_or(0));
        Ok(())
    }

    fn check(
        &self,
        code: u32,
        asked: &Asked,
        expected: &Result<Summary, u8>,
    ) -> Result<(), String> {
        let (right, left) = match expected {
            Ok(summary) => (0, summary),
            Err(question) => (u32::from(*question), &asked.old),
        };
        ensure(code == right, "what it returned is another")?;
        let front = asked.room.min(NUMBERS);
        let kept = self.0.kept(front);
        ensure(kept, "something is written outside the summary")?;
        let summary = &self.0.content()[..front];
        ensure(summary == &left[..front], "a number of it is another")
    }
}

/// The guard with its first lines only.
fn front(guard: &Guard, lines: usize) -> Vec<u8> {
    let mut draft = Draft::of(guard);
    draft.lines.truncate(lines);
    draft.bytes()
}

/// "It agrees with one made anew wherever both are settled."
fn agree(kept: &Summary, anew: &Summary) -> bool {
    let rows = kept.chunks_exact(2).zip(anew.chunks_exact(2));
    rows.into_iter().all(|(kept, anew)| {
        let both = kept[0] & anew[0];
        kept[1] & both == anew[1] & both
    })
}

/// What compares.
struct Comparer<'d, D> {
    desk: &'d D,
    lender: Lender,
    counts: Numbered,
}

impl<D: Desk> Comparer<'_, D> {
    /// One call, and the summary that it leaves.
    fn call(
        &mut self,
        random: &mut Random,
        asked: &Asked,
    ) -> Result<Option<Summary>, Box<Mismatch>> {
        let expected = asked.expected();
        self.lender
            .call(self.desk, random, asked, expected, &mut self.counts)?;
        Ok(expected.ok())
    }

    /// A summary before its call, of noise.
    fn noise(random: &mut Random) -> Summary {
        std::array::from_fn(|_| random.bits() as u16)
    }

    /// All calls of a file.
    fn compare(
        &mut self,
        random: &mut Random,
        file: &[u8],
        budgets: &[u32],
    ) -> Result<(), Box<Mismatch>> {
        let mut budget = {
            let some = budgets.to_vec();
            move |random: &mut Random| some[random.below(some.len())]
        };
        let mut asked = Asked {
            file,
            line: None,
            budget: budget(random),
            old: Self::noise(random),
            room: NUMBERS + random.below(MOST_EXTRA),
        };
        self.call(random, &asked)?;
        asked.room = [0, NUMBERS - 1, random.below(NUMBERS)][random.below(3)];
        self.call(random, &asked)?;
        match read(file, Limits::BASE) {
            Ok(guard) => self.line_by_line(random, &guard, &mut budget),
            // A line that is refused too, or isn't.
            Err(_) => {
                let line = [4, random.below(3) as u8, 0];
                asked.line = Some(&line);
                asked.room = NUMBERS;
                self.call(random, &asked).map(|_| ())
            }
        }
    }

    /// The last lines of a guard are added one by one, some of them damaged.
    fn line_by_line(
        &mut self,
        random: &mut Random,
        guard: &Guard,
        budget: &mut impl FnMut(&mut Random) -> u32,
    ) -> Result<(), Box<Mismatch>> {
        let many = guard.lines.len();
        let first = many.saturating_sub(1 + random.below(LINES));
        let start = front(guard, first);
        let mut kept = summarize(&start, budget(random)).expect("accepted");
        for lines in first..many {
            let (before, after) = (front(guard, lines), front(guard, lines + 1));
            let line = after[after.len() - LINE..].to_vec();
            let mut damaged = line.clone();
            files::change(random, &mut damaged);
            let asked = |line, budget, old, room| Asked {
                file: &before,
                line: Some(line),
                budget,
                old,
                room,
            };
            let room = NUMBERS + random.below(MOST_EXTRA);
            let (wrong, short) = (Self::noise(random), random.below(NUMBERS));
            self.call(random, &asked(&damaged, 1, wrong, room))?;
            self.call(random, &asked(&line, 1, wrong, room))?;
            self.call(random, &asked(&line, 1, wrong, short))?;
            let budget = budget(random);
            let right = self.call(random, &asked(&line, budget, kept, NUMBERS))?;
            kept = right.expect("accepted");
            let anew = summarize(&after, budget).expect("accepted");
            if !agree(&kept, &anew) {
                let facts = vec![("file", hex(&after)), ("budget", budget.to_string())];
                let why = "it doesn't agree with one made anew".to_string();
                return Err(Box::new(Mismatch { facts, why }));
            }
        }
        // A line that doesn't end, one more than 32 perhaps.
        let file = front(guard, many);
        let cut = Asked {
            file: &file,
            line: Some(&[0, 0x80]),
            budget: USUAL_BUDGET,
            old: kept,
            room: NUMBERS,
        };
        self.call(random, &cut).map(|_| ())
    }
}

/// So many random files from a seed; every second one is a small guard.
pub fn compare(desk: &impl Desk, seed: u64, many: u64) -> Result<Numbered, String> {
    let maker = Maker::default();
    let mut comparer = Comparer {
        desk,
        lender: Lender::new(&mut Random::named("noise")),
        counts: Numbered::default(),
    };
    for number in 0..many {
        let random = &mut of_file(seed, number);
        let compared = if number % 2 == 0 {
            let file = small(random);
            comparer.compare(random, &file, &SMALL)
        } else {
            let file = maker.make(random);
            comparer.compare(random, &file, &ANY)
        };
        compared.map_err(|mismatch| format!("MISMATCH in file number {number}\n{mismatch}"))?;
    }
    Ok(comparer.counts)
}

/// All lines of `summaries.txt`.
pub fn compare_lines(desk: &impl Desk, text: &str) -> Result<Numbered, String> {
    let random = &mut Random::named("lines");
    let mut lender = Lender::new(random);
    let mut counts = Numbered::default();
    for call in parse(text)? {
        let asked = Asked {
            file: &call.file,
            line: call.line.as_deref(),
            budget: call.budget,
            old: call.old,
            room: NUMBERS + random.below(MOST_EXTRA),
        };
        lender
            .call(desk, random, &asked, call.answer, &mut counts)
            .map_err(|mismatch| format!("MISMATCH in {}\n{mismatch}", call.name))?;
    }
    Ok(counts)
}

#[cfg(test)]
mod tests {
    use super::*;
    use crate::desk::planted::{AddLine, Summarize};
    use crate::desk::Library;
    use guarddesk::raw::{add_line_into, summarize_into};

    fn assert_found(desk: impl Desk, words: &str) {
        let why = compare(&desk, 3, 60).expect_err("a mismatch");
        assert!(why.contains(words), "{why:?} lacks {words:?}");
    }

    #[test]
    fn the_library_is_right() {
        let counts = compare(&Library, 3, 100).expect("no mismatch");
        assert!(counts.0[0] > 100 && counts.0[1] > 50 && counts.0[2] > 20);
        assert!(counts.0[11..].iter().all(|&many| many == 0));
    }

    #[test]
    fn a_wrong_summary_is_found() {
        let other = "a number of it is another";
        type Anew = fn(&[u8], u32, &mut [u16]) -> u32;
        let budget: Anew = |file, budget, summary| summarize_into(file, budget + 1, summary);
        assert_found(Summarize(budget), other);
        let behind: Anew = |file, budget, summary| {
            if let Some(last) = summary.get_mut(NUMBERS) {
                *last = 0;
            }
            summarize_into(file, budget, summary)
        };
        assert_found(Summarize(behind), "something is written outside");
        let taken: Anew = |file, budget, summary| summarize_into(file, budget, summary) & 1;
        assert_found(Summarize(taken), "what it returned is another");
    }

    #[test]
    fn a_wrong_line_is_found() {
        let other = "a number of it is another";
        type More = fn(&[u8], &[u8], u32, &mut [u16]) -> u32;
        // The summary of the guard without the line; one that keeps nothing; one that is cleared after a refusal.
        let without: More = |file, line, budget, summary| {
            let mut own = summary.to_vec();
            match add_line_into(file, line, budget, &mut own) {
                0 => summarize_into(file, budget, summary),
                question => question,
            }
        };
        assert_found(AddLine(without), other);
        let fresh: More = |file, line, budget, summary| {
            let mut own = summary.to_vec();
            let code = add_line_into(file, line, budget, &mut own);
            if code == 0 {
                summary[..NUMBERS].fill(0);
                add_line_into(file, line, budget, summary);
            }
            code
        };
        assert_found(AddLine(fresh), other);
        let cleared: More = |file, line, budget, summary| {
            let code = add_line_into(file, line, budget, summary);
            if code > 1 {
                summary[..NUMBERS].fill(0);
            }
            code
        };
        assert_found(AddLine(cleared), other);
    }

    #[test]
    fn lines_of_summaries() {
        let lines = "none\t1\t0005\t000000\tanew\t-\nkind\t1\t0005\t000000\t04\tREFUSED 6\n";
        let counts = compare_lines(&Library, lines).expect("no mismatch");
        assert_eq!((counts.total(), counts.0[0], counts.0[6]), (2, 1, 1));
        let wrong = lines.replace("REFUSED 6", "REFUSED 5");
        let why = compare_lines(&Library, &wrong).expect_err("a mismatch");
        assert!(why.starts_with("MISMATCH in kind\n"), "{why}");
        assert!(compare_lines(&Library, "none\t1\t0005\t000000\tanew").is_err());
    }
}
