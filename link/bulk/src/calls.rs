//! The calls that are made of a file, and what is expected of each.

use crate::buffers::MOST_EXTRA;
use crate::known::Known;
use crate::library;
use guarddesk::raw;
use oracle::answer::Answer;
use oracle::guard::Limits;
use oracle::random::Random;
use oracle::read::Question;
use std::fmt;

/// How much longer than its record a buffer can be.
pub const MOST_LONGER: usize = 1_000;

/// A call to be made of a file.
#[derive(Clone, Copy, Debug)]
pub struct Call {
    /// The caller's.
    pub limits: Limits,
    pub budget: u32,
    pub lengths: Lengths,
    pub expected: Expected,
}

/// How long the buffers of a call are, in numbers.
#[derive(Clone, Copy, Debug)]
pub struct Lengths {
    pub rows: usize,
    pub places: usize,
    /// In bytes; nothing in the call without a record.
    pub record: Option<usize>,
    pub answer: usize,
}

/// What a call has to say.
#[derive(Clone, Copy, Debug, PartialEq, Eq)]
pub enum Expected {
    Answer(Answer),
    /// REFUSED 11: the record outgrows its buffer.
    Outgrown,
    /// The answer buffer is too short for an answer.
    TooShort,
}

impl fmt::Display for Expected {
    fn fmt(&self, f: &mut fmt::Formatter<'_>) -> fmt::Result {
        match self {
            Expected::Answer(answer) => write!(f, "{answer}"),
            Expected::Outgrown => write!(f, "REFUSED 11"),
            Expected::TooShort => write!(f, "too short an answer buffer"),
        }
    }
}

impl fmt::Display for Lengths {
    fn fmt(&self, f: &mut fmt::Formatter<'_>) -> fmt::Result {
        let (rows, places, answer) = (self.rows, self.places, self.answer);
        write!(f, "{rows} rows, {places} places, {answer} answer")?;
        match self.record {
            Some(record) => write!(f, ", {record} record"),
            None => Ok(()),
        }
    }
}

/// As long as asked, or longer by an odd number.
fn enough(random: &mut Random, least: usize) -> usize {
    if random.percent(50) {
        least
    } else {
        least + 1 + 2 * random.below(MOST_EXTRA.div_ceil(2))
    }
}

impl Lengths {
    fn enough(random: &mut Random, limits: Limits) -> Lengths {
        Lengths {
            rows: enough(random, limits.row_buffer()),
            places: enough(random, limits.place_buffer()),
            record: None,
            answer: enough(random, raw::ANSWER_LENGTH),
        }
    }

    /// The row buffer, the place buffer or both too short; mostly by one number.
    fn short(random: &mut Random, limits: Limits) -> Lengths {
        let mut lengths = Lengths::enough(random, limits);
        let which = 1 + random.below(3);
        let by_one = random.percent(90);
        let mut short = |least| {
            if by_one {
                least - 1
            } else {
                random.below(least)
            }
        };
        if which & 1 != 0 {
            lengths.rows = short(limits.row_buffer());
        }
        if which & 2 != 0 {
            lengths.places = short(limits.place_buffer());
        }
        lengths
    }
}

impl Call {
    /// A call with long enough buffers but for that of the record.
    fn new(random: &mut Random, known: &Known, budget: u32, record: Option<usize>) -> Call {
        let expected = match (known.answer(budget), record) {
            (Answer::Unsat { .. }, Some(room)) if room < known.record.len() => Expected::Outgrown,
            (answer, _) => Expected::Answer(answer),
        };
        let lengths = Lengths {
            record,
            ..Lengths::enough(random, known.limits)
        };
        Call {
            limits: known.limits,
            budget,
            lengths,
            expected,
        }
    }

    /// The record that the call leaves.
    pub fn record<'k>(&self, known: &'k Known) -> &'k [u8] {
        match (self.expected, self.lengths.record) {
            (Expected::Answer(Answer::Unsat { .. }), Some(_)) => &known.record,
            _ => &[],
        }
    }

    /// What the call returns.
    pub fn code(&self, known: &Known) -> usize {
        match (self.expected, self.lengths.record) {
            (Expected::TooShort, None) => raw::ANSWER_TOO_SHORT as usize,
            (Expected::TooShort, Some(_)) => library::ANSWER_TOO_SHORT,
            (_, None) => raw::ANSWERED as usize,
            (_, Some(_)) => self.record(known).len(),
        }
    }
}

fn one_of<T: Copy>(random: &mut Random, some: &[T]) -> T {
    some[random.below(some.len())]
}

/// A call with too short a row or place buffer and, of some files, one with too short an answer buffer.
fn short_calls(
    random: &mut Random,
    limits: Limits,
    budgets: &[u32],
    record: impl Fn(&mut Random) -> Option<usize>,
) -> Vec<Call> {
    let mut calls = vec![Call {
        limits,
        budget: one_of(random, budgets),
        lengths: Lengths {
            record: record(random),
            ..Lengths::short(random, limits)
        },
        expected: Expected::Answer(Answer::Refused(Question::BuffersLongEnough)),
    }];
    if random.percent(5) {
        calls.push(Call {
            limits,
            budget: one_of(random, budgets),
            lengths: Lengths {
                record: record(random),
                answer: random.below(raw::ANSWER_LENGTH),
                ..Lengths::enough(random, limits)
            },
            expected: Expected::TooShort,
        });
    }
    calls
}

/// All calls without a record.
pub fn decide(known: &Known, random: &mut Random) -> Vec<Call> {
    let budgets = known.budgets(random);
    let call = |&budget: &u32| Call::new(random, known, budget, None);
    let mut calls: Vec<Call> = budgets.iter().map(call).collect();
    calls.extend(short_calls(random, known.limits, &budgets, |_| None));
    calls
}

/// Lengths of the record buffer: exact, one byte less, longer, empty, and any that is shorter.
fn rooms(known: &Known, random: &mut Random) -> [usize; 5] {
    let exact = if known.unsat() { known.record.len() } else { 0 };
    let more = [2, MOST_EXTRA, MOST_LONGER][random.below(3)];
    [
        exact,
        exact.saturating_sub(1),
        exact + 1 + random.below(more),
        0,
        random.below(exact.max(1)),
    ]
}

/// All calls with a record: every budget with some room, and after UNSAT every room with some budget.
pub fn explain(known: &Known, random: &mut Random) -> Vec<Call> {
    let budgets = known.budgets(random);
    let rooms = rooms(known, random);
    let mut calls = Vec::new();
    for &budget in &budgets {
        let room = one_of(random, &rooms);
        calls.push(Call::new(random, known, budget, Some(room)));
    }
    if known.unsat() {
        let suffice = |&&budget: &&u32| budget >= known.nodes;
        let suffice: Vec<u32> = budgets.iter().filter(suffice).copied().collect();
        for room in rooms {
            let budget = one_of(random, &suffice);
            calls.push(Call::new(random, known, budget, Some(room)));
        }
    }
    let room = |random: &mut Random| Some(one_of(random, &rooms));
    calls.extend(short_calls(random, known.limits, &budgets, room));
    calls
}
