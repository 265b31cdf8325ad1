//! One file through the library and the outside solver: every call that is made of it, and what must hold of each.

use crate::buffers::Buffer;
use crate::calls::{self, Call, Expected, MOST_LONGER};
use crate::checks::Checker;
use crate::columns::Columns;
use crate::counts::Counts;
use crate::desk::{Desk, Lent};
use crate::files::Maker;
use crate::known::Known;
use crate::merges::Merger;
use crate::mismatch::Mismatch;
use crate::writes::Writer;
use guarddesk::raw;
use oracle::answer::Answer;
use oracle::guard::Limits;
use oracle::random::Random;
use oracle::read::Question;
use oracle::search::Splits;
use oracle::shown::check_known_call;
use oracle::vectors::{hex, loads};

/// Bytes of a node in a record, at the most: three numbers below 128.
const NODE_BYTES: usize = 3;
/// The question that an outgrown record gets a no to.
const RECORD_FITS: u32 = 11;

/// The answer that the five numbers stand for, with its number of rows. A refusal has no splits.
fn claimed(numbers: &[u32]) -> Option<(Answer, usize)> {
    let [verdict, number, rows, first, second] = numbers[..] else {
        return None;
    };
    let splits = Splits { first, second };
    let answer = match verdict {
        raw::REFUSED if splits == Splits::default() => {
            let question = (number as usize).checked_sub(1)?;
            Answer::Refused(*Question::ALL.get(question)?)
        }
        raw::SAT => Answer::Sat {
            nodes: number,
            splits,
        },
        raw::UNSAT => Answer::Unsat {
            nodes: number,
            splits,
        },
        raw::SPENT => Answer::Spent {
            budget: number,
            splits,
        },
        _ => return None,
    };
    Some((answer, rows as usize))
}

pub fn ensure(condition: bool, why: &str) -> Result<(), String> {
    condition.then_some(()).ok_or_else(|| why.to_string())
}

pub fn all_zero<T: Default + PartialEq>(numbers: &[T]) -> bool {
    numbers.iter().all(|number| *number == T::default())
}

/// What compares: the library with buffers to lend.
pub struct Comparer<D> {
    desk: D,
    limit: u32,
    rows: Buffer<i32>,
    places: Buffer<i32>,
    record: Buffer<u8>,
    answer: Buffer<u32>,
    checker: Checker,
    writer: Writer,
    merger: Merger,
    columns: Columns,
}

impl<D: Desk> Comparer<D> {
    /// Guards of more nodes than `limit` are compared with budgets up to it only.
    pub fn new(desk: D, limit: u32, maker: &Maker) -> Comparer<D> {
        let random = &mut Random::named("noise");
        let record = NODE_BYTES * limit as usize + MOST_LONGER;
        Comparer {
            desk,
            limit,
            rows: Buffer::new(random, raw::ROWS_LENGTH, |n| n as i32),
            places: Buffer::new(random, raw::PLACES_LENGTH, |n| n as i32),
            answer: Buffer::new(random, raw::ANSWER_LENGTH, |n| n),
            // Cut down to a byte, the noise has no 0 either.
            record: Buffer::new(random, record, |n| n as u8),
            checker: Checker::new(maker),
            writer: Writer::new(random),
            merger: Merger::new(random, maker),
            columns: Columns::new(random),
        }
    }

    /// All calls of one file.
    pub fn compare(
        &mut self,
        random: &mut Random,
        file: &[u8],
        counts: &mut Counts,
    ) -> Result<(), Box<Mismatch>> {
        let known = Known::new(file, self.limit);
        counts.add_file(known.answer(self.limit), known.record.len());
        for call in calls::decide(&known, random) {
            let rows = self.call(random, file, &known, call)?;
            counts.add_decide(call.expected, rows);
        }
        for call in calls::explain(&known, random) {
            self.call(random, file, &known, call)?;
            counts.add_explain(call.expected);
        }
        self.compare_loads(random, file, counts)?;
        let checked = &mut counts.checked;
        self.checker
            .compare(&self.desk, random, file, &known, checked)?;
        let written = &mut counts.written;
        self.writer
            .compare(&self.desk, random, file, &known, written)?;
        let merged = &mut counts.merged;
        self.merger
            .compare(&self.desk, random, file, &known, merged)?;
        let (stored, restored) = (&mut counts.stored, &mut counts.restored);
        self.columns
            .compare(&self.desk, random, file, &known, stored, restored)
    }

    /// The loader's calls of a file, and of a small guard beside it.
    fn compare_loads(
        &mut self,
        random: &mut Random,
        file: &[u8],
        counts: &mut Counts,
    ) -> Result<(), Box<Mismatch>> {
        for file in [file, &loads::small(random)] {
            let known = Known::within(file, self.limit, Limits::LOADER);
            same_as_the_desk(file, self.limit, &known)?;
            for call in calls::decide(&known, random) {
                let rows = self.call(random, file, &known, call)?;
                counts.add_load(call.expected, rows);
            }
        }
        Ok(())
    }

    /// One call, and the number of rows shown.
    fn call(
        &mut self,
        random: &mut Random,
        file: &[u8],
        known: &Known,
        call: Call,
    ) -> Result<usize, Box<Mismatch>> {
        let code = self.make(random, file, call);
        self.check(code, known, call).map_err(|why| {
            let numbers = self.answer.content();
            let numbers = &numbers[..numbers.len().min(raw::ANSWER_LENGTH)];
            let mut facts = vec![
                ("file", hex(file)),
                ("budget", call.budget.to_string()),
                ("lengths", call.lengths.to_string()),
                ("solver", call.expected.to_string()),
                ("library", format!("returned {code}, {numbers:?}")),
            ];
            if call.lengths.record.is_some() {
                facts.push(("expected", hex(call.record(known))));
                facts.push(("record", hex(self.record.content())));
            }
            Box::new(Mismatch { facts, why })
        })
    }

    /// What the desk's call returns.
    fn make(&mut self, random: &mut Random, file: &[u8], call: Call) -> usize {
        let lent = &mut Lent {
            rows: self.rows.lend(random, call.lengths.rows),
            places: self.places.lend(random, call.lengths.places),
            answer: self.answer.lend(random, call.lengths.answer),
            record: self.record.lend(random, call.lengths.record.unwrap_or(0)),
        };
        match call.lengths.record {
            None if call.limits == Limits::LOADER => {
                self.desk.load(file, call.budget, lent) as usize
            }
            None => self.desk.decide(file, call.budget, lent) as usize,
            Some(_) => self.desk.explain(file, call.budget, lent),
        }
    }

    /// The number of rows shown.
    fn check(&self, code: usize, known: &Known, call: Call) -> Result<usize, String> {
        ensure(code == call.code(known), "what it returned is another")?;
        if call.expected == Expected::TooShort {
            return self.check_nothing_written();
        }
        self.check_kept()?;
        self.check_record(call.record(known))?;
        match call.expected {
            Expected::Answer(answer) => self.check_answered(answer, known),
            _ => self.check_outgrown(),
        }
    }

    fn check_nothing_written(&self) -> Result<usize, String> {
        let kept = self.rows.kept(0) && self.places.kept(0);
        let kept = kept && self.record.kept(0) && self.answer.kept(0);
        ensure(kept, "something is written")?;
        Ok(0)
    }

    fn check_kept(&self) -> Result<(), String> {
        let margins = self.rows.margins_kept() && self.places.margins_kept();
        let margins = margins && self.record.margins_kept();
        ensure(margins, "something is written outside a buffer")?;
        let kept = self.answer.kept(raw::ANSWER_LENGTH);
        ensure(kept, "something is written outside the five numbers")
    }

    fn numbers(&self) -> &[u32] {
        &self.answer.content()[..raw::ANSWER_LENGTH]
    }

    fn check_outgrown(&self) -> Result<usize, String> {
        let refused = self.numbers() == [raw::REFUSED, RECORD_FITS, 0, 0, 0];
        ensure(refused, "expected REFUSED 11")?;
        let clear = all_zero(self.rows.content()) && all_zero(self.places.content());
        ensure(clear, "a buffer isn't all 0 after REFUSED 11")?;
        Ok(0)
    }

    fn check_answered(&self, expected: Answer, known: &Known) -> Result<usize, String> {
        let claim = claimed(self.numbers()).ok_or("the numbers are no answer")?;
        let (rows, places) = (self.rows.content(), self.places.content());
        check_known_call(expected, known.guard.as_ref().ok(), claim, rows, places)?;
        Ok(claim.1)
    }

    fn check_record(&self, expected: &[u8]) -> Result<(), String> {
        let (front, behind) = self.record.content().split_at(expected.len());
        ensure(front == expected, "the record is another")?;
        ensure(all_zero(behind), "a byte that isn't of a record isn't 0")
    }
}

/// Request #110: "a file within the small limits gets the same refusal, or verdict, node and split counts, from both". Both are held to
/// the outside solver, so it is asked; a file beyond the limits gets 4 from the loader.
fn same_as_the_desk(file: &[u8], limit: u32, small: &Known) -> Result<(), Box<Mismatch>> {
    let (loader, desk) = (small.answer(limit), Known::new(file, limit).answer(limit));
    if loader == desk || loader == Answer::Refused(Question::CountWithinLimits) {
        return Ok(());
    }
    let facts = vec![
        ("file", hex(file)),
        ("loader", loader.to_string()),
        ("desk", desk.to_string()),
    ];
    let why = "the loader's answer isn't the desk's".to_string();
    Err(Box::new(Mismatch { facts, why }))
}

#[cfg(test)]
mod tests {
    use super::*;
    use crate::desk::planted::{Check, Decide, Explain, Load};
    use crate::desk::Library;
    use crate::library;
    use guarddesk::raw::decide_into;

    type WrongDecide = fn(&[u8], u32, &mut [i32], &mut [i32], &mut [u32]) -> u32;
    type WrongExplain = fn(&[u8], u32, &mut Lent) -> usize;
    type WrongCheck = fn(&[u8], &[u8]) -> u32;

    /// The first fault that a desk shows on some hundred files.
    fn fault(desk: impl Desk) -> Option<String> {
        let maker = Maker::default();
        let mut comparer = Comparer::new(desk, 2_000, &maker);
        let mut random = Random::named("planted");
        let mut counts = Counts::default();
        (0..600).find_map(|_| {
            let file = maker.make(&mut random);
            let compared = comparer.compare(&mut random, &file, &mut counts);
            compared.err().map(|mismatch| mismatch.why)
        })
    }

    fn assert_found(desk: impl Desk, words: &str) {
        let why = fault(desk).unwrap_or_else(|| panic!("nothing found, wanted {words:?}"));
        assert!(why.contains(words), "{why:?} lacks {words:?}");
    }

    /// As the library, then a change after one verdict.
    fn after(verdict: u32, change: impl Fn(&mut [i32], &mut [i32], &mut [u32])) -> impl Desk {
        Decide(
            move |file: &[u8], budget, rows: &mut [i32], places: &mut [i32], answer: &mut [u32]| {
                let code = decide_into(file, budget, rows, places, answer);
                if code == raw::ANSWERED && answer[0] == verdict {
                    change(rows, places, answer);
                }
                code
            },
        )
    }

    #[test]
    fn the_library_is_right() {
        assert_eq!(fault(Library), None);
    }

    #[test]
    fn a_wrong_loader_is_found() {
        let wrong: [(WrongDecide, &str); 4] = [
            // The desk's own limits.
            (decide_into, "expected REFUSED"),
            (
                |file, budget, rows, places, answer| {
                    let code = raw::load_into(file, budget, rows, places, answer);
                    if code == raw::ANSWERED && answer[0] == raw::UNSAT {
                        answer[3] += 1;
                    }
                    code
                },
                "expected UNSAT",
            ),
            (
                |file, budget, rows, places, answer| {
                    let code = raw::load_into(file, budget, rows, places, answer);
                    if code == raw::ANSWERED && answer[0] == raw::SAT && rows.len() > 4096 {
                        rows[4096] = 1;
                    }
                    code
                },
                "past the last row",
            ),
            (
                |file, budget, rows, places, answer| {
                    let code = raw::load_into(file, budget, rows, places, answer);
                    if code == raw::ANSWERED && answer[0] == raw::SAT && answer[2] > 1 {
                        rows.swap(1, 5);
                    }
                    code
                },
                "row",
            ),
        ];
        for (wrong, words) in wrong {
            assert_found(Load(wrong), words);
        }
    }

    #[test]
    fn the_end_of_a_number() {
        // A count ends at its fifth byte with bit 80, a value at its tenth.
        let value = |byte: u8, many: usize| [&[1, 0, 1, 1, 0], &vec![byte; many][..]].concat();
        for (file, question) in [
            (vec![0x80; 4], Question::NumberEnds),
            (vec![0x80; 5], Question::NumberForm),
            (vec![0xff; 6], Question::NumberForm),
            (value(0x80, 5), Question::NumberEnds),
            (value(0xff, 9), Question::NumberEnds),
            (value(0x80, 10), Question::NumberForm),
            (value(0xff, 11), Question::NumberForm),
        ] {
            let mut counts = Counts::default();
            let mut comparer = Comparer::new(Library, 1, &Maker::default());
            comparer
                .compare(&mut Random::new(1), &file, &mut counts)
                .expect("no mismatch");
            let question = usize::from(question.number()) - 1;
            assert_eq!(counts.files.refused[question], 1, "{file:x?}");
        }
    }

    #[test]
    fn a_wrong_answer_is_found() {
        use raw::{REFUSED, SAT, SPENT, UNSAT};
        for (verdict, words) in [
            (SAT, "expected SAT"),
            (UNSAT, "expected UNSAT"),
            (SPENT, "expected SPENT"),
            (REFUSED, "expected REFUSED"),
        ] {
            assert_found(
                after(verdict, |_, _, answer| answer[1] = answer[1] % 9 + 1),
                words,
            );
        }
        assert_found(after(SAT, |_, _, answer| answer[0] = UNSAT), "expected SAT");
        assert_found(
            after(UNSAT, |_, _, answer| answer[0] = SAT),
            "expected UNSAT",
        );
        assert_found(
            after(SPENT, |_, _, answer| answer[0] = UNSAT),
            "expected SPENT",
        );
        assert_found(
            after(UNSAT, |_, _, answer| answer[2] = 1),
            "1 rows after UNSAT",
        );
        assert_found(after(SAT, |_, _, answer| answer[2] += 1), "row");
        assert_found(after(REFUSED, |_, _, answer| answer[1] = 11), "no answer");
        assert_found(after(REFUSED, |_, _, answer| answer[1] = 0), "no answer");
        assert_found(after(UNSAT, |_, _, answer| answer[0] = 4), "no answer");
    }

    #[test]
    fn wrong_splits_are_found() {
        use raw::{REFUSED, SAT, SPENT, UNSAT};
        for (verdict, words) in [
            (SAT, "expected SAT"),
            (UNSAT, "expected UNSAT"),
            (SPENT, "expected SPENT"),
            (REFUSED, "no answer"),
        ] {
            for kind in [3, 4] {
                assert_found(after(verdict, move |_, _, answer| answer[kind] += 1), words);
            }
        }
        // The kinds exchanged, and the splits of the whole search after SPENT.
        for verdict in [SAT, UNSAT, SPENT] {
            assert_found(after(verdict, |_, _, answer| answer.swap(3, 4)), "splits");
        }
        let whole: WrongDecide = |file, budget, rows, places, answer| {
            let code = decide_into(file, budget, rows, places, answer);
            if code == raw::ANSWERED && answer[0] == SPENT {
                let found = &mut [0; raw::ANSWER_LENGTH];
                decide_into(file, 2_000, rows, places, found);
                rows.fill(0);
                places.fill(0);
                answer[3..5].copy_from_slice(&found[3..]);
            }
            code
        };
        assert_found(Decide(whole), "expected SPENT");
        // A split counts with its children only, so not where the budget cut them off.
        let late: WrongDecide = |file, budget, rows, places, answer| {
            let code = decide_into(file, budget, rows, places, answer);
            if code == raw::ANSWERED && answer[0] == SPENT && budget > 0 {
                let found = &mut [0; raw::ANSWER_LENGTH];
                decide_into(file, budget - 1, rows, places, found);
                answer[3..5].copy_from_slice(&found[3..]);
            }
            code
        };
        assert_found(Decide(late), "expected SPENT");
        let explained: WrongExplain = |file, budget, lent| {
            let bytes = explain(file, budget, lent);
            if bytes != library::ANSWER_TOO_SHORT && lent.answer[0] == UNSAT {
                lent.answer.swap(3, 4);
            }
            bytes
        };
        assert_found(Explain(explained), "expected UNSAT");
    }

    /// As before request #105: three numbers suffice.
    #[test]
    fn an_answer_in_three_numbers_is_found() {
        let three: WrongDecide = |file, budget, rows, places, answer| {
            if answer.len() < 3 || answer.len() >= raw::ANSWER_LENGTH {
                return decide_into(file, budget, rows, places, answer);
            }
            let mut five = [0; raw::ANSWER_LENGTH];
            let code = decide_into(file, budget, rows, places, &mut five);
            answer[..3].copy_from_slice(&five[..3]);
            code
        };
        assert_found(Decide(three), "what it returned is another");
    }

    #[test]
    fn a_budget_off_by_one_is_found() {
        let less: WrongDecide = |file, budget, rows, places, answer| {
            decide_into(file, budget.saturating_sub(1), rows, places, answer)
        };
        assert_found(Decide(less), "answered SPENT");
        let more: WrongDecide = |file, budget, rows, places, answer| {
            decide_into(file, budget.saturating_add(1), rows, places, answer)
        };
        assert_found(Decide(more), "expected SPENT 0");
    }

    #[test]
    fn a_wrong_message_is_found() {
        // Each number of a number's row; the third as if values had 32 bits.
        let wrongs: [fn(&mut [i32]); 4] = [
            |row| row[1] ^= 1,
            |row| row[2] ^= 1,
            |row| row[2] = row[1] >> 31,
            |row| row[3] = 1,
        ];
        for wrong in wrongs {
            let numbers = move |rows: &mut [i32], _: &mut [i32], answer: &mut [u32]| {
                for row in rows.chunks_exact_mut(4).take(answer[2] as usize) {
                    if row[0] < 0 {
                        wrong(row);
                    }
                }
            };
            assert_found(after(raw::SAT, numbers), "");
        }
        let place = |_: &mut [i32], places: &mut [i32], answer: &mut [u32]| {
            if answer[2] > 1 {
                places[0] = (places[0] + 1) % answer[2] as i32;
            }
        };
        assert_found(after(raw::SAT, place), "");
        let emptied = |rows: &mut [i32], places: &mut [i32], answer: &mut [u32]| {
            rows.fill(0);
            places.fill(0);
            answer[2] = 0;
        };
        assert_found(after(raw::SAT, emptied), "there is no row 0");
    }

    #[test]
    fn a_buffer_that_is_not_cleared_is_found() {
        for verdict in [raw::UNSAT, raw::SPENT, raw::REFUSED] {
            for change in [
                |rows: &mut [i32], _: &mut [i32], _: &mut [u32]| mark_last(rows),
                |_: &mut [i32], places: &mut [i32], _: &mut [u32]| mark_last(places),
            ] {
                assert_found(after(verdict, change), "isn't all 0");
            }
        }
        assert_found(
            after(
                raw::SAT,
                |rows: &mut [i32], _: &mut [i32], _: &mut [u32]| mark_last(rows),
            ),
            "past the last row",
        );
        // No guard has so many terms.
        let longer =
            |_: &mut [i32], places: &mut [i32], _: &mut [u32]| mark_last(&mut places[24..]);
        assert_found(after(raw::SAT, longer), "past the last place");
    }

    fn mark_last(buffer: &mut [i32]) {
        if let Some(number) = buffer.last_mut() {
            *number = 1;
        }
    }

    #[test]
    fn a_short_buffer_that_is_taken_is_found() {
        // Over a longer buffer of its own, all right but for question 1.
        let taken: WrongDecide = |file, budget, rows, places, answer| {
            let mut own = vec![0; raw::ROWS_LENGTH];
            let code = decide_into(file, budget, &mut own, places, answer);
            let shown = rows.len().min(own.len());
            rows.fill(0);
            rows[..shown].copy_from_slice(&own[..shown]);
            code
        };
        assert_found(Decide(taken), "expected REFUSED 1");
    }

    #[test]
    fn a_wrong_code_is_found() {
        let always: WrongDecide = |file, budget, rows, places, answer| {
            decide_into(file, budget, rows, places, answer);
            raw::ANSWERED
        };
        assert_found(Decide(always), "what it returned is another");
        let never: WrongDecide = |file, budget, rows, places, answer| {
            decide_into(file, budget, rows, places, answer);
            raw::ANSWER_TOO_SHORT
        };
        assert_found(Decide(never), "what it returned is another");
        let cleared: WrongDecide = |file, budget, rows, places, answer| {
            let code = decide_into(file, budget, rows, places, answer);
            if code == raw::ANSWER_TOO_SHORT {
                mark_last(places);
            }
            code
        };
        assert_found(Decide(cleared), "something is written");
    }

    #[test]
    fn what_is_written_past_the_answer_is_found() {
        let past = |_: &mut [i32], _: &mut [i32], answer: &mut [u32]| {
            if let Some(number) = answer.get_mut(raw::ANSWER_LENGTH) {
                *number = 0;
            }
        };
        assert_found(after(raw::SAT, past), "outside the five numbers");
    }

    fn explain(file: &[u8], budget: u32, lent: &mut Lent) -> usize {
        Library.explain(file, budget, lent)
    }

    /// As the library, then a change of the record buffer and the answer after one verdict.
    fn after_explain(verdict: u32, change: fn(&mut [u8], &mut [u32])) -> impl Desk {
        Explain(move |file: &[u8], budget, lent: &mut Lent| {
            let bytes = explain(file, budget, lent);
            if bytes != library::ANSWER_TOO_SHORT && lent.answer[0] == verdict {
                change(lent.record, lent.answer);
            }
            bytes
        })
    }

    #[test]
    fn a_wrong_explained_answer_is_found() {
        use raw::{REFUSED, SAT, SPENT, UNSAT};
        for (verdict, words) in [
            (SAT, "expected SAT"),
            (UNSAT, "expected UNSAT"),
            (SPENT, "expected SPENT"),
            (REFUSED, "expected REFUSED"),
        ] {
            let change = |_: &mut [u8], answer: &mut [u32]| answer[1] = answer[1] % 9 + 1;
            assert_found(after_explain(verdict, change), words);
        }
        let spent = |_: &mut [u8], answer: &mut [u32]| {
            if answer[1] == 11 {
                answer[0] = SPENT;
            }
        };
        assert_found(after_explain(REFUSED, spent), "expected REFUSED 11");
    }

    #[test]
    fn a_wrong_record_is_found() {
        let first = |record: &mut [u8], _: &mut [u32]| record[0] ^= 1;
        assert_found(after_explain(raw::UNSAT, first), "the record is another");
        let last = |record: &mut [u8], _: &mut [u32]| {
            if let Some(byte) = record.last_mut() {
                *byte += 1;
            }
        };
        // Behind the record, or its last byte.
        assert_found(after_explain(raw::UNSAT, last), "");
        for verdict in [raw::SAT, raw::SPENT, raw::REFUSED] {
            assert_found(after_explain(verdict, last), "isn't 0");
        }
    }

    #[test]
    fn a_record_of_another_length_is_found() {
        let more: WrongExplain = |file, budget, lent| explain(file, budget, lent).saturating_add(1);
        assert_found(Explain(more), "what it returned is another");
        let always: WrongExplain = |file, budget, lent| match explain(file, budget, lent) {
            library::ANSWER_TOO_SHORT => 0,
            bytes => bytes,
        };
        assert_found(Explain(always), "what it returned is another");
    }

    #[test]
    fn a_short_record_buffer_that_is_taken_is_found() {
        // Over a longer buffer of its own, all right but for question 11.
        let taken: WrongExplain = |file, budget, lent| {
            let mut own = vec![0; lent.record.len() + 1];
            let Lent { rows, places, .. } = lent;
            let bytes = library::explain_into(file, budget, rows, places, &mut own, lent.answer);
            if bytes != library::ANSWER_TOO_SHORT {
                lent.record.copy_from_slice(&own[..lent.record.len()]);
            }
            bytes
        };
        assert_found(Explain(taken), "what it returned is another");
    }

    #[test]
    fn a_buffer_that_is_not_cleared_after_11_is_found() {
        let mark_rows: WrongExplain = |file, budget, lent| {
            let bytes = explain(file, budget, lent);
            if lent.answer.starts_with(&[raw::REFUSED, RECORD_FITS]) {
                mark_last(lent.rows);
            }
            bytes
        };
        let mark_places: WrongExplain = |file, budget, lent| {
            let bytes = explain(file, budget, lent);
            if lent.answer.starts_with(&[raw::REFUSED, RECORD_FITS]) {
                mark_last(lent.places);
            }
            bytes
        };
        for wrong in [mark_rows, mark_places] {
            assert_found(Explain(wrong), "isn't all 0 after REFUSED 11");
        }
    }

    #[test]
    fn a_record_written_without_an_answer_is_found() {
        let short: WrongExplain = |file, budget, lent| {
            let bytes = explain(file, budget, lent);
            if bytes == library::ANSWER_TOO_SHORT {
                lent.record.fill(0);
            }
            bytes
        };
        assert_found(Explain(short), "something is written");
    }

    #[test]
    fn a_wrong_check_is_found() {
        let accepted: WrongCheck = |file, record| match library::check(file, record) {
            0 => 13,
            question => question,
        };
        assert_found(Check(accepted), "answered 13, expected 0");
        for wrong in [
            (|file, record| library::check(file, record) % 13) as WrongCheck,
            |file, record| library::check(file, record) % 12,
            |file, record| library::check(file, record) % 10,
        ] {
            assert_found(Check(wrong), "the record is answered");
        }
    }
}
