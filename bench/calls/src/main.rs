//! Whole calls in one process, to be timed from outside: the proved library and its twin in Rust, on packed guards from
//! standard input.

use std::env;
use std::hint::black_box;
use std::io::{self, BufWriter, Read, Write};
use std::process::ExitCode;

use guarddesk::raw;
use oracle::guard::Limits;
use twin::{Answer, Counts};

const USAGE: &str = "\
usage: calls rattle TIMES  all guards so many times by the proved library
       calls rust TIMES    the same by the twin
       calls answers       the answer to each guard in a line, if the two desks don't differ in a number
       calls smt           all guards as one SMT-LIB 2 script, between push and pop if there are several
Standard input has packed guards.";

/// A guard file and a budget.
type Guard<'a> = (&'a [u8], u32);

/// What a call fills.
#[derive(Clone, PartialEq, Eq)]
struct Buffers {
    rows: Vec<i32>,
    places: [i32; raw::PLACES_LENGTH],
    answer: [u32; raw::ANSWER_LENGTH],
}

/// A desk's whole call.
type Call = fn(&mut Buffers, Guard);

impl Buffers {
    /// Numbers that no call leaves.
    fn new() -> Buffers {
        Buffers {
            rows: vec![1_000_000_007; raw::ROWS_LENGTH],
            places: [1_000_000_007; raw::PLACES_LENGTH],
            answer: [1_000_000_007; raw::ANSWER_LENGTH],
        }
    }

    fn rattle(&mut self, (file, budget): Guard) {
        raw::decide_into(
            file,
            budget,
            &mut self.rows,
            &mut self.places,
            &mut self.answer,
        );
    }

    fn rust(&mut self, (file, budget): Guard) {
        let answer = twin::decide(file, budget, &mut self.rows, &mut self.places);
        self.answer = match answer {
            Answer::Refused { question } => [raw::REFUSED, question, 0, 0, 0],
            Answer::Sat { counts, rows } => numbers(raw::SAT, counts, rows),
            Answer::Unsat { counts } => numbers(raw::UNSAT, counts, 0),
            Answer::Spent { counts } => numbers(raw::SPENT, counts, 0),
        };
    }

    /// The answer as the vectors have it.
    fn verdict(&self) -> String {
        let [verdict, number, _, first, second] = self.answer;
        let line = ["REFUSED", "SAT", "UNSAT", "SPENT"][verdict as usize];
        match verdict {
            raw::REFUSED => format!("{line} {number}"),
            _ => format!("{line} {number} splits {first} {second}"),
        }
    }
}

/// The numbers of an answer that isn't a refusal.
fn numbers(verdict: u32, counts: Counts, rows: u32) -> [u32; raw::ANSWER_LENGTH] {
    [verdict, counts.nodes, rows, counts.first, counts.second]
}

/// The answer to each guard, if both desks give the same numbers in all buffers.
fn answers(guards: &[Guard]) -> Result<Vec<String>, String> {
    let answer = |(i, &guard)| {
        let [rattle, rust] = [Buffers::rattle as Call, Buffers::rust].map(|call| {
            let mut buffers = Buffers::new();
            call(&mut buffers, guard);
            buffers
        });
        let verdicts = (rattle.verdict(), rust.verdict());
        match rattle == rust {
            true => Ok(verdicts.0),
            false => Err(format!("the desks differ on guard {i}: {verdicts:?}")),
        }
    };
    guards.iter().enumerate().map(answer).collect()
}

fn repeat(call: Call, guards: &[Guard], times: u32) -> String {
    let mut buffers = Buffers::new();
    for _ in 0..times {
        for &guard in guards {
            call(&mut buffers, black_box(guard));
        }
    }
    String::new()
}

/// The guards that aren't refused. Several have different names: z3 keeps names past a `pop`.
fn smt(guards: &[Guard]) -> String {
    let read = |&(file, _): &Guard| oracle::read::read(file, Limits::BASE).ok();
    let guards: Vec<_> = guards.iter().filter_map(read).collect();
    if let [guard] = &guards[..] {
        return oracle::smt::script(guard);
    }
    let mut script = "(set-logic ALL)\n".to_string();
    for (i, guard) in guards.iter().enumerate() {
        script += &oracle::smt::scoped(guard, &format!("g{i}"));
    }
    script
}

fn number(word: &str) -> Result<u32, String> {
    word.parse().map_err(|_| format!("{word} isn't a number"))
}

fn run(words: &[&str], guards: &[Guard]) -> Result<String, String> {
    match words {
        ["rattle", times] => Ok(repeat(Buffers::rattle, guards, number(times)?)),
        ["rust", times] => Ok(repeat(Buffers::rust, guards, number(times)?)),
        ["answers"] => Ok(answers(guards)?.join("\n") + "\n"),
        ["smt"] => Ok(smt(guards)),
        _ => Err(USAGE.to_string()),
    }
}

fn main() -> ExitCode {
    let words: Vec<String> = env::args().skip(1).collect();
    let words: Vec<&str> = words.iter().map(String::as_str).collect();
    let mut packed = Vec::new();
    let read = io::stdin().read_to_end(&mut packed);
    let mut rest = &packed[..];
    let guards: Vec<Guard> = std::iter::from_fn(|| twin::packed::next(&mut rest)).collect();
    let printed = read
        .map_err(|error| error.to_string())
        .and_then(|_| run(&words, &guards))
        .and_then(|text| {
            let mut out = BufWriter::new(io::stdout().lock());
            let written = out.write_all(text.as_bytes()).and_then(|()| out.flush());
            written.map_err(|error| error.to_string())
        });
    match printed {
        Ok(()) => ExitCode::SUCCESS,
        Err(why) => {
            eprintln!("calls: {why}");
            ExitCode::from(1)
        }
    }
}

#[cfg(test)]
mod tests {
    use super::*;

    /// Document 01's cases c and h, each with two budgets, and a file that is refused.
    const C: &[u8] = &[2, 0, 2, 0, 2, 0, 1, 2, 0, 1, 3, 0, 1, 1, 1, 0, 0, 1];
    const H: &[u8] = &[
        1, 2, 0, 0, 3, 0, 0, 0, 0, 0, 0, 3, 1, 0, 1, 1, 0, 2, 1, 1, 2,
    ];
    const GUARDS: [Guard; 5] = [(C, 3), (C, 2), (H, 11), (H, 10), (&[1, 1, 1, 0], 1)];

    #[test]
    fn both_desks_give_the_same_numbers() {
        let expected = [
            "SAT 3 splits 1 0",
            "SPENT 2 splits 1 0",
            "UNSAT 11 splits 0 5",
            "SPENT 10 splits 0 5",
            "REFUSED 8",
        ];
        assert_eq!(answers(&GUARDS).unwrap(), expected);
    }

    #[test]
    fn a_question_for_each_guard_that_is_accepted() {
        let script = smt(&GUARDS);
        assert_eq!(script.matches("(check-sat)").count(), 4);
        assert_eq!(script.matches("(push 1)").count(), 4);
        assert!(!smt(&GUARDS[..1]).contains("(push 1)"));
    }
}
