//! The proved library against the outside solver, on as many random files as wanted.
//!
//! Every answer is compared, every message checked, every number of every buffer looked at. The same seed gives the same
//! files and calls, whatever the number of threads.

mod branches;
mod buffers;
mod calls;
mod checks;
mod columns;
mod compare;
mod counts;
mod desk;
mod files;
mod known;
mod library;
mod merges;
mod mismatch;
mod orders;
mod outputs;
mod smt;
mod summaries;
mod writes;

use compare::Comparer;
use counts::{Counts, Numbered};
use desk::{Desk, Library};
use files::Maker;
use mismatch::Mismatch;
use oracle::random::Random;
use oracle::vectors::columns::Asked;
use oracle::vectors::merges::Pair;
use std::fs;
use std::process::ExitCode;
use std::sync::atomic::{AtomicU64, Ordering};
use std::thread;
use std::time::Instant;

const USAGE: &str = "\
usage: bulk [smt] [--files N] [--seed S] [--threads T] [--limit NODES]
       bulk records FILE
       bulk lists FILE
       bulk merges FILE
       bulk columns FILE
       bulk branches FILE
       bulk summaries FILE
       bulk branches|summaries --files N --seed S
N files (20000) from the seed S (1) in T threads (1). Guards of more nodes than the limit (20000, at most 1000000) are
compared with budgets up to it only; SPENT in the line of files counts them. With smt nothing is compared: the guards are
printed in SMT-LIB 2, each with the library's verdict, those within the limit only. With records the library's checker
answers the lines of records.txt, with lists its writer those of lists.txt, with merges its merge those of merges.txt, with
columns its store and its way back those of columns.txt, with branches and summaries these calls those of branches.txt and summaries.txt; or random procedures and summaries, in one thread.";

/// The stack of a thread: what a call needs, and plenty for the solver.
const STACK: usize = 8 << 20;
/// The most that the limit can be. Records of so many nodes have buffers from the start.
const MOST_LIMIT: u32 = 1_000_000;
/// How many files a thread takes at a time.
const BLOCK: u64 = 64;

struct Options {
    files: u64,
    seed: u64,
    threads: u64,
    limit: u32,
}

fn options(words: &[String]) -> Option<Options> {
    let mut options = Options {
        files: 20_000,
        seed: 1,
        threads: 1,
        limit: 20_000,
    };
    for pair in words.chunks(2) {
        let [name, value] = pair else {
            return None;
        };
        match name.as_str() {
            "--files" => options.files = value.parse().ok()?,
            "--seed" => options.seed = value.parse().ok()?,
            "--threads" => options.threads = value.parse().ok().filter(|&many| many > 0)?,
            "--limit" => {
                options.limit = value.parse().ok().filter(|&limit| limit <= MOST_LIMIT)?;
            }
            _ => return None,
        }
    }
    Some(options)
}

/// The generator of one file and its calls.
fn of_file(seed: u64, number: u64) -> Random {
    let start = Random::new(seed).bits();
    Random::new(Random::new(start ^ number).bits())
}

/// A wrong call, with the number of its file.
type Found = (u64, Box<Mismatch>);

/// The files whose turn it is, until all are done or one before them was wrong.
fn work(
    options: &Options,
    desk: impl Desk,
    next: &AtomicU64,
    stop: &AtomicU64,
) -> (Counts, Option<Found>) {
    let mut counts = Counts::default();
    let maker = Maker::default();
    let mut comparer = Comparer::new(desk, options.limit, &maker);
    loop {
        let first = next.fetch_add(BLOCK, Ordering::Relaxed);
        for number in first..first + BLOCK {
            if number >= stop.load(Ordering::Relaxed) {
                return (counts, None);
            }
            let mut random = of_file(options.seed, number);
            let file = maker.make(&mut random);
            if let Err(mismatch) = comparer.compare(&mut random, &file, &mut counts) {
                // Another thread may still find an earlier one.
                stop.fetch_min(number, Ordering::Relaxed);
                return (counts, Some((number, mismatch)));
            }
        }
    }
}

/// All files in all threads, up to the first wrong call.
fn run(options: &Options, desk: impl Desk + Copy + Send) -> (Counts, Option<Found>) {
    let (next, stop) = (AtomicU64::new(0), AtomicU64::new(options.files));
    let (next, stop) = (&next, &stop);
    let results: Vec<_> = thread::scope(|scope| {
        let spawn = |_| {
            thread::Builder::new()
                .stack_size(STACK)
                .spawn_scoped(scope, move || work(options, desk, next, stop))
                .expect("a thread starts")
        };
        let threads: Vec<_> = (0..options.threads).map(spawn).collect();
        let join = |thread: thread::ScopedJoinHandle<_>| thread.join().expect("a thread ends");
        threads.into_iter().map(join).collect()
    });
    let mut counts = Counts::default();
    let mut first = None;
    for (part, found) in results {
        counts.merge(&part);
        first = first
            .into_iter()
            .chain(found)
            .min_by_key(|found: &Found| found.0);
    }
    (counts, first)
}

fn main() -> ExitCode {
    let words: Vec<String> = std::env::args().skip(1).collect();
    let command: Vec<&str> = words.iter().map(String::as_str).collect();
    match command[..] {
        ["records", path] => return compare_lines(path, "check", checks::compare_lines),
        ["lists", path] => return compare_lines(path, "write", outputs::compare_lines::<Vec<i64>>),
        ["merges", path] => return compare_lines(path, "merge", outputs::compare_lines::<Pair>),
        ["columns", path] => return compare_lines(path, "store", outputs::compare_lines::<Asked>),
        ["branches", path] => return compare_lines(path, "branches", branches::compare_lines),
        ["summaries", path] => return compare_lines(path, "summaries", summaries::compare_lines),
        ["branches", ..] => options(&words[1..]).map(|o| compare_random(&o, branches::compare)),
        ["summaries", ..] => options(&words[1..]).map(|o| compare_random(&o, summaries::compare)),
        ["smt", ..] => options(&words[1..]).map(|options| print_smt(&options)),
        _ => options(&words).map(|options| compare_files(&options)),
    }
    .unwrap_or_else(|| {
        eprintln!("{USAGE}");
        ExitCode::from(2)
    })
}

fn print_smt(options: &Options) -> ExitCode {
    match smt::print(options) {
        Ok(()) => ExitCode::SUCCESS,
        Err(error) => {
            eprintln!("bulk: standard output can't be written: {error}");
            ExitCode::from(2)
        }
    }
}

fn compare_files(options: &Options) -> ExitCode {
    let start = Instant::now();
    let (counts, found) = run(options, Library);
    print!("{counts}");
    println!("seed {}, {:.1?}", options.seed, start.elapsed());
    match found {
        None => {
            println!("all right");
            ExitCode::SUCCESS
        }
        Some((number, mismatch)) => {
            print!("MISMATCH in file number {number}\n{mismatch}");
            ExitCode::FAILURE
        }
    }
}

/// The lines of a file through one call of the library.
fn compare_lines(
    path: &str,
    call: &str,
    compare: fn(&Library, &str) -> Result<Numbered, String>,
) -> ExitCode {
    let text = match fs::read_to_string(path) {
        Ok(text) => text,
        Err(error) => {
            eprintln!("bulk: {path} can't be read: {error}");
            return ExitCode::from(2);
        }
    };
    told(call, compare(&Library, &text))
}

/// The calls of one kind, counted, or what was wrong.
fn told(call: &str, counts: Result<Numbered, String>) -> ExitCode {
    match counts {
        Ok(counts) => {
            print!("{call} {}: {counts}", counts.total());
            println!("all right");
            ExitCode::SUCCESS
        }
        Err(why) => {
            println!("{}", why.trim_end());
            ExitCode::FAILURE
        }
    }
}

/// Random files through one kind of call, in one thread with the stack that a call needs.
fn compare_random(
    options: &Options,
    compare: fn(&Library, u64, u64) -> Result<Numbered, String>,
) -> ExitCode {
    let (seed, files) = (options.seed, options.files);
    let thread = thread::Builder::new()
        .stack_size(STACK)
        .spawn(move || compare(&Library, seed, files))
        .expect("a thread starts");
    told("calls", thread.join().expect("a thread ends"))
}

#[cfg(test)]
mod tests {
    use super::*;
    use desk::planted::Decide;
    use guarddesk::raw;

    fn some(threads: u64) -> Options {
        Options {
            files: 3_000,
            seed: 7,
            threads,
            limit: 1_000,
        }
    }

    #[test]
    fn the_same_whatever_the_threads() {
        let (counts, found) = run(&some(1), Library);
        assert!(found.is_none());
        assert_eq!(counts, run(&some(3), Library).0);
    }

    #[test]
    fn every_answer_is_met() {
        let (counts, _) = run(&some(2), Library);
        assert!(counts.files.sat > 0 && counts.files.unsat > 0);
        for calls in [counts.decided, counts.explained] {
            assert!(calls.answers.sat > 0 && calls.answers.unsat > 0 && calls.answers.spent > 0);
            assert!(calls.answers.refused.iter().all(|&many| many > 0));
            assert!(calls.too_short > 0);
        }
        let loaded = counts.loaded;
        assert!(loaded.answers.sat > 0 && loaded.answers.unsat > 0 && loaded.answers.spent > 0);
        assert!(loaded.answers.refused.iter().all(|&many| many > 0));
        assert!(loaded.too_short > 0 && loaded.outgrown == 0 && counts.most_loaded > 1);
        assert!(counts.decided.outgrown == 0 && counts.explained.outgrown > 0);
        // Questions that the checker, the writer, the merge, the store and the way back don't ask.
        let never: &[(Numbered, &[usize])] = &[
            (counts.checked, &[1, 11, 14, 15, 16, 17, 18, 19]),
            (counts.written, &[1, 3, 11, 12, 13, 15, 16, 17, 19]),
            (counts.merged, &[1, 11, 12, 13, 17, 18, 19]),
            (counts.stored, &[1, 11, 12, 13, 15, 16, 17, 18, 19]),
            (counts.restored, &[1, 11, 12, 13, 15, 16, 17, 18, 19]),
        ];
        for (numbered, never) in never {
            for (answer, many) in numbered.0.into_iter().enumerate() {
                assert_eq!(many == 0, never.contains(&answer), "{answer}: {many}");
            }
        }
        assert!(counts.most_nodes > 1 && counts.most_rows > 1 && counts.longest_record > 2);
    }

    /// Wrong in some calls only.
    #[test]
    fn the_first_mismatch_whatever_the_threads() {
        let wrong = Decide(
            |file: &[u8], budget, rows: &mut [i32], places: &mut [i32], answer: &mut [u32]| {
                let code = raw::decide_into(file, budget, rows, places, answer);
                if code == raw::ANSWERED && answer[0] == raw::SAT && answer[1] > 9 {
                    answer[1] = 9;
                }
                code
            },
        );
        let texts = [1, 4].map(|threads| {
            let (_, found) = run(&some(threads), wrong);
            let (number, mismatch) = found.expect("a mismatch");
            format!("{number} {mismatch}")
        });
        assert_eq!(texts[0], texts[1]);
        assert!(
            texts[0].contains("fault     answered SAT 9 splits "),
            "{}",
            texts[0]
        );
    }

    #[test]
    fn the_command_line() {
        let parse = |line: &str| {
            let words: Vec<String> = line.split_whitespace().map(String::from).collect();
            options(&words)
        };
        let options = parse("--files 5 --seed 9 --threads 2 --limit 10").expect("options");
        let Options {
            files,
            seed,
            threads,
            limit,
        } = options;
        assert_eq!((files, seed, threads, limit), (5, 9, 2, 10));
        for wrong in [
            "--files",
            "--files x",
            "--threads 0",
            "--limit 1000001",
            "5 6",
        ] {
            assert!(parse(wrong).is_none(), "{wrong}");
        }
    }
}
