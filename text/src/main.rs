//! The command line.

use std::env;
use std::fs;
use std::io::{self, Read, Write};
use std::process::ExitCode;

use guardtext::both::{self, both, Part};
use guardtext::branches::branches;
use guardtext::check::Source;
use guardtext::decode::decode;
use guardtext::desk::{decide, explain, Answer};
use guardtext::encode::{encode, hex};
use guardtext::show::{show, show_of};
use guardtext::write::write;

const USAGE: &str = "\
usage: guardtext decide FILE [--budget N]   the desk's answer to a text
       guardtext explain FILE [--budget N]  the same, with all branches after UNSAT
       guardtext both FIRST SECOND [--budget N]
                                            whether both guards can hold at once
       guardtext encode FILE [--hex]        the guard file of a text
       guardtext text FILE                  the text of a guard file or its hex
FILE may be - for standard input, and so may FIRST or SECOND. N is 1000000 if not given.";

/// Why the program fails.
enum Failure {
    /// The command line is wrong, a file can't be read or written, or an answer makes no sense.
    Use(String),
    /// The text or the guard file is wrong.
    Wrong(String),
    /// As `Wrong`, and the answer is printed already.
    Refused,
}

fn main() -> ExitCode {
    let words: Option<Vec<String>> = env::args_os()
        .skip(1)
        .map(|word| word.into_string().ok())
        .collect();
    let result = match words {
        Some(words) => run(&words),
        None => Err(Failure::Use("the arguments aren't UTF-8".to_string())),
    };
    let (why, status) = match result {
        Ok(()) => return ExitCode::SUCCESS,
        Err(Failure::Refused) => return ExitCode::from(1),
        Err(Failure::Wrong(why)) => (why, 1),
        Err(Failure::Use(why)) => (why, 2),
    };
    // Nothing is left to try if standard error is gone as well.
    let _ = writeln!(io::stderr(), "guardtext: {why}");
    ExitCode::from(status)
}

/// What a command line asks for.
struct Options {
    file: String,
    /// Of `both` only.
    second: String,
    budget: u32,
    hex: bool,
}

fn is_file(word: &str) -> bool {
    word == "-" || !word.starts_with('-')
}

fn run(words: &[String]) -> Result<(), Failure> {
    let unclear = |why: &str| Failure::Use(format!("{why}\n{USAGE}"));
    let Some((command, words)) = words.split_first() else {
        return Err(unclear("a command is missing"));
    };
    let mut options = Options {
        file: String::new(),
        second: String::new(),
        budget: 1_000_000,
        hex: false,
    };
    let mut words = words.iter();
    while let Some(word) = words.next() {
        match (word.as_str(), command.as_str()) {
            ("--hex", "encode") => options.hex = true,
            ("--budget", "decide" | "explain" | "both") => {
                let budget = words.next().and_then(|word| word.parse().ok());
                let most = u32::MAX;
                let why = format!("--budget needs a number from 0 to {most}");
                options.budget = budget.ok_or_else(|| unclear(&why))?;
            }
            (file, _) if options.file.is_empty() && is_file(file) => {
                options.file = file.to_string();
            }
            (file, "both") if options.second.is_empty() && is_file(file) => {
                options.second = file.to_string();
            }
            (other, _) => return Err(unclear(&format!("{other} isn't expected"))),
        }
    }
    if options.file.is_empty() {
        return Err(unclear("FILE is missing"));
    }
    match command.as_str() {
        "decide" => decide_command(&options),
        "explain" => explain_command(&options),
        "both" if options.second.is_empty() => Err(unclear("SECOND is missing")),
        "both" if options.file == "-" && options.second == "-" => {
            Err(unclear("only one of the two can be standard input"))
        }
        "both" => both_command(&options),
        "encode" => encode_command(&options),
        "text" => text_command(&options),
        other => Err(unclear(&format!("there is no command {other}"))),
    }
}

fn load(path: &str) -> Result<Vec<u8>, Failure> {
    let mut bytes = Vec::new();
    let result = match path {
        "-" => io::stdin().read_to_end(&mut bytes).map(|_| bytes),
        _ => fs::read(path),
    };
    result.map_err(|error| Failure::Use(format!("{path} can't be read: {error}")))
}

fn print(bytes: &[u8]) -> Result<(), Failure> {
    let mut out = io::stdout().lock();
    let result = out.write_all(bytes).and_then(|()| out.flush());
    result.map_err(|error| Failure::Use(format!("standard output can't be written: {error}")))
}

/// Reads a text; what is wrong with it is said with the file, the line and the column.
fn source(path: &str) -> Result<Source, Failure> {
    let text = String::from_utf8(load(path)?)
        .map_err(|_| Failure::Wrong(format!("{path} isn't UTF-8 text")))?;
    guardtext::read(&text).map_err(|fault| Failure::Wrong(format!("{path}, {fault}")))
}

fn decide_command(options: &Options) -> Result<(), Failure> {
    let source = source(&options.file)?;
    let answer = match encode(&source.guard) {
        Ok(file) => decide(&file, options.budget),
        Err(refusal) => Answer::Refused(refusal.0),
    };
    let shown = show(&source, &answer).map_err(Failure::Use)?;
    print_answer(&answer, &shown)
}

fn explain_command(options: &Options) -> Result<(), Failure> {
    let source = source(&options.file)?;
    let (answer, refutation) = match encode(&source.guard) {
        Ok(file) => explain(&file, options.budget),
        Err(refusal) => (Answer::Refused(refusal.0), None),
    };
    let mut shown = show(&source, &answer).map_err(Failure::Use)?;
    if let Some(refutation) = refutation {
        shown += &branches(&source, &refutation).map_err(Failure::Use)?;
    }
    print_answer(&answer, &shown)
}

fn print_answer(answer: &Answer, shown: &str) -> Result<(), Failure> {
    print(shown.as_bytes())?;
    match answer {
        Answer::Refused(_) => Err(Failure::Refused),
        _ => Ok(()),
    }
}

fn both_command(options: &Options) -> Result<(), Failure> {
    let (first, second) = (source(&options.file)?, source(&options.second)?);
    let files = (
        file_of(&options.file, &first)?,
        file_of(&options.second, &second)?,
    );
    let first = Part {
        path: &options.file,
        source: &first,
        file: &files.0,
    };
    let second = Part {
        path: &options.second,
        source: &second,
        file: &files.1,
    };
    let (file, merged) = match both(&first, &second) {
        Ok(merged) => merged,
        Err(both::Failure::Refused(question, fault)) => {
            print(format!("REFUSED {question}, {}, {fault}\n", second.path).as_bytes())?;
            return Err(Failure::Refused);
        }
        Err(both::Failure::Names(fault)) => {
            return Err(Failure::Wrong(format!("{}, {fault}", second.path)))
        }
        Err(both::Failure::Sense(why)) => return Err(Failure::Use(why)),
    };
    let answer = decide(&file, options.budget);
    let shown = show_of(&merged, &answer, "both guards").map_err(Failure::Use)?;
    print_answer(&answer, &shown)
}

fn encode_command(options: &Options) -> Result<(), Failure> {
    let source = source(&options.file)?;
    let bytes = file_of(&options.file, &source)?;
    match options.hex {
        true => print(format!("{}\n", hex(&bytes)).as_bytes()),
        false => print(&bytes),
    }
}

/// The guard file of a text, or the same words as those of `decide` where there is none.
fn file_of(path: &str, source: &Source) -> Result<Vec<u8>, Failure> {
    encode(&source.guard).map_err(|refusal| match show(source, &Answer::Refused(refusal.0)) {
        Ok(shown) => Failure::Wrong(format!("{path}, {}", shown.trim_end())),
        Err(why) => Failure::Use(why),
    })
}

fn text_command(options: &Options) -> Result<(), Failure> {
    let bytes = load(&options.file)?;
    let wrong = |why: String| Failure::Wrong(format!("{}, {why}", options.file));
    let file = match guardtext::decode::from_hex(&bytes) {
        Some(file) => file.map_err(wrong)?,
        None => bytes,
    };
    let guard = decode(&file).map_err(|refusal| wrong(refusal.to_string()))?;
    print(write(&guard).as_bytes())
}
