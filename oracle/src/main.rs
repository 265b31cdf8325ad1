//! The command line of the second solver.

use std::env;
use std::fs;
use std::io::{self, Read, Write};
use std::path::Path;
use std::process::ExitCode;

use oracle::answer::{answer, answer_to};
use oracle::guard::{Guard, Limits};
use oracle::merge::{self, Refusal};
use oracle::order::{self, Rule, Size};
use oracle::problem::Problem;
use oracle::random::Random;
use oracle::read::Question;
use oracle::vectors::{
    self, branches, columns as stored, lists, loads, merges, records, summaries, Vector,
    USUAL_BUDGET,
};
use oracle::{branch, columns, list, read, record, smt, tables, text};

const USAGE: &str = "\
usage: oracle answer FILE [--budget N]        the answer to a guard file
       oracle load FILE [--budget N]          the flight loader's answer to it
       oracle check FILE OUTPUT [--budget N]  checks what guarddesk printed
       oracle smt FILE                        the guard in SMT-LIB 2
       oracle record FILE [--budget N]        the record of an UNSAT guard, in hexadecimal
       oracle check-record FILE RECORD        checks such a record against the guard
       oracle list FILE                       the numbers of a guard file, constants as
                                              their values
       oracle write LIST                      the guard file of such numbers, in hexadecimal
       oracle merge FIRST SECOND              the two guards as one file, in hexadecimal
       oracle store FILE                      the file with its term rows by column, in
                                              hexadecimal
       oracle restore STORED                  the file that these bytes are stored of, in
                                              hexadecimal
       oracle procedure FILE [--budget N]     which branches of a procedure can't run, and
                                              which two can together
       oracle orders FILE                     the whole search trees of a guard by other
                                              orders of splitting: their nodes and open
                                              leaves, and 2 x W - 1
       oracle orders FILE --rule RULE         one of them: first, last, depth, most, fewest
       oracle orders FILE --seed N            the tree of a random order
       oracle orders FILE --wishes LIST       the tree that splits on the terms of LIST where
                                              it can, as 3,0/1: on 3, else on 0, variant 1
       oracle orders --check VECTORS          checks trees of the guards of vectors
       oracle vectors [--check] DIR           writes or checks DIR/vectors.txt
       oracle records [--check] DIR           writes or checks DIR/records.txt, with
                                              guards of DIR/vectors.txt
       oracle lists [--check] DIR             writes or checks DIR/lists.txt, with
                                              guards of DIR/vectors.txt
       oracle merges [--check] DIR            writes or checks DIR/merges.txt, with
                                              guards of DIR/vectors.txt
       oracle columns [--check] DIR           writes or checks DIR/columns.txt, with
                                              files of DIR/vectors.txt
       oracle loads [--check] DIR             writes or checks DIR/loads.txt, with
                                              files of DIR/vectors.txt
       oracle summaries [--check] DIR         writes or checks DIR/summaries.txt, with
                                              files of DIR/vectors.txt
       oracle branches [--check] DIR          writes or checks DIR/branches.txt, with
                                              files of DIR/vectors.txt
       oracle pack VECTORS OUT                packs vectors into one binary file
       oracle tables [--check] VECTORS DIR    writes or checks DIR/stdin, the packed
                                              vectors, and DIR/stdout, the desk's tables
                                              of each in a line
       oracle walks [--check] VECTORS DIR     the same, with the answer to each in a line
       oracle answers [--check] VECTORS DIR   writes or checks DIR/stdin, and checks
                                              DIR/stdout, the whole answers of the desk
A FILE, OUTPUT, RECORD, LIST, STORED, FIRST or SECOND may be - for standard input. N is 1000000 if not given.";

/// Why the program fails.
enum Failure {
    /// The command line is wrong, or a file can't be read or written.
    Usage(String),
    /// What was to be checked is wrong.
    Wrong(String),
}

fn main() -> ExitCode {
    let arguments: Vec<_> = env::args_os().skip(1).collect();
    let words: Option<Vec<&str>> = arguments.iter().map(|word| word.to_str()).collect();
    let result = match words {
        Some(words) => run(&words),
        None => Err(Failure::Usage("the arguments aren't UTF-8".to_string())),
    };
    // Nothing is left to try if standard error is gone as well.
    match result {
        Ok(()) => ExitCode::SUCCESS,
        Err(Failure::Wrong(why)) => {
            let _ = writeln!(io::stderr(), "oracle: {why}");
            ExitCode::from(1)
        }
        Err(Failure::Usage(why)) => {
            let _ = writeln!(io::stderr(), "oracle: {why}");
            ExitCode::from(2)
        }
    }
}

fn run(words: &[&str]) -> Result<(), Failure> {
    match *words {
        ["answer", file] => answer_command(file, USUAL_BUDGET),
        ["answer", file, "--budget", n] => answer_command(file, budget(n)?),
        ["load", file] => load_command(file, USUAL_BUDGET),
        ["load", file, "--budget", n] => load_command(file, budget(n)?),
        ["check", file, output] => check_command(file, output, USUAL_BUDGET),
        ["check", file, output, "--budget", n] => check_command(file, output, budget(n)?),
        ["smt", file] => smt_command(file),
        ["record", file] => record_command(file, USUAL_BUDGET),
        ["record", file, "--budget", n] => record_command(file, budget(n)?),
        ["check-record", file, record] => check_record_command(file, record),
        ["list", file] => list_command(file),
        ["write", list] => write_command(list),
        ["merge", first, second] => merge_command(first, second),
        ["store", file] => store_command(file),
        ["restore", stored] => restore_command(stored),
        ["procedure", file] => procedure_command(file, USUAL_BUDGET),
        ["procedure", file, "--budget", n] => procedure_command(file, budget(n)?),
        ["orders", "--check", vectors] => check_orders(vectors),
        ["orders", file] => orders_command(file),
        ["orders", file, "--rule", name] => order_command(file, named_rule(name)?),
        ["orders", file, "--seed", seed] => order_command(file, seeded_rule(seed)?),
        ["orders", file, "--wishes", list] => order_command(file, wishes_rule(list)?),
        ["vectors", "--check", dir] => check_kept(&VECTORS, dir),
        ["vectors", dir] => write_kept(&VECTORS, dir),
        ["records", "--check", dir] => check_kept(&RECORDS, dir),
        ["records", dir] => write_kept(&RECORDS, dir),
        ["lists", "--check", dir] => check_kept(&LISTS, dir),
        ["lists", dir] => write_kept(&LISTS, dir),
        ["merges", "--check", dir] => check_kept(&MERGES, dir),
        ["merges", dir] => write_kept(&MERGES, dir),
        ["columns", "--check", dir] => check_kept(&COLUMNS, dir),
        ["columns", dir] => write_kept(&COLUMNS, dir),
        ["loads", "--check", dir] => check_kept(&LOADS, dir),
        ["loads", dir] => write_kept(&LOADS, dir),
        ["summaries", "--check", dir] => check_kept(&SUMMARIES, dir),
        ["summaries", dir] => write_kept(&SUMMARIES, dir),
        ["branches", "--check", dir] => check_kept(&BRANCHES, dir),
        ["branches", dir] => write_kept(&BRANCHES, dir),
        ["pack", vectors, out] => pack_command(vectors, out),
        ["tables", "--check", vectors, dir] => check_run(vectors, dir, tables::summaries),
        ["tables", vectors, dir] => write_run(vectors, dir, tables::summaries),
        ["walks", "--check", vectors, dir] => check_run(vectors, dir, vectors::answers),
        ["walks", vectors, dir] => write_run(vectors, dir, vectors::answers),
        ["answers", "--check", vectors, dir] => check_answers(vectors, dir),
        ["answers", vectors, dir] => write_input(vectors, dir).and_then(said_written),
        _ => Err(Failure::Usage(format!(
            "what is asked isn't clear\n{USAGE}"
        ))),
    }
}

fn budget(word: &str) -> Result<u32, Failure> {
    word.parse().map_err(|_| {
        Failure::Usage(format!(
            "the budget {word:?} isn't a number from 0 to {}",
            u32::MAX
        ))
    })
}

fn load(path: &str) -> Result<Vec<u8>, Failure> {
    let mut bytes = Vec::new();
    let result = if path == "-" {
        io::stdin().read_to_end(&mut bytes).map(|_| bytes)
    } else {
        fs::read(path)
    };
    result.map_err(|error| Failure::Usage(format!("{path} can't be read: {error}")))
}

fn load_text(path: &str) -> Result<String, Failure> {
    as_text(path, load(path)?)
}

fn as_text(path: &str, bytes: Vec<u8>) -> Result<String, Failure> {
    String::from_utf8(bytes).map_err(|_| Failure::Wrong(format!("{path} isn't UTF-8 text")))
}

fn store(path: &Path, bytes: &[u8]) -> Result<(), Failure> {
    fs::write(path, bytes)
        .map_err(|error| Failure::Usage(format!("{} can't be written: {error}", path.display())))
}

fn print(text: &str) -> Result<(), Failure> {
    let mut out = io::stdout().lock();
    let result = out.write_all(text.as_bytes()).and_then(|()| out.flush());
    result.map_err(|error| Failure::Usage(format!("standard output can't be written: {error}")))
}

fn answer_command(file: &str, budget: u32) -> Result<(), Failure> {
    let answer = answer(&load(file)?, budget, Limits::BASE);
    print(&format!("{answer}\n"))
}

fn load_command(file: &str, budget: u32) -> Result<(), Failure> {
    let answer = answer(&load(file)?, budget, Limits::LOADER);
    print(&format!("{answer}\n"))
}

/// Two files.
fn load_two(first: &str, second: &str) -> Result<(Vec<u8>, Vec<u8>), Failure> {
    if first == "-" && second == "-" {
        let why = "only one of the two files can be standard input";
        return Err(Failure::Usage(why.to_string()));
    }
    Ok((load(first)?, load(second)?))
}

/// A guard file and a text about it.
fn load_both(file: &str, text: &str) -> Result<(Vec<u8>, String), Failure> {
    let (bytes, about) = load_two(file, text)?;
    Ok((bytes, as_text(text, about)?))
}

fn check_command(file: &str, output: &str, budget: u32) -> Result<(), Failure> {
    let (file, output) = load_both(file, output)?;
    text::check(&file, &output, budget, Limits::BASE).map_err(Failure::Wrong)?;
    print("ok\n")
}

fn refused(what: &str, question: Question) -> Failure {
    Failure::Wrong(format!("the {what} is REFUSED {}", question.number()))
}

fn load_guard(file: &str) -> Result<Guard, Failure> {
    read::read(&load(file)?, Limits::BASE).map_err(|question| refused("file", question))
}

fn smt_command(file: &str) -> Result<(), Failure> {
    print(&smt::script(&load_guard(file)?))
}

fn record_command(file: &str, budget: u32) -> Result<(), Failure> {
    let guard = load_guard(file)?;
    match record::record(&guard, budget) {
        Some(record) => print(&format!("{}\n", vectors::hex(&record))),
        None => Err(Failure::Wrong(format!(
            "there is no record, the answer is {}",
            answer_to(&guard, budget)
        ))),
    }
}

fn check_record_command(file: &str, record: &str) -> Result<(), Failure> {
    let (file, text) = load_both(file, record)?;
    let record = vectors::unhex(text.trim_end())
        .ok_or(Failure::Wrong(format!("{record} isn't hexadecimal")))?;
    match record::check(&file, &record, Limits::BASE) {
        Ok(()) => print("ok\n"),
        Err(refusal) => Err(Failure::Wrong(format!("REFUSED {}", refusal.number()))),
    }
}

fn list_command(file: &str) -> Result<(), Failure> {
    let numbers = list::numbers(&load(file)?, Limits::BASE);
    let numbers = numbers.map_err(|question| refused("file", question))?;
    print(&format!("{}\n", list::text(&numbers)))
}

fn write_command(path: &str) -> Result<(), Failure> {
    let numbers = list::parse(&load_text(path)?)
        .ok_or(Failure::Wrong(format!("{path} isn't a list of numbers")))?;
    let file = list::write(&numbers, Limits::BASE);
    let file = file.map_err(|question| refused("list", question))?;
    print(&format!("{}\n", vectors::hex(&file)))
}

fn merge_command(first: &str, second: &str) -> Result<(), Failure> {
    let (first, second) = load_two(first, second)?;
    let merged = merge::merge(&first, &second, Limits::BASE).map_err(|refusal| match refusal {
        Refusal::First(question) => refused("first file", question),
        Refusal::Second(question) => refused("second file", question),
        _ => Failure::Wrong(format!("the merge is REFUSED {}", refusal.number())),
    })?;
    print(&format!("{}\n", vectors::hex(&merged)))
}

fn store_command(file: &str) -> Result<(), Failure> {
    let stored = columns::store(&load(file)?, Limits::BASE);
    let stored = stored.map_err(|question| refused("file", question))?;
    print(&format!("{}\n", vectors::hex(&stored)))
}

fn restore_command(stored: &str) -> Result<(), Failure> {
    let file = columns::restore(&load(stored)?, Limits::BASE);
    let file = file.map_err(|question| refused("stored file", question))?;
    print(&format!("{}\n", vectors::hex(&file)))
}

/// As the program `branchdesk` prints it.
fn procedure_command(file: &str, budget: u32) -> Result<(), Failure> {
    print(&branch::printed(&load(file)?, budget))
}

/// Larger trees are given up.
const MOST_NODES: u32 = 1_000_000;
const MOST_CLOSURES: u32 = 100_000;

fn named_rule(name: &str) -> Result<Rule, Failure> {
    let mut rules = Rule::named().into_iter();
    let rule = rules.find(|(known, _)| *known == name);
    rule.map(|(_, rule)| rule).ok_or(Failure::Usage(format!(
        "there is no rule {name:?}\n{USAGE}"
    )))
}

fn seeded_rule(seed: &str) -> Result<Rule, Failure> {
    let number = seed.parse().map(Random::new).map(Rule::Chance);
    number.map_err(|_| Failure::Usage(format!("the seed {seed:?} isn't a number")))
}

fn wishes_rule(list: &str) -> Result<Rule, Failure> {
    let why = format!("{list:?} isn't a list of terms, as 3,0/1");
    Rule::wishes(list).ok_or(Failure::Usage(why))
}

/// A tree in words.
fn size_of(problem: &Problem, rule: Rule) -> String {
    match order::tree(problem, rule, MOST_NODES) {
        Some(Size { nodes, open }) => format!("{nodes} nodes, {open} of them open"),
        None => format!("more than {MOST_NODES} nodes"),
    }
}

fn limit_of(problem: &Problem) -> String {
    match order::most_nodes(problem) {
        Some(most) => format!("2 x W - 1 is {most}\n"),
        None => "2 x W - 1 is 2^128 or more\n".to_string(),
    }
}

fn order_command(file: &str, rule: Rule) -> Result<(), Failure> {
    let guard = load_guard(file)?;
    let problem = Problem::new(&guard);
    print(&format!(
        "{}\n{}",
        size_of(&problem, rule),
        limit_of(&problem)
    ))
}

fn orders_command(file: &str) -> Result<(), Failure> {
    let guard = load_guard(file)?;
    let problem = Problem::new(&guard);
    let mut text = String::new();
    for (name, rule) in Rule::named() {
        text += &format!("{name}: {}\n", size_of(&problem, rule));
    }
    text += &match order::all_trees(&problem, MOST_CLOSURES) {
        Some(trees) => format!("any order: {} to {} nodes\n", trees.fewest, trees.most),
        None => "any order: too many to try\n".to_string(),
    };
    print(&(text + &limit_of(&problem)))
}

fn check_orders(path: &str) -> Result<(), Failure> {
    let found = vectors::check_orders(&load_vectors(path)?).map_err(Failure::Wrong)?;
    print(&format!("ok, {found}\n"))
}

/// A file of test data, which is made anew to be written or compared.
struct Kept {
    name: &'static str,
    /// What it has on its lines.
    what: &'static str,
    /// Its text and the number of its lines, with what else is in the directory.
    make: fn(&str) -> Result<(String, usize), Failure>,
}

const VECTORS: Kept = Kept {
    name: "vectors.txt",
    what: "vectors",
    make: |_| {
        let all = vectors::all();
        Ok((vectors::text(&all), all.len()))
    },
};

const RECORDS: Kept = Kept {
    name: "records.txt",
    what: "records",
    make: |dir| {
        let all = records::all(&vectors_of(dir)?).map_err(Failure::Wrong)?;
        Ok((records::text(&all), all.len()))
    },
};

const LISTS: Kept = Kept {
    name: "lists.txt",
    what: "lists",
    make: |dir| {
        let all = lists::all(&vectors_of(dir)?).map_err(Failure::Wrong)?;
        Ok((lists::text(&all), all.len()))
    },
};

const MERGES: Kept = Kept {
    name: "merges.txt",
    what: "merges",
    make: |dir| {
        let all = merges::all(&vectors_of(dir)?).map_err(Failure::Wrong)?;
        Ok((merges::text(&all), all.len()))
    },
};

const COLUMNS: Kept = Kept {
    name: "columns.txt",
    what: "calls of the store",
    make: |dir| {
        let all = stored::all(&vectors_of(dir)?).map_err(Failure::Wrong)?;
        Ok((stored::text(&all), all.len()))
    },
};

const LOADS: Kept = Kept {
    name: "loads.txt",
    what: "calls of the loader",
    make: |dir| {
        let all = loads::all(&vectors_of(dir)?);
        Ok((loads::text(&all), all.len()))
    },
};

const SUMMARIES: Kept = Kept {
    name: "summaries.txt",
    what: "summaries",
    make: |dir| {
        let all = summaries::all(&vectors_of(dir)?);
        Ok((summaries::text(&all), all.len()))
    },
};

const BRANCHES: Kept = Kept {
    name: "branches.txt",
    what: "procedures",
    make: |dir| {
        let all = branches::all(&vectors_of(dir)?);
        Ok((branches::text(&all), all.len()))
    },
};

fn write_kept(kept: &Kept, dir: &str) -> Result<(), Failure> {
    let (text, many) = (kept.make)(dir)?;
    store(&Path::new(dir).join(kept.name), text.as_bytes())?;
    print(&format!("{many} {} written\n", kept.what))
}

fn check_kept(kept: &Kept, dir: &str) -> Result<(), Failure> {
    let path = inside(dir, kept.name);
    let found = load_text(&path)?;
    let (text, many) = (kept.make)(dir)?;
    ensure_same(&path, &found, &text)?;
    print(&format!("ok, {many} {}\n", kept.what))
}

/// The vectors in a directory.
fn vectors_of(dir: &str) -> Result<Vec<Vector>, Failure> {
    load_vectors(&inside(dir, VECTORS.name))
}

/// The path of a file in a directory.
fn inside(dir: &str, name: &str) -> String {
    Path::new(dir).join(name).to_string_lossy().into_owned()
}

/// What was found in a file has to be this text.
fn ensure_same(path: &str, found: &str, expected: &str) -> Result<(), Failure> {
    match vectors::first_difference(found, expected) {
        None => Ok(()),
        Some(difference) => Err(Failure::Wrong(format!("{path}: {difference}"))),
    }
}

fn load_vectors(path: &str) -> Result<Vec<Vector>, Failure> {
    vectors::parse(&load_text(path)?).map_err(Failure::Wrong)
}

fn pack_command(path: &str, out: &str) -> Result<(), Failure> {
    let packed = vectors::pack(&load_vectors(path)?).map_err(Failure::Wrong)?;
    store(Path::new(out), &packed)
}

/// The lines that a program of the desk prints about the vectors.
type Lines = fn(&[Vector]) -> String;

/// Writes the packed vectors.
fn write_input(path: &str, dir: &str) -> Result<Vec<Vector>, Failure> {
    let vectors = load_vectors(path)?;
    let packed = vectors::pack(&vectors).map_err(Failure::Wrong)?;
    store(&Path::new(dir).join("stdin"), &packed)?;
    Ok(vectors)
}

fn said_written(vectors: Vec<Vector>) -> Result<(), Failure> {
    print(&format!("a run of {} vectors written\n", vectors.len()))
}

fn write_run(path: &str, dir: &str, lines: Lines) -> Result<(), Failure> {
    let vectors = write_input(path, dir)?;
    store(&Path::new(dir).join("stdout"), lines(&vectors).as_bytes())?;
    said_written(vectors)
}

/// The vectors, if DIR/stdin has them packed, and the path and text of DIR/stdout.
fn load_run(path: &str, dir: &str) -> Result<(Vec<Vector>, String, String), Failure> {
    let vectors = load_vectors(path)?;
    let packed = vectors::pack(&vectors).map_err(Failure::Wrong)?;
    let stdin = inside(dir, "stdin");
    if load(&stdin)? != packed {
        let why = format!("{stdin} isn't the packed vectors");
        return Err(Failure::Wrong(why));
    }
    let stdout = inside(dir, "stdout");
    let found = load_text(&stdout)?;
    Ok((vectors, stdout, found))
}

fn check_run(path: &str, dir: &str, lines: Lines) -> Result<(), Failure> {
    let (vectors, stdout, found) = load_run(path, dir)?;
    ensure_same(&stdout, &found, &lines(&vectors))?;
    print(&format!("ok, a run of {} vectors\n", vectors.len()))
}

fn check_answers(path: &str, dir: &str) -> Result<(), Failure> {
    let (vectors, stdout, found) = load_run(path, dir)?;
    vectors::check_answers(&vectors, &found)
        .map_err(|why| Failure::Wrong(format!("{stdout}: {why}")))?;
    let answers = vectors.iter().map(|vector| &vector.answer);
    let sat = answers.filter(|answer| answer.starts_with("SAT ")).count();
    print(&format!(
        "ok, answers to {} vectors, {sat} of them SAT\n",
        vectors.len()
    ))
}
