//! Pairs of guard files with the answers of request #107's merge: guards of the
//! vectors with each other and with generated ones, refused files, and other
//! output buffers.

mod made;

pub use made::{thinned, with_types};

use super::written::{self, one_of, sources, Answer, Input, New, Source};
use super::{hex, unhex, Vector};
use crate::guard::Limits;
use crate::list::LONGEST_FILE;
use crate::merge;
use crate::random::Random;
use crate::read::{read, Question};

/// Pairs for each question about one of the files.
const EACH_QUESTION: usize = 6;

const HEADER: &str = "\
# Pairs of guard files with the merge's answers, written by `oracle merges`.
# NAME, ROOM, FIRST, SECOND and ANSWER, separated by single tabs; ROOM is the length of the
# output buffer in bytes, FIRST and SECOND are the files in hexadecimal, - if empty. ANSWER is
# the merged file in hexadecimal, or REFUSED and the refusal's number.
";

/// Two files.
#[derive(Clone, Debug, PartialEq, Eq)]
pub struct Pair {
    pub first: Vec<u8>,
    pub second: Vec<u8>,
}

impl Pair {
    pub fn new(first: &[u8], second: &[u8]) -> Pair {
        Pair {
            first: first.to_vec(),
            second: second.to_vec(),
        }
    }
}

/// A pair with the merge's answer.
pub type Merged = written::Written<Pair>;

type Set = written::Set<Pair>;

impl Input for Pair {
    const WHAT: &'static str = "a pair";
    const SEED: &'static str = "merges";

    fn answer(&self, room: usize) -> Answer {
        answer(&self.first, &self.second, room)
    }

    fn columns(&self) -> Vec<String> {
        vec![hex(&self.first), hex(&self.second)]
    }

    fn parse(columns: &[&str]) -> Option<Pair> {
        match columns {
            [first, second] => Some(Pair::new(&unhex(first)?, &unhex(second)?)),
            _ => None,
        }
    }
}

/// The merge's answer.
pub fn answer(first: &[u8], second: &[u8], room: usize) -> Answer {
    merge::merge_within(first, second, room, Limits::BASE).map_err(|refusal| refusal.number())
}

/// What is known of the answers to a family of pairs.
#[derive(Clone, Copy)]
enum Answers {
    /// Only those that are merged are taken.
    Files,
    /// The way the pairs are made settles this refusal.
    Settled(u8),
    /// Only those with this refusal are taken.
    Taken(u8),
    Any,
}

use Answers::{Any, Files, Settled, Taken};

/// Makes a pair with guards of the vectors, if those drawn allow it.
type Make = fn(&mut Random, &[Source]) -> Option<Pair>;

/// A family of pairs: its name, how many, and their answers.
type Family = (&'static str, usize, Answers, Make);

const FAMILIES: [Family; 11] = [
    ("same", 80, Files, made::same),
    ("vectors", 160, Files, made::vectors),
    ("made", 140, Files, made::made),
    ("thinned", 40, Files, made::thinned_pair),
    ("far", 60, Files, made::far),
    ("other-types", 50, Settled(15), made::other_types),
    ("near-types", 30, Settled(15), made::near_types),
    ("other-variables", 60, Taken(16), made::other_variables),
    ("rows", 50, Taken(4), made::many_rows),
    ("lines", 50, Taken(4), made::many_lines),
    ("chance", 80, Any, made::chance),
];

/// All pairs, sorted by name, or why they can't be made from these vectors.
pub fn all(vectors: &[Vector]) -> Result<Vec<Merged>, String> {
    let sources = sources(vectors);
    let mut set = Set::default();
    for (name, many, answers, make) in FAMILIES {
        set.fill(name, many, |random| {
            let pair = make(random, &sources)?;
            wanted(random, answers, pair)
        })?;
    }
    for (name, pair, answer) in made::limits() {
        set.add(name, (pair, LONGEST_FILE, Some(answer)))?;
    }
    for (name, pair, room, question) in made::orders() {
        set.add(format!("order-{name}"), (pair, room, Some(Err(question))))?;
    }
    settled_files(&mut set, &sources)?;
    refused(&mut set, vectors, &sources)?;
    outputs(&mut set, &sources)?;
    Ok(set.sorted())
}

/// The pair with some output buffer, if its answer is one of these.
fn wanted(random: &mut Random, answers: Answers, pair: Pair) -> Option<New<Pair>> {
    let enough = pair.answer(LONGEST_FILE);
    let settled = match (answers, &enough) {
        (Settled(question), _) => Some(Err(question)),
        (Files, Err(_)) => return None,
        (Taken(question), enough) if *enough != Err(question) => return None,
        (Files | Taken(_) | Any, _) => None,
    };
    let exact = enough.map_or(LONGEST_FILE, |file| file.len());
    let room = [exact, LONGEST_FILE, exact + random.below(300)][random.below(3)];
    Some((pair, room, settled))
}

/// Pairs whose merged file is known beforehand: a guard with one that has no
/// rows, and the two halves of a guard that share no variable.
fn settled_files(set: &mut Set, sources: &[Source]) -> Result<(), String> {
    let families: [(&str, usize, made::Settles); 2] =
        [("empty", 40, made::empty), ("halves", 60, made::halves)];
    for (name, many, make) in families {
        set.fill(name, many, |random| {
            let source = one_of(random, sources)?;
            let (pair, file) = make(random, source)?;
            Some((pair, file.len(), Some(Ok(file))))
        })?;
    }
    // The longest file of all, from its halves.
    let is_longest = |source: &&Source| source.file.len() == LONGEST_FILE;
    for source in sources.iter().filter(is_longest) {
        if let Some((pair, file)) = made::halves_at(source, source.guard.rows.len() / 2) {
            let new = (pair, LONGEST_FILE, Some(Ok(file)));
            set.add(format!("halves-of-{}", source.name), new)?;
        }
    }
    Ok(())
}

/// Files that are refused, each as first, as second, and with another one.
fn refused(set: &mut Set, vectors: &[Vector], sources: &[Source]) -> Result<(), String> {
    let refusal = |vector: &Vector| read(&vector.file, Limits::BASE).err();
    for question in &Question::ALL[1..] {
        let number = question.number();
        let refused = vectors.iter().filter(|v| refusal(v) == Some(*question));
        let refused: Vec<&Vector> = refused.collect();
        for first in [true, false] {
            let which = if first { "first" } else { "second" };
            let name = format!("refused-{which}-{number:02}");
            set.fill(&name, EACH_QUESTION, |random| {
                let (bad, good) = (random.pick(&refused)?, one_of(random, sources)?);
                let (bad, good) = (&bad.file, &good.file);
                let pair = match first {
                    true => Pair::new(bad, good),
                    false => Pair::new(good, bad),
                };
                Some((pair, LONGEST_FILE, Some(Err(number))))
            })?;
        }
    }
    let all: Vec<&Vector> = vectors.iter().filter(|v| refusal(v).is_some()).collect();
    set.fill("refused-both", 40, |random| {
        let (first, second) = (random.pick(&all)?, random.pick(&all)?);
        let settled = refusal(first)?.number();
        let pair = Pair::new(&first.file, &second.file);
        Some((pair, LONGEST_FILE, Some(Err(settled))))
    })
}

/// Output buffers that are too short, also for pairs that are refused before
/// that is asked.
fn outputs(set: &mut Set, sources: &[Source]) -> Result<(), String> {
    set.fill("short-output", 80, |random| {
        let make = [made::same, made::vectors, made::made, made::far][random.below(4)];
        let pair = make(random, sources)?;
        let length = pair.answer(LONGEST_FILE).ok()?.len();
        let room = [0, random.below(length), length - 1, length - 1][random.below(4)];
        Some((pair, room, Some(Err(14))))
    })?;
    set.fill("refused-short-output", 40, |random| {
        let (_, _, _, make) = FAMILIES[random.below(FAMILIES.len())];
        let pair = make(random, sources)?;
        let settled = pair.answer(LONGEST_FILE).err()?;
        Some((pair, random.below(3), Some(Err(settled))))
    })
}

/// The pairs as the text of `merges.txt`.
pub fn text(all: &[Merged]) -> String {
    written::text(HEADER, all)
}

/// Reads the text of `merges.txt`.
pub fn parse(text: &str) -> Result<Vec<Merged>, String> {
    written::parse(text)
}
