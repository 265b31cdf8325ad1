//! Records of request #101 with the checker's answers: those of the search,
//! damaged ones, and others that are right too.

mod damage;
mod others;
mod source;

use self::source::{pick, Source};
use super::{hex, is_drawn_from, unhex, Vector};
use crate::guard::Limits;
use crate::random::Random;
use crate::read::Question;
use crate::record;

/// Records for each question about the file.
const EACH_QUESTION: usize = 2;

const HEADER: &str = "\
# Guard files and records with the checker's answers, written by `oracle records`.
# NAME, FILE, RECORD and ANSWER, separated by single tabs; FILE and RECORD are in
# hexadecimal, - if empty. ANSWER is 0 if the record is accepted, else the refusal's number.
";

/// A record with the checker's answer.
#[derive(Clone, Debug, PartialEq, Eq)]
pub struct Checked {
    pub name: String,
    pub file: Vec<u8>,
    pub record: Vec<u8>,
    pub answer: u8,
}

/// The number of the checker's answer.
pub fn answer(file: &[u8], record: &[u8]) -> u8 {
    match record::check(file, record, Limits::BASE) {
        Ok(()) => 0,
        Err(refusal) => refusal.number(),
    }
}

/// Makes another record about a guard, if the guard allows it.
type Make = fn(&mut Random, &Source) -> Option<Vec<u8>>;

/// A family of records: its name, how many, and the answer to all of them if
/// the way they are made settles it.
type Family = (&'static str, usize, Option<u8>, Make);

/// Records about UNSAT guards.
const CLOSED: [Family; 19] = [
    ("cut-number", 16, Some(12), damage::cut_number),
    ("cut-entry", 20, Some(12), damage::cut_entry),
    ("cut-between", 28, Some(13), damage::cut_between),
    ("longer", 20, Some(13), damage::longer),
    ("no-kind", 16, Some(12), damage::no_kind),
    ("spelling", 24, Some(12), damage::spelling),
    ("other-term", 28, Some(12), damage::other_term),
    ("around", 8, Some(12), damage::around),
    ("no-term", 20, Some(12), damage::no_term),
    ("no-label", 12, Some(12), damage::no_label),
    ("other-line", 24, Some(12), damage::other_line),
    ("no-line", 8, Some(12), damage::no_line),
    ("one-variant", 28, Some(12), damage::one_variant),
    ("no-variant", 24, Some(12), damage::no_variant),
    ("other-claim", 28, Some(0), others::other_claim),
    ("other-order", 48, Some(0), others::other_order),
    ("split-anyway", 20, Some(0), others::split_anyway),
    ("swapped", 12, None, others::swapped),
    ("chance", 32, None, others::chance),
];

/// Records about SAT guards.
const OPEN: [Family; 2] = [
    ("open-node", 12, Some(13), damage::open_node),
    ("open-node-claim", 12, Some(12), damage::open_node_claim),
];

/// All records, sorted by name, or why they can't be made from these vectors.
pub fn all(vectors: &[Vector]) -> Result<Vec<Checked>, String> {
    let spent = |vector: &&Vector| vector.answer.starts_with("SPENT ");
    let decided = vectors.iter().filter(|vector| !spent(vector));
    let (drawn, later): (Vec<&Vector>, Vec<_>) = decided.partition(|vector| is_drawn_from(vector));
    let sources: Vec<Source> = drawn.into_iter().filter_map(Source::of).collect();
    let later: Vec<Source> = later.into_iter().filter_map(Source::of).collect();
    let (closed, open): (Vec<_>, Vec<_>) = sources.iter().partition(|source| source.closed);
    let mut set = Set::default();
    for source in closed.iter().copied().chain(&later) {
        if source.closed {
            let name = format!("written-{}", source.name);
            set.add(name, &source.file, source.record(), Some(0))?;
        }
    }
    set.families(&CLOSED, &closed)?;
    set.families(&OPEN, &open)?;
    set.other_guards(&closed, &open)?;
    set.refused_files(vectors, &closed)?;
    set.0.sort_by(|a, b| a.name.cmp(&b.name));
    Ok(set.0)
}

/// A growing list of records.
#[derive(Default)]
struct Set(Vec<Checked>);

impl Set {
    fn add(
        &mut self,
        name: String,
        file: &[u8],
        record: Vec<u8>,
        expected: Option<u8>,
    ) -> Result<(), String> {
        let answer = answer(file, &record);
        if let Some(expected) = expected.filter(|&expected| expected != answer) {
            return Err(format!("{name}: answered {answer}, expected {expected}"));
        }
        self.0.push(Checked {
            name,
            file: file.to_vec(),
            record,
            answer,
        });
        Ok(())
    }

    /// Adds different files with records from `make` until there are enough.
    fn fill(
        &mut self,
        name: &str,
        many: usize,
        expected: Option<u8>,
        make: impl FnMut(&mut Random) -> Option<(Vec<u8>, Vec<u8>)>,
    ) -> Result<(), String> {
        let made = super::different(&format!("records-{name}"), many, make)?;
        for (i, (file, record)) in made.into_iter().enumerate() {
            self.add(format!("{name}-{i:02}"), &file, record, expected)?;
        }
        Ok(())
    }

    fn families(&mut self, families: &[Family], sources: &[&Source]) -> Result<(), String> {
        for &(name, many, expected, make) in families {
            self.fill(name, many, expected, |random| {
                let source = pick(random, sources)?;
                Some((source.file.clone(), make(random, source)?))
            })?;
        }
        Ok(())
    }

    /// Records of other guards, and of the same guard with one more line.
    fn other_guards(&mut self, closed: &[&Source], open: &[&Source]) -> Result<(), String> {
        for (name, sources) in [("other-guard", closed), ("other-guard-sat", open)] {
            self.fill(name, 16, None, |random| {
                let record = pick(random, closed)?.record();
                Some((pick(random, sources)?.file.clone(), record))
            })?;
        }
        self.fill("line-less", 24, None, |random| {
            let source = pick(random, closed)?;
            Some((source.file_with_a_line_less(random)?, source.record()))
        })
    }

    /// The questions about the file come before the record.
    fn refused_files(&mut self, vectors: &[Vector], closed: &[&Source]) -> Result<(), String> {
        for question in &Question::ALL[1..] {
            let number = question.number();
            let answer = format!("REFUSED {number}");
            let refused: Vec<&Vector> = vectors
                .iter()
                .filter(|vector| vector.answer == answer && is_drawn_from(vector))
                .collect();
            let name = format!("refused-{number:02}");
            self.fill(&name, EACH_QUESTION, Some(number), |random| {
                let file = random.pick(&refused)?.file.clone();
                let keep = random.percent(70);
                let record = pick(random, closed).filter(|_| keep);
                Some((file, record.map(Source::record).unwrap_or_default()))
            })?;
        }
        Ok(())
    }
}

/// The records as the text of `records.txt`.
pub fn text(all: &[Checked]) -> String {
    let mut text = HEADER.to_string();
    for checked in all {
        let (file, record) = (hex(&checked.file), hex(&checked.record));
        text += &format!("{}\t{file}\t{record}\t{}\n", checked.name, checked.answer);
    }
    text
}

/// Reads the text of `records.txt`.
pub fn parse(text: &str) -> Result<Vec<Checked>, String> {
    super::parse_lines(text, "a record", parse_line)
}

fn parse_line(line: &str) -> Option<Checked> {
    let [name, file, record, answer] = super::columns(line)?;
    Some(Checked {
        name: name.to_string(),
        file: unhex(file)?,
        record: unhex(record)?,
        answer: answer.parse().ok()?,
    })
}
