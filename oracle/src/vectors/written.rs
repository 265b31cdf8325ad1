//! Calls that write a file into an output buffer, with their answers: what
//! `lists.txt`, `merges.txt` and `columns.txt` have on their lines.

use super::{hex, parse_lines, unhex, Vector};
use crate::encode::{Draft, Role, Token};
use crate::guard::{Guard, Limits};
use crate::random::Random;
use crate::read::read;

/// The file that a call writes, or the number of its refusal.
pub type Answer = Result<Vec<u8>, u8>;

/// What such a call is given besides the output buffer.
pub trait Input: Clone + PartialEq {
    /// What a line has, in words.
    const WHAT: &'static str;
    /// What the names of the generators begin with.
    const SEED: &'static str;

    /// The answer for an output buffer of so many bytes.
    fn answer(&self, room: usize) -> Answer;

    /// Its columns.
    fn columns(&self) -> Vec<String>;

    fn parse(columns: &[&str]) -> Option<Self>;
}

/// A call with its answer.
#[derive(Clone, Debug, PartialEq, Eq)]
pub struct Written<I> {
    pub name: String,
    /// The length of the output buffer.
    pub room: usize,
    pub input: I,
    pub answer: Answer,
}

/// An input, the length of the output buffer, and the answer if the way they
/// are made settles it.
pub type New<I> = (I, usize, Option<Answer>);

/// A growing set of calls.
pub struct Set<I>(Vec<Written<I>>);

impl<I> Default for Set<I> {
    fn default() -> Set<I> {
        Set(Vec::new())
    }
}

impl<I: Input> Set<I> {
    pub fn add(&mut self, name: String, (input, room, expected): New<I>) -> Result<(), String> {
        let answer = input.answer(room);
        if let Some(expected) = expected.filter(|expected| *expected != answer) {
            return Err(format!(
                "{name}: answered {answer:?}, expected {expected:?}"
            ));
        }
        self.0.push(Written {
            name,
            room,
            input,
            answer,
        });
        Ok(())
    }

    /// So many different ones of a family.
    pub fn fill(
        &mut self,
        name: &str,
        many: usize,
        make: impl FnMut(&mut Random) -> Option<New<I>>,
    ) -> Result<(), String> {
        let made = super::different(&format!("{}-{name}", I::SEED), many, make)?;
        for (i, new) in made.into_iter().enumerate() {
            self.add(format!("{name}-{i:02}"), new)?;
        }
        Ok(())
    }

    /// All of them, sorted by name.
    pub fn sorted(mut self) -> Vec<Written<I>> {
        self.0.sort_by(|a, b| a.name.cmp(&b.name));
        self.0
    }
}

/// An accepted vector.
pub struct Source {
    pub name: String,
    pub file: Vec<u8>,
    pub guard: Guard,
}

impl Source {
    fn of(vector: &Vector) -> Option<Source> {
        Some(Source {
            name: vector.name.clone(),
            file: vector.file.clone(),
            guard: read(&vector.file, Limits::BASE).ok()?,
        })
    }

    pub fn tokens(&self) -> Vec<Token> {
        Draft::of(&self.guard).tokens(Limits::BASE)
    }
}

/// The accepted ones of these vectors, each file once.
pub fn sources<'v>(vectors: impl IntoIterator<Item = &'v Vector>) -> Vec<Source> {
    let mut sources: Vec<Source> = Vec::new();
    for source in vectors.into_iter().filter_map(Source::of) {
        if sources.iter().all(|other| other.file != source.file) {
            sources.push(source);
        }
    }
    sources
}

pub fn one_of<'s, T>(random: &mut Random, all: &'s [T]) -> Option<&'s T> {
    let all: Vec<&T> = all.iter().collect();
    random.pick(&all)
}

/// A place whose number has such a role.
pub fn place(random: &mut Random, tokens: &[Token], fits: impl Fn(Role) -> bool) -> Option<usize> {
    let fits = |&at: &usize| fits(tokens[at].role);
    let places: Vec<usize> = (0..tokens.len()).filter(fits).collect();
    random.pick(&places)
}

/// The calls as the text of their file, behind its header.
pub fn text<I: Input>(header: &str, all: &[Written<I>]) -> String {
    let mut text = header.to_string();
    for written in all {
        let answer = match &written.answer {
            Ok(file) => hex(file),
            Err(question) => format!("REFUSED {question}"),
        };
        let columns = written.input.columns().join("\t");
        text += &format!("{}\t{}\t{columns}\t{answer}\n", written.name, written.room);
    }
    text
}

/// Reads such a text.
pub fn parse<I: Input>(text: &str) -> Result<Vec<Written<I>>, String> {
    parse_lines(text, I::WHAT, parse_line)
}

fn parse_line<I: Input>(line: &str) -> Option<Written<I>> {
    let columns: Vec<&str> = line.split('\t').collect();
    let [name, room, input @ .., answer] = &columns[..] else {
        return None;
    };
    Some(Written {
        name: name.to_string(),
        room: room.parse().ok()?,
        input: I::parse(input)?,
        answer: match answer.strip_prefix("REFUSED ") {
            Some(question) => Err(question.parse().ok()?),
            None => Ok(unhex(answer)?),
        },
    })
}
