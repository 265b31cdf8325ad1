//! Files and stored bytes with the answers of request #111's two calls: files of
//! the vectors stored and given back, stored bytes with damage, and other output
//! buffers.

mod damage;

use super::written::{self, one_of, sources, Answer, Input, Source};
use super::{broken, hex, unhex, Vector};
use crate::columns::{restore, store, stored_tokens, within};
use crate::encode::{self, Token};
use crate::guard::{Guard, Limits};
use crate::list::LONGEST_FILE;
use crate::random::Random;
use crate::read::{read, Question};

/// Of the accepted vectors each so many'th is stored and given back, and each
/// case of document 01.
const KEPT: usize = 8;

/// Files for each question that storing asks.
const EACH_QUESTION: usize = 8;

const HEADER: &str = "\
# Bytes with the answers of the store and of the way back, written by `oracle columns`.
# NAME, ROOM, CALL, BYTES and ANSWER, separated by single tabs; ROOM is the length of the output
# buffer in bytes, CALL is store or restore, BYTES are the file or the stored bytes in
# hexadecimal, - if empty. ANSWER is what is written in hexadecimal, or REFUSED and the
# refusal's number.
";

/// One of the two calls.
#[derive(Clone, Copy, Debug, PartialEq, Eq)]
pub enum Way {
    Store,
    Restore,
}

impl Way {
    fn word(self) -> &'static str {
        match self {
            Way::Store => "store",
            Way::Restore => "restore",
        }
    }
}

/// A call with the bytes that it is given.
#[derive(Clone, Debug, PartialEq, Eq)]
pub struct Asked {
    pub way: Way,
    pub bytes: Vec<u8>,
}

impl Asked {
    pub fn store(file: &[u8]) -> Asked {
        let bytes = file.to_vec();
        let way = Way::Store;
        Asked { way, bytes }
    }

    pub fn restore(stored: &[u8]) -> Asked {
        let bytes = stored.to_vec();
        let way = Way::Restore;
        Asked { way, bytes }
    }
}

/// Such a call with its answer.
pub type Column = written::Written<Asked>;

type Set = written::Set<Asked>;

impl Input for Asked {
    const WHAT: &'static str = "a call of the store";
    const SEED: &'static str = "columns";

    fn answer(&self, room: usize) -> Answer {
        let written = match self.way {
            Way::Store => store(&self.bytes, Limits::BASE),
            Way::Restore => restore(&self.bytes, Limits::BASE),
        };
        within(written, room).map_err(|refusal| refusal.number())
    }

    fn columns(&self) -> Vec<String> {
        vec![self.way.word().to_string(), hex(&self.bytes)]
    }

    fn parse(columns: &[&str]) -> Option<Asked> {
        let [way, bytes] = columns else {
            return None;
        };
        let mut ways = [Way::Store, Way::Restore].into_iter();
        let way = ways.find(|known| known.word() == *way)?;
        let bytes = unhex(bytes)?;
        Some(Asked { way, bytes })
    }
}

/// What is known of the answers to a family of stored bytes.
#[derive(Clone, Copy, PartialEq, Eq)]
enum Answers {
    /// The way the bytes are made settles this refusal.
    Settled(u8),
    /// Only those with this refusal are taken.
    Taken(u8),
    /// Only those that are given back are taken.
    Files,
    Any,
}

use Answers::{Any, Files, Settled, Taken};

/// Makes bytes from the numbers of a stored guard, if they allow it.
type Make = fn(&mut Random, &[Token]) -> Option<Vec<u8>>;

/// A family of stored bytes: its name, how many, and their answers.
type Family = (&'static str, usize, Answers, Make);

const FAMILIES: [Family; 15] = [
    ("cut", 60, Settled(2), damage::cut),
    ("wrong-form", 60, Settled(3), damage::wrong_form),
    ("wrong-count", 50, Settled(4), damage::wrong_count),
    ("wrong-name", 80, Settled(5), damage::wrong_name),
    ("wrong-kind", 50, Settled(6), damage::wrong_kind),
    ("longer", 40, Settled(10), damage::longer),
    ("other-type", 60, Taken(7), damage::other_name),
    ("no-default", 16, Taken(8), damage::weak_types),
    ("finite-fields", 16, Taken(9), damage::weak_types),
    ("other-name", 40, Any, damage::other_name),
    ("other-kind", 60, Any, damage::other_kind),
    ("other-kind-file", 20, Files, damage::other_kind),
    ("exchanged", 60, Any, damage::exchanged),
    ("chance", 120, Any, damage::chance),
    ("noise", 40, Any, damage::noise),
];

/// Bytes that aren't quite those stored of a guard, if its numbers allow it.
pub fn damaged(random: &mut Random, guard: &Guard) -> Option<Vec<u8>> {
    let (_, _, _, make) = FAMILIES[random.below(FAMILIES.len())];
    make(random, &stored_tokens(guard))
}

/// The bytes stored of an accepted vector.
fn stored(source: &Source) -> Vec<u8> {
    encode::bytes(&stored_tokens(&source.guard))
}

/// All calls, sorted by name, or why they can't be made from these vectors.
pub fn all(vectors: &[Vector]) -> Result<Vec<Column>, String> {
    let sources = sources(vectors);
    let mut set = Set::default();
    whole(&mut set, &sources)?;
    refused_files(&mut set, vectors, &sources)?;
    for (name, many, answers, make) in FAMILIES {
        set.fill(&format!("restore-{name}"), many, |random| {
            let source = one_of(random, &sources)?;
            let bytes = make(random, &stored_tokens(&source.guard))?;
            let asked = Asked::restore(&bytes);
            let answer = asked.answer(LONGEST_FILE);
            let settled = match answers {
                Settled(question) => Some(Err(question)),
                Taken(question) if answer != Err(question) => return None,
                Files if answer.is_err() => return None,
                _ => None,
            };
            Some((asked, LONGEST_FILE, settled))
        })?;
    }
    for (name, bytes, room, question) in damage::orders() {
        let new = (Asked::restore(&bytes), room, Some(Err(question)));
        set.add(format!("restore-order-{name}"), new)?;
    }
    files_as_stored(&mut set, &sources)?;
    outputs(&mut set, &sources)?;
    Ok(set.sorted())
}

/// Accepted vectors stored and given back, in buffers that fit exactly and
/// others: "the inverse gives the original bytes, for every accepted file".
fn whole(set: &mut Set, sources: &[Source]) -> Result<(), String> {
    for (i, source) in sources.iter().enumerate() {
        let long = source.file.len() == LONGEST_FILE;
        if i % KEPT != 0 && !long && !source.name.starts_with("case-") {
            continue;
        }
        let (file, bytes) = (&source.file, stored(source));
        let room = match i / KEPT % 3 {
            0 => file.len(),
            1 => LONGEST_FILE,
            _ => LONGEST_FILE + i,
        };
        let new = (Asked::store(file), room, Some(Ok(bytes.clone())));
        set.add(format!("store-of-{}", source.name), new)?;
        let new = (Asked::restore(&bytes), room, Some(Ok(file.clone())));
        set.add(format!("restore-of-{}", source.name), new)?;
    }
    Ok(())
}

/// "Storing asks 2 to 10 first": refused vectors, and accepted ones with a byte
/// changed.
fn refused_files(set: &mut Set, vectors: &[Vector], sources: &[Source]) -> Result<(), String> {
    for question in &Question::ALL[1..] {
        let refusal = |vector: &&Vector| read(&vector.file, Limits::BASE) == Err(*question);
        let refused: Vec<&Vector> = vectors.iter().filter(refusal).collect();
        let number = question.number();
        set.fill(&format!("store-refused-{number:02}"), EACH_QUESTION, |r| {
            let file = &r.pick(&refused)?.file;
            Some((Asked::store(file), LONGEST_FILE, Some(Err(number))))
        })?;
    }
    set.fill("store-chance", 60, |random| {
        let mut file = one_of(random, sources)?.file.clone();
        broken::change_byte(random, &mut file);
        Some((Asked::store(&file), LONGEST_FILE, None))
    })
}

/// Files that aren't stored, given back as if they were, and stored bytes stored
/// once more: any answer.
fn files_as_stored(set: &mut Set, sources: &[Source]) -> Result<(), String> {
    set.fill("restore-file", 60, |random| {
        let source = one_of(random, sources)?;
        let other = stored(source) != source.file;
        other.then(|| (Asked::restore(&source.file), LONGEST_FILE, None))
    })?;
    set.fill("store-stored", 60, |random| {
        let source = one_of(random, sources)?;
        let bytes = stored(source);
        (bytes != source.file).then(|| (Asked::store(&bytes), LONGEST_FILE, None))
    })
}

/// Output buffers that are too short, also for bytes that are refused before
/// that is asked.
fn outputs(set: &mut Set, sources: &[Source]) -> Result<(), String> {
    for way in [Way::Store, Way::Restore] {
        let name = format!("{}-short-output", way.word());
        set.fill(&name, 60, |random| {
            let source = one_of(random, sources)?;
            let length = source.file.len();
            let room = [0, random.below(length), length - 1, length - 1][random.below(4)];
            let asked = match way {
                Way::Store => Asked::store(&source.file),
                Way::Restore => Asked::restore(&stored(source)),
            };
            Some((asked, room, Some(Err(14))))
        })?;
    }
    set.fill("restore-refused-short-output", 40, |random| {
        let source = one_of(random, sources)?;
        let asked = Asked::restore(&damaged(random, &source.guard)?);
        let settled = asked.answer(LONGEST_FILE).err()?;
        Some((asked, random.below(3), Some(Err(settled))))
    })?;
    set.fill("store-refused-short-output", 20, |random| {
        let mut file = one_of(random, sources)?.file.clone();
        broken::change_byte(random, &mut file);
        let settled = read(&file, Limits::BASE).err()?.number();
        Some((Asked::store(&file), random.below(3), Some(Err(settled))))
    })
}

/// The calls as the text of `columns.txt`.
pub fn text(all: &[Column]) -> String {
    written::text(HEADER, all)
}

/// Reads the text of `columns.txt`.
pub fn parse(text: &str) -> Result<Vec<Column>, String> {
    written::parse(text)
}
