//! Lists of request #102 with the writer's answers: those of the accepted
//! vectors, damaged ones, and other output buffers. Request #112: those with
//! several number types are refused.

mod damage;

use super::written::{self, one_of, sources, Answer, Input, Source};
use super::{is_drawn_from, Vector};
use crate::encode::{self, Token};
use crate::guard::Limits;
use crate::list::{self, LONGEST_FILE};
use crate::random::{edge_value, far_value, Random};
use crate::read::Question;
use crate::types::one_number_type;

/// Of the accepted vectors each so many'th has its list kept, and each case of
/// document 01.
const KEPT: usize = 4;

/// The usual length of the output buffer: the longest file with values of 32
/// bits, as lists that were there before request #104 have it.
const ROOM: usize = 465;

const HEADER: &str = "\
# Lists of numbers with the writer's answers, written by `oracle lists`.
# NAME, ROOM, LIST and ANSWER, separated by single tabs; ROOM is the length of the output
# buffer in bytes, LIST has spaces between its numbers and is - if empty. ANSWER is the guard
# file in hexadecimal, or REFUSED and the refusal's number.
";

/// Request #112: the writer's refusal of several number types.
const SEVERAL_NUMBERS: u8 = Question::OneNumberType as u8;

/// A list with the writer's answer.
pub type Written = written::Written<Vec<i64>>;

type Set = written::Set<Vec<i64>>;

impl Input for Vec<i64> {
    const WHAT: &'static str = "a list";
    const SEED: &'static str = "lists";

    fn answer(&self, room: usize) -> Answer {
        answer(self, room)
    }

    fn columns(&self) -> Vec<String> {
        vec![list::text(self)]
    }

    fn parse(columns: &[&str]) -> Option<Vec<i64>> {
        match columns {
            [list] => list::parse(list),
            _ => None,
        }
    }
}

/// The writer's answer.
pub fn answer(list: &[i64], room: usize) -> Answer {
    list::write_within(list, room, Limits::BASE).map_err(|refusal| refusal.number())
}

/// Makes another list from the numbers of an accepted file, if they allow it.
type Make = fn(&mut Random, &[Token]) -> Option<Vec<i64>>;

/// What is known of the answers to a family of lists.
#[derive(Clone, Copy, PartialEq, Eq)]
enum Answers {
    /// The way the lists are made settles this refusal, unless they are made of
    /// several number types: then 18 may come before it.
    Settled(u8),
    /// Only those with this refusal are taken.
    Taken(u8),
    /// Settled until request #104: "the writer's 3 no longer occurs". Since then
    /// what follows decides.
    Formerly,
    Any,
}

use Answers::{Any, Formerly, Settled, Taken};

impl Answers {
    /// What the way of a list settles, made of this source.
    fn settled(self, source: &Source) -> Option<Answer> {
        match self {
            Settled(question) if one_number(source) || question == SEVERAL_NUMBERS => {
                Some(Err(question))
            }
            _ => None,
        }
    }
}

/// A family of lists: its name, how many, and their answers.
type Family = (&'static str, usize, Answers, Make);

const FAMILIES: [Family; 13] = [
    ("cut", 60, Settled(2), damage::cut),
    ("far-value", 60, Formerly, damage::far_value),
    ("wrong-count", 60, Settled(4), damage::wrong_count),
    ("wrong-name", 60, Settled(5), damage::wrong_name),
    ("wrong-kind", 40, Settled(6), damage::wrong_kind),
    ("other-type", 48, Taken(7), damage::other_name),
    ("no-default", 24, Taken(8), damage::weak_types),
    ("finite-fields", 24, Taken(9), damage::weak_types),
    ("longer", 40, Settled(10), damage::longer),
    ("other-name", 20, Any, damage::other_name),
    ("chance", 100, Any, damage::chance),
    ("noise", 30, Any, damage::noise),
    (
        "several-numbers",
        60,
        Settled(SEVERAL_NUMBERS),
        damage::several_numbers,
    ),
];

/// A list that isn't quite that of these numbers, if they allow it.
pub fn damaged(random: &mut Random, tokens: &[Token]) -> Option<Vec<i64>> {
    let (_, _, _, make) = FAMILIES[random.below(FAMILIES.len())];
    make(random, tokens)
}

/// All lists, sorted by name, or why they can't be made from these vectors.
pub fn all(vectors: &[Vector]) -> Result<Vec<Written>, String> {
    let (drawn, later): (Vec<_>, Vec<_>) = vectors.iter().partition(|v| is_drawn_from(v));
    let (sources, later) = (sources(drawn), sources(later));
    let mut set = Set::default();
    whole(&mut set, &sources)?;
    values(&mut set, &sources)?;
    far(&mut set, &sources, &later)?;
    for (name, many, answers, make) in FAMILIES {
        set.fill(name, many, |random| {
            let source = one_of(random, &sources)?;
            let list = make(random, &source.tokens())?;
            match answers {
                Taken(question) if answer(&list, ROOM) != Err(question) => None,
                _ => Some((list, ROOM, answers.settled(source))),
            }
        })?;
    }
    outputs(&mut set, &sources)?;
    Ok(set.sorted())
}

fn list_of(source: &Source) -> Vec<i64> {
    list::of_tokens(&source.tokens())
}

/// Request #112: is at most one of its types a number type?
fn one_number(source: &Source) -> bool {
    one_number_type(&source.guard.types)
}

/// The answer to its list, which has this one if its types may be written.
fn settled(source: &Source, answer: Answer) -> Answer {
    if one_number(source) {
        answer
    } else {
        Err(SEVERAL_NUMBERS)
    }
}

/// The lists of accepted vectors, in buffers that fit exactly and others.
fn whole(set: &mut Set, sources: &[Source]) -> Result<(), String> {
    for (i, source) in sources.iter().enumerate() {
        let long = source.file.len() == ROOM;
        if i % KEPT != 0 && !long && !source.name.starts_with("case-") {
            continue;
        }
        let room = match i / KEPT % 3 {
            0 => source.file.len(),
            1 => ROOM,
            _ => ROOM + i,
        };
        let expected = settled(source, Ok(source.file.clone()));
        let new = (list_of(source), room, Some(expected));
        set.add(format!("of-{}", source.name), new)?;
    }
    Ok(())
}

/// Other constants, near the ends of each length that they may have.
fn values(set: &mut Set, sources: &[Source]) -> Result<(), String> {
    set.fill("value", 60, |random| {
        let source = one_of(random, sources)?;
        let tokens = damage::other_value(random, &source.tokens(), edge_value)?;
        let file = encode::bytes(&tokens);
        let room = file.len();
        let expected = settled(source, Ok(file));
        Some((list::of_tokens(&tokens), room, Some(expected)))
    })
}

/// Request #104: the lists of its vectors and of later ones, values near
/// the ends of each length beyond 32 bits, and output buffers that lack a
/// byte of theirs.
fn far(set: &mut Set, sources: &[Source], later: &[Source]) -> Result<(), String> {
    for (i, source) in later.iter().enumerate() {
        let room = match i % 3 {
            0 => source.file.len(),
            1 => LONGEST_FILE,
            _ => LONGEST_FILE + i,
        };
        let expected = settled(source, Ok(source.file.clone()));
        let new = (list_of(source), room, Some(expected));
        set.add(format!("of-{}", source.name), new)?;
    }
    for (name, many, short) in [("far-constant", 60, 0), ("far-short-output", 20, 1)] {
        set.fill(name, many, |random| {
            let source = one_of(random, sources)?;
            let tokens = damage::other_value(random, &source.tokens(), far_value)?;
            let file = encode::bytes(&tokens);
            let room = file.len() - short;
            let expected = settled(source, if short == 0 { Ok(file) } else { Err(14) });
            Some((list::of_tokens(&tokens), room, Some(expected)))
        })?;
    }
    Ok(())
}

/// Output buffers that are too short, also for lists that are refused
/// before that is asked.
fn outputs(set: &mut Set, sources: &[Source]) -> Result<(), String> {
    set.fill("short-output", 60, |random| {
        let source = one_of(random, sources)?;
        let length = source.file.len();
        let room = [0, random.below(length), length - 1, length - 1][random.below(4)];
        Some((list_of(source), room, Some(settled(source, Err(14)))))
    })?;
    set.fill("refused-short-output", 36, |random| {
        let source = one_of(random, sources)?;
        let (_, _, answers, make) = FAMILIES[random.below(FAMILIES.len())];
        if matches!(answers, Taken(_) | Any) {
            return None;
        }
        let list = make(random, &source.tokens())?;
        Some((list, random.below(3), answers.settled(source)))
    })
}

/// The lists as the text of `lists.txt`.
pub fn text(all: &[Written]) -> String {
    written::text(HEADER, all)
}

/// Reads the text of `lists.txt`.
pub fn parse(text: &str) -> Result<Vec<Written>, String> {
    written::parse(text)
}
