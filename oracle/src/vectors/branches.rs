//! Request #113: files of procedures with the numbers of their branches.

use super::{broken, hex, parse_lines, unhex, Vector};
use crate::branch::{branches, file, tokens, Codes, BRANCHES, BUFFER};
use crate::encode::{bytes, Draft, Role, Token};
use crate::guard::{Guard, Limits, Line};
use crate::random::Random;
use crate::read::{read, read_procedure, Question};
use crate::search::search;

/// Of the vectors that are accepted each so many'th gives procedures, and of the
/// others.
const ACCEPTED: usize = 16;
const REFUSED: usize = 40;

/// The most nodes that are searched for one number.
const MOST_NODES: u32 = 200;

/// Damaged files for each question, and how often they are drawn at the most.
const EACH: usize = 6;
const DRAWS: usize = 100_000;

const HEADER: &str = "\
# Files of procedures with the numbers of their branches, written by `oracle branches`.
# NAME, BUDGET, ROOM, HEX and ANSWER, separated by single tabs; ROOM is the length of the buffer
# in bytes, HEX the file, - if empty. ANSWER has a digit for each branch, then, behind a blank, one
# for each pair, - if there is none; or it is REFUSED and a number.
";

/// A call with its answer.
#[derive(Clone, Debug, PartialEq, Eq)]
pub struct Call {
    pub name: String,
    pub budget: u32,
    /// The length of the buffer.
    pub room: usize,
    pub file: Vec<u8>,
    pub answer: Result<Codes, u8>,
}

struct Set(Vec<Call>);

impl Set {
    fn add(&mut self, name: impl Into<String>, budget: u32, room: usize, file: &[u8]) {
        self.0.push(Call {
            name: name.into(),
            budget,
            room,
            file: file.to_vec(),
            answer: branches(file, budget, room).map_err(Question::number),
        });
    }
}

/// All calls, with files of these vectors.
pub fn all(vectors: &[Vector]) -> Vec<Call> {
    let mut set = Set(Vec::new());
    by_hand(&mut set);
    let (accepted, refused): (Vec<&Vector>, Vec<&Vector>) = vectors
        .iter()
        .partition(|vector| read(&vector.file, Limits::BASE).is_ok());
    let mut random = Random::named("procedures");
    for vector in accepted.into_iter().step_by(ACCEPTED) {
        let guard = read(&vector.file, Limits::BASE).expect("accepted");
        dealt(&mut set, &mut random, &vector.name, &guard);
    }
    // As a guard file's, and those that get further are no procedures either, mostly.
    for vector in refused.into_iter().step_by(REFUSED) {
        set.add(&vector.name, 1, BUFFER, &vector.file);
    }
    damaged_files(&mut set);
    set.0
}

/// A list and its tail, in document 01's types, and what comes behind them.
fn list_and_tail(behind: &[u8]) -> Vec<u8> {
    let front = [2, 0, 2, 0, 2, 0, 1, 2, 0, 1, 3, 0, 1, 1];
    [&front, behind].concat()
}

/// The number of branches around its limits, lines at and beyond theirs, and
/// buffers around the least length.
fn by_hand(set: &mut Set) {
    for many in 0..=BRANCHES as u8 + 1 {
        let empty = [&[many][..], &vec![0; usize::from(many)]].concat();
        set.add(format!("empty-{many}"), 1, BUFFER, &list_and_tail(&empty));
    }
    for (name, count) in [
        ("cut", &[0x88][..]),
        ("long", &[0x88, 0x00]),
        ("large", &[0xff, 0xff, 0xff, 0xff, 0x0f]),
        ("none", &[]),
    ] {
        set.add(format!("count-{name}"), 1, BUFFER, &list_and_tail(count));
    }
    // It is its own tail; it is its own tail and a cons; it isn't a cons.
    let three = list_and_tail(&[3, 1, 0, 0, 1, 2, 0, 0, 1, 2, 0, 1, 1, 3, 0, 1]);
    for budget in [0, 1, 2, 3, u32::MAX] {
        set.add(format!("three-{budget}"), budget, BUFFER, &three);
    }
    for room in [0, 1, BUFFER - 1, BUFFER + 1, 100] {
        set.add(format!("room-{room}"), 9, room, &three);
        set.add(format!("room-{room}-empty"), 9, room, &[]);
    }
    let nil = |many: u8| [&[many][..], &[2, 0, 0].repeat(usize::from(many))].concat();
    for (first, second) in [(0, 32), (32, 0), (32, 32), (33, 0), (0, 33)] {
        let file = list_and_tail(&[&[2][..], &nil(first), &nil(second)].concat());
        set.add(format!("lines-{first}-{second}"), 9, BUFFER, &file);
    }
    // All that a procedure may have.
    let most = [&[BRANCHES as u8][..], &nil(32).repeat(BRANCHES)].concat();
    set.add("most", 9, BUFFER, &list_and_tail(&most));
}

/// The lines of a guard dealt out to some branches, each to none, one or more.
pub fn deal(random: &mut Random, guard: &Guard) -> Vec<Vec<Line>> {
    let most = if random.percent(20) { BRANCHES } else { 4 };
    let many = 1 + random.below(most);
    let chance = [100 / many, 30, 60, 90][random.below(4)];
    let mut branch = |_| {
        let mut lines = guard.lines.clone();
        lines.retain(|_| random.percent(chance));
        lines
    };
    (0..many).map(&mut branch).collect()
}

/// A procedure of the guard's lines, with a budget that settles most numbers, and
/// with those around the nodes that one of them takes.
fn dealt(set: &mut Set, random: &mut Random, name: &str, guard: &Guard) {
    let file = file(&Draft::of(guard), &deal(random, guard));
    set.add(name, MOST_NODES, BUFFER, &file);
    let (alone, both) = read_procedure(&file, Limits::BASE)
        .expect("accepted")
        .asked();
    let asked = [alone, both].concat();
    let nodes = search(&asked[random.below(asked.len())], MOST_NODES)
        .1
        .nodes;
    for budget in [nodes - 1, nodes] {
        set.add(format!("{name}-{budget}"), budget, BUFFER + 3, &file);
    }
}

/// A procedure of a random guard, in its numbers.
fn whole(random: &mut Random) -> Vec<Token> {
    let draft = broken::whole(random);
    let guard = read(&draft.bytes(), Limits::BASE).expect("accepted");
    tokens(&draft, &deal(random, &guard))
}

/// The file of a procedure with these numbers, cut, longer, or with one of them
/// made wrong.
pub fn damaged(random: &mut Random, mut tokens: Vec<Token>) -> Vec<u8> {
    let at = random.below(tokens.len());
    match random.below(6) {
        0 => {
            let mut file = bytes(&tokens);
            file.truncate(random.below(file.len()));
            return file;
        }
        1 => return [bytes(&tokens), vec![random.below(3) as u8]].concat(),
        2 => {
            let mut number = bytes(&tokens[at..=at]);
            *number.last_mut().expect("a number has bytes") |= 0x80;
            let rest = bytes(&tokens[at + 1..]);
            return [bytes(&tokens[..at]), number, vec![0], rest].concat();
        }
        _ => {}
    }
    let token = &mut tokens[at];
    token.number = match token.role {
        Role::Count { limit } => limit as u64 + 1 + random.below(2) as u64,
        Role::Name { things } => (things + random.below(2)) as u64,
        Role::Typed { things } => random.below(things + 1) as u64,
        Role::Kind => random.below(6) as u64,
        Role::Value => random.bits() >> 1,
    };
    bytes(&tokens)
}

/// Damaged procedures, and files of weak types, for each question.
fn damaged_files(set: &mut Set) {
    let mut random = Random::named("damaged procedures");
    let wanted = [2, 3, 4, 5, 6, 7, 8, 9, 10, 19];
    let mut found = wanted.map(|_| 0);
    for _ in 0..DRAWS {
        let file = if random.percent(20) {
            broken::bad_types(&mut random)
        } else {
            let tokens = whole(&mut random);
            damaged(&mut random, tokens)
        };
        let Err(question) = read_procedure(&file, Limits::BASE) else {
            continue;
        };
        let place = wanted.iter().position(|&q| q == question.number());
        let Some(place) = place.filter(|&place| found[place] < EACH) else {
            continue;
        };
        let name = format!("damaged-{}-{}", question.number(), found[place]);
        found[place] += 1;
        set.add(name, 1, BUFFER, &file);
        if found == wanted.map(|_| EACH) {
            return;
        }
    }
}

fn digits(codes: &[u8]) -> String {
    match codes {
        [] => "-".to_string(),
        _ => codes.iter().map(u8::to_string).collect(),
    }
}

/// The calls as the text of `branches.txt`.
pub fn text(calls: &[Call]) -> String {
    let mut text = HEADER.to_string();
    for call in calls {
        let answer = match &call.answer {
            Ok(codes) => format!("{} {}", digits(&codes.branches), digits(&codes.pairs)),
            Err(question) => format!("REFUSED {question}"),
        };
        let (name, budget, room) = (&call.name, call.budget, call.room);
        text += &format!("{name}\t{budget}\t{room}\t{}\t{answer}\n", hex(&call.file));
    }
    text
}

/// Reads such a text.
pub fn parse(text: &str) -> Result<Vec<Call>, String> {
    parse_lines(text, "a procedure", parse_line)
}

fn parse_line(line: &str) -> Option<Call> {
    let columns: Vec<&str> = line.split('\t').collect();
    let [name, budget, room, file, answer] = columns[..] else {
        return None;
    };
    Some(Call {
        name: name.to_string(),
        budget: budget.parse().ok()?,
        room: room.parse().ok()?,
        file: unhex(file)?,
        answer: match answer.strip_prefix("REFUSED ") {
            Some(question) => Err(question.parse().ok()?),
            None => Ok(parse_codes(answer)?),
        },
    })
}

fn parse_codes(answer: &str) -> Option<Codes> {
    let codes = |digits: &str| -> Option<Vec<u8>> {
        let digit = |digit: char| digit.to_digit(10).map(|code| code as u8);
        match digits {
            "-" => Some(Vec::new()),
            _ => digits.chars().map(digit).collect(),
        }
    };
    let (branches, pairs) = answer.split_once(' ')?;
    Some(Codes {
        branches: codes(branches)?,
        pairs: codes(pairs)?,
    })
}
