//! Stored bytes that aren't those of an accepted file. A number stands in the
//! stored order here: behind N the columns.

use crate::encode::{bytes, Role, Token};
use crate::list::LONGEST_FILE;
use crate::random::Random;
use crate::vectors::broken::{self, beyond};
use crate::vectors::unhex;
use crate::vectors::written::place;

/// The bytes with another number at this place.
fn with(tokens: &[Token], at: usize, number: u64) -> Vec<u8> {
    let mut tokens = tokens.to_vec();
    tokens[at].number = number;
    bytes(&tokens)
}

/// Every number before the end is as it was, and so is each that is asked of the
/// restored file before it.
pub fn cut(random: &mut Random, tokens: &[Token]) -> Option<Vec<u8>> {
    let mut bytes = bytes(tokens);
    bytes.truncate(random.below(bytes.len()));
    Some(bytes)
}

/// A number in a wrong form. A value may be larger than the others, so of it
/// only the form in one byte too many is taken.
pub fn wrong_form(random: &mut Random, tokens: &[Token]) -> Option<Vec<u8>> {
    let at = random.below(tokens.len());
    let mut number = bytes(&tokens[at..=at]);
    number = match tokens[at].role {
        Role::Value => {
            *number.last_mut()? |= 0x80;
            [number, vec![0]].concat()
        }
        _ => broken::wrong_form(random, &number),
    };
    Some([bytes(&tokens[..at]), number, bytes(&tokens[at + 1..])].concat())
}

pub fn wrong_count(random: &mut Random, tokens: &[Token]) -> Option<Vec<u8>> {
    let at = place(random, tokens, |role| matches!(role, Role::Count { .. }))?;
    let Role::Count { limit } = tokens[at].role else {
        return None;
    };
    Some(with(tokens, at, limit as u64 + 1 + beyond(random)))
}

/// A row keeps its length, unless the name is asked in the columns.
pub fn wrong_name(random: &mut Random, tokens: &[Token]) -> Option<Vec<u8>> {
    let names = |role| matches!(role, Role::Name { .. } | Role::Typed { .. });
    let at = place(random, tokens, names)?;
    let (Role::Name { things } | Role::Typed { things }) = tokens[at].role else {
        return None;
    };
    Some(with(tokens, at, things as u64 + beyond(random)))
}

pub fn wrong_kind(random: &mut Random, tokens: &[Token]) -> Option<Vec<u8>> {
    let at = place(random, tokens, |role| role == Role::Kind)?;
    Some(with(tokens, at, 4 + beyond(random)))
}

/// Another thing of those that are there. A built row of another type or variant
/// may be longer or shorter, and then the columns part elsewhere.
pub fn other_name(random: &mut Random, tokens: &[Token]) -> Option<Vec<u8>> {
    let names = |role| matches!(role, Role::Name { .. } | Role::Typed { .. });
    let at = place(random, tokens, names)?;
    let (Role::Name { things } | Role::Typed { things }) = tokens[at].role else {
        return None;
    };
    let name = random.below(things) as u64;
    (name != tokens[at].number).then(|| with(tokens, at, name))
}

/// Another kind that is listed: of a row, mostly one of another length.
pub fn other_kind(random: &mut Random, tokens: &[Token]) -> Option<Vec<u8>> {
    let at = place(random, tokens, |role| role == Role::Kind)?;
    let kind = random.below(4) as u64;
    (kind != tokens[at].number).then(|| with(tokens, at, kind))
}

/// Two numbers behind the types in each other's place.
pub fn exchanged(random: &mut Random, tokens: &[Token]) -> Option<Vec<u8>> {
    let first = tokens.iter().position(|token| token.role == Role::Kind)?;
    let mut draw = || first + random.below(tokens.len() - first);
    let (a, b) = (draw(), draw());
    let mut tokens = tokens.to_vec();
    let unlike = tokens[a].number != tokens[b].number;
    tokens.swap(a, b);
    unlike.then(|| bytes(&tokens))
}

/// Bytes behind the last line: they may be anything.
pub fn longer(random: &mut Random, tokens: &[Token]) -> Option<Vec<u8>> {
    let mut bytes = bytes(tokens);
    for _ in 0..=random.below(3) {
        bytes.push(random.bits() as u8);
    }
    if random.percent(15) {
        bytes.resize(LONGEST_FILE + 100 + random.below(900), 0x80);
    }
    Some(bytes)
}

/// Types that are likely to be refused.
pub fn weak_types(random: &mut Random, _: &[Token]) -> Option<Vec<u8>> {
    Some(broken::bad_types(random))
}

pub fn chance(random: &mut Random, tokens: &[Token]) -> Option<Vec<u8>> {
    let mut bytes = bytes(tokens);
    broken::change_byte(random, &mut bytes);
    Some(bytes)
}

/// Random bytes, of which most are small, often behind types that are taken.
pub fn noise(random: &mut Random, tokens: &[Token]) -> Option<Vec<u8>> {
    let kind = tokens.iter().position(|token| token.role == Role::Kind);
    let mut front = match kind {
        Some(first) if random.percent(70) => bytes(&tokens[..first]),
        _ => Vec::new(),
    };
    let (length, small) = (random.below(60), 2 + random.below(5));
    for _ in 0..length {
        front.push(match random.percent(97) {
            true => random.below(small) as u8,
            false => random.bits() as u8,
        });
    }
    Some(front)
}

/// Two types, numbers and lists of them, in document 01's cases.
const X: &str = "02 00 02 00 02 00 01";

/// Stored bytes with several faults, each with the length of its output buffer
/// and the number of the fault that is asked first.
pub fn orders() -> Vec<(String, Vec<u8>, usize, u8)> {
    let by_hand = [
        // Up to N before the columns, and 8 and 9 before N.
        ("types-before-count", "01 01 01 00 19", 8),
        ("count-before-kinds", "X 19 04", 4),
        // A kind is asked before the second number of a row before it.
        ("kind-before-type", "X 02 02 04 00", 6),
        ("kind-before-end", "X 02 04", 6),
        // A built row's type before the variable's before it, which is asked of the restored file.
        ("built-type-before-variable", "X 02 00 02 09 00", 7),
        ("built-type-named-before-fit", "X 02 00 02 09 02", 5),
        ("built-variant-before-variable", "X 02 00 02 09 01 02", 5),
        ("built-types-in-row-order", "X 02 02 02 00 02", 7),
        // The form of a later column before what an earlier number names.
        ("form-before-name", "X 02 00 03 09 00 80 00", 3),
        ("end-before-name", "X 02 00 02 09 01 01", 2),
        (
            "value-before-type",
            "X 01 01 01 ff ff ff ff ff ff ff ff ff 02",
            3,
        ),
        // In the restored file rows come before rows, a row's numbers in order, and lines behind them.
        ("constant-before-read", "X 02 01 03 01 09 00 01 01 00", 7),
        ("read-before-constant", "X 02 03 01 09 01 01 00 01 00", 5),
        ("term-before-variant", "X 02 00 03 00 00 09 09 00", 7),
        ("variant-before-position", "X 02 00 03 01 00 02 09 00", 5),
        ("part-before-part", "X 02 00 02 01 01 01 00 09 00", 7),
        ("row-before-lines", "X 01 01 01 00 21", 7),
        ("row-before-form", "X 01 00 02 80 00", 5),
        ("row-before-end", "X 01 00 02", 5),
        ("line-before-line", "X 01 00 01 02 02 00 02 04", 5),
        ("line-before-more", "X 01 00 01 01 04 00 00 00 00", 6),
    ];
    let case = |(name, text, question): (&str, &str, u8)| {
        let bytes = unhex(&text.replace('X', X)).unwrap_or_default();
        (name.to_string(), bytes, question)
    };
    let cases = by_hand.map(case).into_iter();
    let rooms = cases.flat_map(|(name, bytes, question)| {
        [("", LONGEST_FILE), ("-short", 0)]
            .map(|(short, room)| (format!("{name}{short}"), bytes.clone(), room, question))
    });
    rooms.collect()
}
