//! Lists that aren't those of an accepted file.

use crate::encode::{Role, Token};
use crate::guard::Limits;
use crate::list::of_tokens;
use crate::number;
use crate::random::Random;
use crate::vectors::broken;
use crate::vectors::written::place;

/// Any number of 64 bits, small ones and those at the ends more often.
fn any(random: &mut Random) -> i64 {
    match random.below(5) {
        0 => random.below(6) as i64,
        1 => random.below(600) as i64 - 300,
        2 => far(random),
        3 => [i64::MIN, i64::MAX, -1][random.below(3)],
        _ => random.bits() as i64,
    }
}

/// A number that isn't below `bound`, which is small: next to it, negative, or
/// one that would be below it by its low bits.
fn outside(random: &mut Random, bound: usize) -> i64 {
    let inside = random.below(bound.max(1)) as i64;
    let bound = bound as i64;
    match random.below(6) {
        0 => bound + random.below(3) as i64,
        1 => -1 - random.below(4) as i64,
        2 => inside + (1 << [8, 16, 31, 32, 33][random.below(5)]),
        3 => inside - (1 << [8, 16, 31, 32, 33][random.below(5)]),
        4 => i64::MIN + inside,
        _ => i64::MAX - inside,
    }
}

/// A number beyond 32 bits: next to their ends, one whose low 32 bits are
/// small, or of any size.
fn far(random: &mut Random) -> i64 {
    let small = random.below(4) as i64;
    match random.below(6) {
        0 => i64::from(i32::MAX) + 1 + small,
        1 => i64::from(i32::MIN) - 1 - small,
        2 => (1 << 32) - 1 + small,
        3 => -(1 << 32) - small,
        4 => i64::MAX - small,
        _ => i64::MIN + small,
    }
}

/// The list with another number at this place. What follows isn't asked any
/// more, so it may be anything.
fn ends_at(random: &mut Random, tokens: &[Token], at: usize, number: i64) -> Vec<i64> {
    let mut list = of_tokens(tokens);
    list[at] = number;
    if random.percent(30) {
        list.truncate(at + 1);
    }
    if random.percent(30) {
        list[at + 1..].fill_with(|| any(random));
    }
    list
}

pub fn cut(random: &mut Random, tokens: &[Token]) -> Option<Vec<i64>> {
    Some(of_tokens(&tokens[..random.below(tokens.len())]))
}

/// A constant beyond 32 bits, and mostly something wrong behind it.
pub fn far_value(random: &mut Random, tokens: &[Token]) -> Option<Vec<i64>> {
    let at = place(random, tokens, |role| role == Role::Value)?;
    let number = far(random);
    Some(ends_at(random, tokens, at, number))
}

/// A number where so many are allowed that isn't one of them.
fn wrong(
    random: &mut Random,
    tokens: &[Token],
    allowed: impl Fn(Role) -> Option<usize>,
) -> Option<Vec<i64>> {
    let at = place(random, tokens, |role| allowed(role).is_some())?;
    let number = outside(random, allowed(tokens[at].role)?);
    Some(ends_at(random, tokens, at, number))
}

pub fn wrong_count(random: &mut Random, tokens: &[Token]) -> Option<Vec<i64>> {
    wrong(random, tokens, |role| match role {
        Role::Count { limit } => Some(limit + 1),
        _ => None,
    })
}

pub fn wrong_name(random: &mut Random, tokens: &[Token]) -> Option<Vec<i64>> {
    wrong(random, tokens, |role| match role {
        Role::Name { things } | Role::Typed { things } => Some(things),
        _ => None,
    })
}

pub fn wrong_kind(random: &mut Random, tokens: &[Token]) -> Option<Vec<i64>> {
    wrong(random, tokens, |role| (role == Role::Kind).then_some(4))
}

/// Another name where a type has to fit.
pub fn other_name(random: &mut Random, tokens: &[Token]) -> Option<Vec<i64>> {
    let at = place(random, tokens, |role| matches!(role, Role::Typed { .. }))?;
    let Role::Typed { things } = tokens[at].role else {
        return None;
    };
    let mut list = of_tokens(tokens);
    let name = random.below(things) as i64;
    let other = list[at] != name;
    list[at] = name;
    other.then_some(list)
}

/// Numbers behind the last line: they may be anything.
pub fn longer(random: &mut Random, tokens: &[Token]) -> Option<Vec<i64>> {
    let mut list = of_tokens(tokens);
    for _ in 0..=random.below(3) {
        list.push(any(random));
    }
    if random.percent(10) {
        list.resize(500 + random.below(300), 0);
    }
    Some(list)
}

/// One number changed, dropped, put in or doubled.
pub fn chance(random: &mut Random, tokens: &[Token]) -> Option<Vec<i64>> {
    let mut list = of_tokens(tokens);
    let at = random.below(list.len());
    match random.below(6) {
        0 => {
            list.remove(at);
        }
        1 => list.insert(at, any(random)),
        2 => list.insert(at, list[at]),
        3 => list[at] = any(random),
        4 => list[at] ^= 1 << random.below(64),
        _ => list[at] = random.below(6) as i64,
    }
    Some(list)
}

/// Random numbers, of which most are small.
pub fn noise(random: &mut Random, _: &[Token]) -> Option<Vec<i64>> {
    let (length, small) = (random.below(40), 2 + random.below(5));
    let mut number = |_| match random.percent(97) {
        true => random.below(small) as i64,
        false => any(random),
    };
    Some((0..length).map(&mut number).collect())
}

/// The numbers with other constants.
pub fn other_value(
    random: &mut Random,
    tokens: &[Token],
    value: fn(&mut Random) -> i64,
) -> Option<Vec<Token>> {
    place(random, tokens, |role| role == Role::Value)?;
    let mut tokens = tokens.to_vec();
    for token in &mut tokens {
        if token.role == Role::Value {
            token.number = number::fold(value(random));
        }
    }
    Some(tokens)
}

/// Types that are likely to be refused; the list stops after them or goes on.
pub fn weak_types(random: &mut Random, _: &[Token]) -> Option<Vec<i64>> {
    let mut list = of_tokens(&broken::weak_types(random).tokens(Limits::BASE));
    let keep = list.len() - 2;
    match random.below(3) {
        0 => list.truncate(keep),
        1 => list[keep] = any(random),
        _ => {}
    }
    Some(list)
}

/// Two number types or more, among types of one message; behind them nothing,
/// anything, or a guard without rows and lines.
pub fn several_numbers(random: &mut Random, _: &[Token]) -> Option<Vec<i64>> {
    let many = 2 + random.below(Limits::BASE.types - 1);
    let mut list = vec![many as i64];
    let mut numbers = 0;
    for _ in 0..many {
        if random.percent(60) {
            list.push(0);
            numbers += 1;
        } else {
            list.extend([1, 0]);
        }
    }
    match random.below(3) {
        0 => {}
        1 => list.extend((0..=random.below(6)).map(|_| any(random))),
        _ => list.extend([0, 0]),
    }
    (numbers >= 2).then_some(list)
}
