//! Merged guards of request #107: what they say, and the kept ones.

mod kept;
mod messages;

use std::collections::BTreeMap;

use messages::{holds, small_messages, tiny, value, Message};
use oracle::answer::{answer_to, Answer};
use oracle::guard::{Guard, Limits, Row};
use oracle::list::LONGEST_FILE;
use oracle::merge::{merge, variables, Refusal};
use oracle::random::{draft, Profile, Random, Types};
use oracle::read::read;
use oracle::vectors::merges::{parse, text, thinned, with_types, Merged};
use oracle::vectors::profiles;

fn guard(file: &[u8]) -> Guard {
    read(file, Limits::BASE).expect("an accepted file")
}

/// Does the guard hold with these messages for its variables, in order?
fn satisfied(guard: &Guard, variables: &[Message]) -> bool {
    let mut variables = variables.iter();
    let mut values = Vec::new();
    for row in 0..guard.rows.len() {
        let known = value(guard, row, &values);
        let message = known.or_else(|| variables.next().cloned());
        values.push(message.expect("a message for each variable"));
    }
    guard.lines.iter().all(|line| holds(line, &values))
}

/// A small message for each variable.
fn assignment(random: &mut Random, guard: &Guard, small: &[Vec<Message>]) -> Vec<Message> {
    let variables = variables(guard).into_iter();
    let mut message = |variable: usize| {
        let all = &small[guard.row_types[variable]];
        all[random.below(all.len())].clone()
    };
    variables.map(&mut message).collect()
}

/// "An assignment satisfies the merged guard exactly if its parts satisfy the
/// two." The k'th variable of either is the k'th of the merged guard.
#[test]
fn an_assignment_satisfies_both_or_not_the_merged_one() {
    let mut random = Random::named("assignments");
    let (mut both, mut one, mut neither) = (0, 0, 0);
    for _ in 0..600 {
        let mut profile = Profile {
            lines: 0..=2,
            ..tiny([3, 1, 2, 4], [3, 4, 1, 2])
        };
        let first = draft(&mut random, &profile);
        profile.types = Types::Given(first.types.clone());
        let second = draft(&mut random, &profile).bytes();
        let Ok(merged) = merge(&first.bytes(), &second, Limits::BASE) else {
            continue;
        };
        let [first, second, merged] = [&first.bytes(), &second, &merged].map(|file| guard(file));
        let small = small_messages(&merged);
        for _ in 0..20 {
            let messages = assignment(&mut random, &merged, &small);
            let parts = [&first, &second].map(|guard| satisfied(guard, &messages));
            assert_eq!(satisfied(&merged, &messages), parts == [true, true]);
            match parts.into_iter().filter(|&part| part).count() {
                2 => both += 1,
                1 => one += 1,
                _ => neither += 1,
            }
        }
    }
    assert!(
        both > 500 && one > 500 && neither > 500,
        "{both} {one} {neither}"
    );
}

/// What can't hold alone can't hold with another.
#[test]
fn a_merged_guard_holds_only_if_both_do() {
    let mut random = Random::named("merged verdicts");
    let (mut sat, mut unsat, mut new) = (0, 0, 0);
    for profile in profiles::all() {
        for _ in 0..120 {
            let first = draft(&mut random, &profile);
            let second = with_types(&mut random, &first.types);
            let Ok(file) = merge(&first.bytes(), &second.bytes(), Limits::BASE) else {
                continue;
            };
            let parts = [first, second].map(|draft| can_hold(&guard(&draft.bytes())));
            match (can_hold(&guard(&file)), parts) {
                (Some(true), _) => {
                    assert_eq!(parts, [Some(true); 2]);
                    sat += 1;
                }
                (Some(false), [Some(true), Some(true)]) => new += 1,
                (Some(false), _) => unsat += 1,
                (None, _) => {}
            }
        }
    }
    assert!(sat > 50 && unsat > 50 && new > 10, "{sat}, {unsat}, {new}");
}

/// The verdict, if it takes few nodes.
fn can_hold(guard: &Guard) -> Option<bool> {
    match answer_to(guard, 500) {
        Answer::Sat { .. } => Some(true),
        Answer::Unsat { .. } => Some(false),
        Answer::Refused(_) | Answer::Spent { .. } => None,
    }
}

/// A guard says the same twice as once, and so it does with lines less.
#[test]
fn a_guard_with_itself() {
    let mut random = Random::named("merged with itself");
    let mut merged = 0;
    for profile in profiles::all() {
        for _ in 0..20 {
            let file = draft(&mut random, &profile).bytes();
            let once = guard(&file);
            let less = thinned(&mut random, &once).bytes();
            for other in [&file, &less] {
                match merge(&file, other, Limits::BASE) {
                    Ok(twice) => {
                        let verdicts = [&once, &guard(&twice)].map(can_hold);
                        let known = verdicts.iter().all(Option::is_some);
                        assert!(!known || verdicts[0] == verdicts[1], "{file:02x?}");
                        merged += 1;
                    }
                    Err(refusal) => assert_eq!(refusal, Refusal::TooMany),
                }
            }
        }
    }
    assert!(merged > 100, "{merged}");
}

/// What two accepted guards have in common: the variables that are taken as
/// one, those that only one has, and whether one is behind other rows.
#[derive(Default, Debug)]
struct Seen {
    shared: usize,
    only_first: usize,
    only_second: usize,
    behind: usize,
    exact: usize,
    longest: usize,
}

impl Seen {
    fn add(&mut self, pair: &Merged, file: &[u8]) {
        let [first, second] = [&pair.input.first, &pair.input.second].map(|file| guard(file));
        let (own, others) = (variables(&first), variables(&second));
        let shared = own.len().min(others.len());
        self.shared += usize::from(shared > 0);
        self.only_first += usize::from(own.len() > shared && shared > 0);
        self.only_second += usize::from(others.len() > shared && shared > 0);
        let behind = |row: usize| !matches!(second.rows[row], Row::Variable { .. });
        let last = others.get(shared.wrapping_sub(1)).copied();
        self.behind += usize::from(last.is_some_and(|last| (0..last).any(behind)));
        self.exact += usize::from(file.len() == pair.room);
        self.longest = self.longest.max(file.len());
    }
}

fn kept() -> Vec<Merged> {
    kept::load("merges.txt", parse, text)
}

#[test]
fn kept_answers_are_those_of_the_merge() {
    let mut refused: BTreeMap<u8, usize> = BTreeMap::new();
    let (mut files, mut seen) = (0, Seen::default());
    for pair in kept() {
        match kept::answered(&pair) {
            Ok(file) => {
                guard(file);
                files += 1;
                seen.add(&pair, file);
            }
            Err(question) => *refused.entry(*question).or_default() += 1,
        }
    }
    let questions: Vec<u8> = refused.keys().copied().collect();
    assert_eq!(questions, [2, 3, 4, 5, 6, 7, 8, 9, 10, 14, 15, 16]);
    assert!(refused.values().all(|&many| many >= 12), "{refused:?}");
    assert!(files >= 500 && seen.exact >= 150, "{files}, {seen:?}");
    assert!(seen.shared >= 300 && seen.behind >= 40, "{seen:?}");
    assert!(seen.only_first >= 50 && seen.only_second >= 50, "{seen:?}");
    assert_eq!(seen.longest, LONGEST_FILE);
}

#[test]
fn kept_pairs_are_sorted_by_their_names() {
    assert!(kept::sorted(&kept()));
}
