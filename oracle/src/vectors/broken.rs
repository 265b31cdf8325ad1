//! Files that are refused, and files with chance damage.

use super::families::enumeration;
use super::{profiles, Set, USUAL_BUDGET};
use crate::answer::{answer, Answer};
use crate::encode::{bytes, Draft, Role, Token};
use crate::guard::{Limits, FIELDS, VARIANTS_PER_TYPE};
use crate::random::{self, Random};
use crate::read::Question;
use crate::types::Type;

/// Files for each question.
const EACH: usize = 24;

pub(super) fn add(set: &mut Set) {
    let mut random = Random::named("refused");
    // The questions that are asked at a number.
    for question in Question::ALL[1..7].iter().copied() {
        fill(set, "refused", question, || damage(&mut random, question));
    }
    for question in [Question::DefaultsExist, Question::FieldsCanGrow] {
        fill(set, "refused", question, || bad_types(&mut random));
    }
    fill(set, "refused", Question::FileEnded, || {
        too_long(&mut random)
    });
    limits(set);
    prefixes(set);
    chance(set);
}

/// Takes files from `make` until enough are refused as wanted. The budget
/// doesn't matter then, so it varies.
pub(super) fn fill(
    set: &mut Set,
    prefix: &str,
    question: Question,
    mut make: impl FnMut() -> Vec<u8>,
) {
    let mut files: Vec<Vec<u8>> = Vec::new();
    while files.len() < EACH {
        let file = make();
        let refused = answer(&file, 0, Limits::BASE) == Answer::Refused(question);
        if refused && !files.contains(&file) {
            files.push(file);
        }
    }
    let budgets = [0, 1, USUAL_BUDGET, u32::MAX];
    for (i, file) in files.iter().enumerate() {
        let name = format!("{prefix}-{}-{i:03}", question.number());
        set.add(name, budgets[i % budgets.len()], file);
    }
}

/// An accepted guard, small or large.
pub fn whole(random: &mut Random) -> Draft {
    let profiles = profiles::all();
    let profile = &profiles[random.below(profiles.len())];
    random::draft(random, profile)
}

/// An accepted file with one number made wrong.
pub fn damage(random: &mut Random, question: Question) -> Vec<u8> {
    let mut tokens = whole(random).tokens(Limits::BASE);
    let at = random.below(tokens.len());
    let token = &mut tokens[at];
    let beyond = beyond(random);
    match (question, token.role) {
        (Question::NumberEnds, _) => {
            let mut file = bytes(&tokens[..=at]);
            file.pop();
            return file;
        }
        (Question::NumberForm, _) => return respelled(random, &tokens, at),
        (Question::CountWithinLimits, Role::Count { limit }) => {
            token.number = limit as u64 + 1 + beyond;
        }
        (Question::NamedThingExists, Role::Name { things } | Role::Typed { things }) => {
            token.number = things as u64 + beyond;
        }
        (Question::KindListed, Role::Kind) => token.number = 4 + beyond,
        (Question::TypeFits, Role::Typed { things }) => {
            token.number = random.below(things) as u64;
        }
        _ => {}
    }
    let mut file = bytes(&tokens);
    // What follows isn't read any more, so it may be anything.
    if random.percent(30) {
        let keep = bytes(&tokens[..=at]).len();
        file.truncate(keep);
    }
    file
}

/// How far a number is beyond what it may be, less one.
pub(super) fn beyond(random: &mut Random) -> u64 {
    match random.below(4) {
        0 => u64::from(u32::MAX) - 300,
        1 => 128,
        _ => random.below(4) as u64,
    }
}

/// The file with one number in a wrong form.
fn respelled(random: &mut Random, tokens: &[Token], at: usize) -> Vec<u8> {
    let number = wrong_form(random, &bytes(&tokens[at..=at]));
    [bytes(&tokens[..at]), number, bytes(&tokens[at + 1..])].concat()
}

/// A number in a wrong form: in one byte too many, or another one, too large
/// or without an end.
pub(super) fn wrong_form(random: &mut Random, number: &[u8]) -> Vec<u8> {
    match random.below(3) {
        0 => {
            let mut longer = number.to_vec();
            longer[number.len() - 1] |= 0x80;
            longer.push(0x00);
            longer
        }
        1 => vec![0xff, 0x80, 0xff, 0x80, 0x10 + random.below(0x70) as u8],
        _ => vec![0x80 + random.below(0x80) as u8; 5],
    }
}

/// Types that are likely to lack a default or a field that can grow.
pub(super) fn weak_types(random: &mut Random) -> Draft {
    let many = 1 + random.below(6);
    let mut draft = Draft::default();
    for _ in 0..many {
        let mut ty = Type::default();
        let variants = if random.percent(20) {
            0
        } else {
            1 + random.below(4)
        };
        for _ in 0..variants {
            let fields = random.weighted(&[3, 3, 2, 1]);
            ty.variants
                .push((0..fields).map(|_| random.below(many)).collect());
        }
        draft.types.push(ty);
    }
    draft
}

/// A file of such types, which stops after them or goes on.
pub fn bad_types(random: &mut Random) -> Vec<u8> {
    let mut file = weak_types(random).bytes();
    let keep = file.len() - 2;
    match random.below(3) {
        0 => file.truncate(keep),
        1 => file[keep] = 0x80,
        _ => {}
    }
    file
}

/// An accepted file with something after it.
pub fn too_long(random: &mut Random) -> Vec<u8> {
    let mut file = whole(random).bytes();
    for _ in 0..=random.below(3) {
        file.push(random.bits() as u8);
    }
    if random.percent(10) {
        file.resize(1_024 + random.below(300), 0x80);
    }
    file
}

/// Each count at its limit and one above it.
fn limits(set: &mut Set) {
    let number_type = Type::default();
    let wide = |variants: usize| Type {
        variants: vec![vec![0; FIELDS]; variants],
    };
    for many in [Limits::BASE.types, Limits::BASE.types + 1] {
        let draft = Draft::with_types(vec![number_type.clone(); many]);
        set.draft(format!("limit-types-{many}"), &draft);
    }
    for many in [VARIANTS_PER_TYPE, VARIANTS_PER_TYPE + 1] {
        let draft = Draft::with_types(vec![number_type.clone(), wide(many)]);
        set.draft(format!("limit-variants-{many}"), &draft);
    }
    // The total is asked at the type that breaks it, before its variants.
    let sizes: [&[usize]; 11] = [
        &[16, 16, 15],
        &[16, 16, 16],
        &[16, 16, 16, 1],
        &[15, 16, 16, 2],
        &[1, 16, 16, 16],
        &[16, 1, 15, 16],
        &[8, 8, 8, 8, 8, 8],
        &[8, 8, 8, 8, 8, 9],
        &[9, 8, 8, 8, 8, 8],
        &[12, 12, 12, 13, 1],
        &[16, 16, 0, 16, 0, 3],
    ];
    for (i, sizes) in sizes.iter().enumerate() {
        let types = sizes.iter().map(|&size| enumeration(size)).collect();
        let total: usize = sizes.iter().sum();
        set.draft(
            format!("limit-total-{total}-{i:02}"),
            &Draft::with_types(types),
        );
    }
    for many in [FIELDS, FIELDS + 1] {
        let fields = Type {
            variants: vec![vec![0; many]],
        };
        let draft = Draft::with_types(vec![number_type.clone(), fields]);
        set.draft(format!("limit-fields-{many}"), &draft);
    }
    for many in [Limits::BASE.terms, Limits::BASE.terms + 1] {
        let mut draft = Draft::with_types(vec![number_type.clone()]);
        draft.variables(0, many);
        set.draft(format!("limit-terms-{many}"), &draft);
    }
    for many in [Limits::BASE.lines, Limits::BASE.lines + 1] {
        let mut draft = Draft::with_types(vec![number_type.clone()]);
        let terms = draft.variables(0, 2);
        for _ in 0..many {
            draft.unequal(terms[0], terms[1]);
        }
        set.draft(format!("limit-lines-{many}"), &draft);
    }
}

/// Every beginning of one file that holds each kind of row and line.
fn prefixes(set: &mut Set) {
    let mut draft = Draft::new(&[&[], &[&[], &[0, 1]], &[&[], &[]]]);
    let x = draft.variable(1);
    let c = draft.constant(0, 1_000_000);
    let built = draft.built(1, 1, &[c, x]);
    let tail = draft.read(x, 1, 1);
    draft.equal(built, tail);
    draft.unequal(x, tail);
    draft.is(x, 1);
    draft.isnt(built, 0);
    let file = draft.bytes();
    for length in 0..=file.len() {
        set.add(format!("prefix-{length:02}"), USUAL_BUDGET, &file[..length]);
    }
}

/// One byte is changed, dropped or put in.
pub(super) fn change_byte(random: &mut Random, bytes: &mut Vec<u8>) {
    let at = random.below(bytes.len());
    match random.below(4) {
        0 => {
            bytes.remove(at);
        }
        1 => bytes.insert(at, random.below(5) as u8),
        2 => bytes[at] ^= 1 << random.below(8),
        _ => bytes[at] = random.below(6) as u8,
    }
}

/// Accepted files with one byte changed, dropped or put in: any answer.
fn chance(set: &mut Set) {
    let mut random = Random::named("damaged");
    let mut kept = 0;
    while kept < 120 {
        let mut file = whole(&mut random).bytes();
        change_byte(&mut random, &mut file);
        // Long searches have their own family.
        if !matches!(answer(&file, 300, Limits::BASE), Answer::Spent { .. }) {
            set.add(format!("damaged-{kept:03}"), USUAL_BUDGET, &file);
            kept += 1;
        }
    }
    let mut zeros = vec![0x06];
    zeros.resize(2_000, 0x00);
    set.add("damaged-zeros", USUAL_BUDGET, &zeros);
}
