//! Values over 64 bits, request #104: their forms, values that have one of a
//! row's two numbers in common, and what is shown beside them.

use super::{broken, families, numbers, profiles, Set, USUAL_BUDGET};
use crate::encode::{bytes, Draft, Role};
use crate::guard::{Limits, Line, Row};
use crate::number;
use crate::random::{self, Profile, Random};
use crate::read::Question;

/// What the names of these vectors begin with.
pub const PREFIX: &str = "far-";

/// As many values as 32 bits have.
const WORD: i64 = 1 << 32;

pub(super) fn add(set: &mut Set) {
    forms(set);
    order(set);
    pairs(set);
    heads(set);
    absent_reads(set);
    free(set);
    longest(set);
    refused(set);
    random_guards(set);
}

/// Has one of the rows a value that 32 bits don't hold?
pub fn is_far(rows: &[Row]) -> bool {
    let far = |value: i64| i32::try_from(value).is_err();
    let mut rows = rows.iter();
    rows.any(|row| matches!(row, Row::Constant { value, .. } if far(*value)))
}

/// The bytes before and after the value of a file with one constant.
const BEFORE: &[u8] = &[0x01, 0x00, 0x01, 0x01, 0x00];
const AFTER: &[u8] = &[0x00];

/// Right and wrong forms of numbers in five to eleven bytes.
fn spellings() -> Vec<Vec<u8>> {
    let mut spellings: Vec<Vec<u8>> = Vec::new();
    let mut write = |value| {
        let mut bytes = Vec::new();
        number::write(value, &mut bytes);
        spellings.push(bytes);
    };
    for bits in [32, 33, 34, 35, 42, 49, 56, 63] {
        for value in [(1 << bits) - 1, 1 << bits, (1 << bits) + 1] {
            write(value);
        }
    }
    write(u64::MAX - 1);
    write(u64::MAX);
    for byte in [0x80, 0xff] {
        for tenth in [0x00, 0x01, 0x02, 0x03, 0x40, 0x7f, 0x80, 0x81, 0x82, 0xff] {
            spellings.push([vec![byte; 9], vec![tenth]].concat());
        }
        for length in 5..10 {
            spellings.push([vec![byte; length], vec![0x00]].concat());
        }
        // An eleventh byte, after a tenth that would do without its bit 80.
        spellings.push([vec![byte; 9], vec![0x81, 0x00]].concat());
        spellings.push([vec![byte; 10], vec![0x01]].concat());
    }
    spellings.sort();
    spellings.dedup();
    spellings
}

fn forms(set: &mut Set) {
    for (i, spelling) in spellings().iter().enumerate() {
        let file = [BEFORE, spelling, AFTER].concat();
        set.add(format!("far-value-{i:02}"), USUAL_BUDGET, &file);
    }
    // "Counts and names keep five": the fifth byte with bit 80 is their end.
    let places: [(&str, &[u8]); 6] = [
        ("types", &[]),
        ("variants", &[0x01]),
        ("terms", &[0x01, 0x00]),
        ("type", &[0x01, 0x00, 0x01, 0x00]),
        ("kind", &[0x01, 0x00, 0x01]),
        ("lines", &[0x01, 0x00, 0x01, 0x00, 0x00]),
    ];
    for (place, before) in places {
        for length in [5, 6, 10] {
            let last = if length == 5 { 0x10 } else { 0x01 };
            let file = [before, &vec![0x80; length - 1], &[last], &[0x00; 3]].concat();
            set.add(format!("far-{place}-{length:02}"), USUAL_BUDGET, &file);
        }
        // Cut in the sixth byte, of which nothing is asked.
        let file = [before, &[0x80; 5]].concat();
        set.add(format!("far-{place}-cut"), USUAL_BUDGET, &file);
    }
    for (name, byte) in [("low", 0x80), ("high", 0xff)] {
        // A tenth byte with bit 80 ends the number, so the last two are cut after it.
        for length in 6..12 {
            let file = [BEFORE, &vec![byte; length]].concat();
            set.add(format!("far-cut-{name}-{length:02}"), USUAL_BUDGET, &file);
        }
    }
    // Every beginning of a file with the least value.
    let mut draft = Draft::new(&[&[]]);
    draft.constant(0, i64::MIN);
    let file = draft.bytes();
    for length in BEFORE.len()..file.len() {
        set.add(
            format!("far-prefix-{length:02}"),
            USUAL_BUDGET,
            &file[..length],
        );
    }
}

/// Two faults in one file, one of them about a long value.
fn order(set: &mut Set) {
    let most = [0xff, 0xff, 0xff, 0xff, 0xff, 0xff, 0xff, 0xff, 0xff, 0x01];
    let endless = [0xff; 10];
    let fieldless: &[u8] = &[0x01, 0x01, 0x00, 0x01, 0x01, 0x00];
    let constant: &[u8] = BEFORE;
    let no_type: &[u8] = &[0x01, 0x00, 0x01, 0x01, 0x01];
    for (i, file) in [
        // A constant of a variant type, or of none.
        [fieldless, &most, AFTER].concat(),
        [fieldless, &endless].concat(),
        [no_type, &endless].concat(),
        // A right value before a wrong count of lines, a wrong kind or nothing.
        [constant, &most, &[0x21]].concat(),
        [constant, &most, &[0x01, 0x04]].concat(),
        [constant, &most, &[0x01, 0x02, 0x00]].concat(),
        [constant, &most].concat(),
        [constant, &most, &[0x00, 0x00]].concat(),
        // A wrong one before them.
        [constant, &endless, &[0x21]].concat(),
    ]
    .iter()
    .enumerate()
    {
        set.add(format!("far-order-{i:02}"), 1, file);
    }
}

/// Values that have their low number in common with others, or the high one.
const VALUES: [i64; 16] = [
    i64::MIN,
    i64::MIN + 1,
    -WORD - 1,
    -WORD,
    -WORD + 1,
    -(1 << 31) - 1,
    -(1 << 31),
    -1,
    0,
    1,
    1 << 31,
    WORD - 1,
    WORD,
    WORD + 1,
    i64::MAX - 1,
    i64::MAX,
];

/// Constants equal and unequal to each other.
fn pairs(set: &mut Set) {
    numbers::pairs(set, "far", &VALUES);
    // One value in two number types: no line can name both.
    let mut draft = Draft::new(&[&[], &[], &[&[0, 1]]]);
    for value in VALUES {
        draft.constant(0, value);
    }
    let (x, y) = (draft.constant(0, WORD), draft.constant(1, WORD));
    let boxed = draft.built(2, 0, &[x, y]);
    let other = draft.constant(1, 2 * WORD);
    let other = draft.built(2, 0, &[x, other]);
    let mut equal = draft.clone();
    draft.unequal(boxed, other);
    set.draft("far-two-types", &draft);
    // Their parts are unlike constants then.
    equal.equal(boxed, other);
    set.draft("far-two-types-equal", &equal);
}

/// Equal lists whose n-th elements are given.
fn heads(set: &mut Set) {
    for depth in 0..=3 {
        for (kind, a, b) in [
            ("same", WORD + 1, WORD + 1),
            ("low", 1, WORD + 1),
            ("negative-low", -1, WORD - 1),
            ("high", WORD, WORD + 1),
            ("ends", i64::MIN, i64::MAX),
        ] {
            let mut draft = Draft::new(families::LISTS);
            let (x, y) = (draft.variable(1), draft.variable(1));
            let mut draw = |list: usize, value: i64| {
                let last = (0..depth).fold(list, |list, _| draft.read(list, 1, 1));
                let head = draft.read(last, 1, 0);
                let constant = draft.constant(0, value);
                draft.equal(head, constant);
            };
            draw(x, a);
            draw(y, b);
            set.draft(format!("far-heads-apart-{kind}-{depth}"), &draft);
            draft.equal(x, y);
            set.draft(format!("far-heads-{kind}-{depth}"), &draft);
        }
    }
}

/// A head of nil is 0, and not a value that only has the low number 0.
fn absent_reads(set: &mut Set) {
    for (i, value) in [WORD, -WORD, 2 * WORD, i64::MIN, WORD - 1]
        .into_iter()
        .enumerate()
    {
        let mut draft = Draft::new(families::LISTS);
        let list = draft.variable(1);
        let head = draft.read(list, 1, 0);
        let constant = draft.constant(0, value);
        draft.is(list, 0);
        let mut apart = draft.clone();
        draft.equal(head, constant);
        set.draft(format!("far-absent-{i}"), &draft);
        apart.unequal(head, constant);
        set.draft(format!("far-absent-unequal-{i}"), &apart);
        let zero = apart.constant(0, 0);
        apart.equal(head, zero);
        set.draft(format!("far-absent-zero-{i}"), &apart);
    }
}

/// Free numbers beside constants, all of them unequal.
fn free(set: &mut Set) {
    let low_one = [1, 2, 3, 4].map(|high| high * WORD + 1);
    let small_low = [1, 2, 3, 4].map(|low| WORD + low);
    let taken: [(&str, &[i64]); 6] = [
        ("ends", &[i64::MIN, i64::MAX, 0, 1]),
        ("low-one", &low_one),
        ("small-low", &small_low),
        ("negative-low", &[-1, WORD - 1, 2 * WORD - 1, -WORD - 1]),
        ("zero-low", &[0, WORD, -WORD, i64::MIN]),
        ("mixed", &[1, WORD + 2, 3, -WORD + 4]),
    ];
    for (name, values) in taken {
        let mut draft = Draft::new(&[&[], &[&[0]]]);
        let mut terms: Vec<usize> = values
            .iter()
            .map(|&value| draft.constant(0, value))
            .collect();
        terms.extend(draft.variables(0, 4));
        draft.all_unequal(&terms);
        set.draft(format!("far-free-{name}"), &draft);
        // Boxes of some of them; a free box needs a number of its own.
        let boxes: Vec<usize> = terms[2..5]
            .iter()
            .map(|&term| draft.built(1, 0, &[term]))
            .collect();
        let other = draft.variable(1);
        for &boxed in &boxes {
            draft.unequal(boxed, other);
        }
        set.draft(format!("far-boxes-{name}"), &draft);
        draft.equal(boxes[0], boxes[1]);
        set.draft(format!("far-boxes-equal-{name}"), &draft);
    }
    // Every constant alone: its row, with a free number beside it.
    for (i, value) in VALUES.into_iter().enumerate() {
        let mut draft = Draft::new(&[&[]]);
        let (constant, free) = (draft.constant(0, value), draft.variable(0));
        draft.unequal(constant, free);
        set.draft(format!("far-beside-{i:02}"), &draft);
    }
}

/// "The longest file is 585 bytes."
fn longest(set: &mut Set) {
    let mut draft = families::longest(|i| i64::MIN + i);
    set.draft("far-longest-585", &draft);
    let file = draft.bytes();
    set.add("far-longest-585-cut", USUAL_BUDGET, &file[..file.len() - 1]);
    set.add(
        "far-longest-585-longer",
        USUAL_BUDGET,
        &[file, vec![0x00]].concat(),
    );
    draft.lines[31] = Line::Equal(22, 23);
    set.draft("far-longest-585-unsat", &draft);
    // Values that have the low number in common.
    set.draft(
        "far-longest-585-low",
        &families::longest(|i| i64::MIN + i * WORD),
    );
}

/// Random guards with such values; the other profiles have few numbers.
pub fn profiles() -> Vec<Profile> {
    let values = vec![
        0,
        1,
        -1,
        1 << 31,
        WORD - 1,
        WORD,
        WORD + 1,
        -WORD,
        -WORD - 1,
        i64::MIN,
        i64::MAX,
    ];
    let names = [
        ("lists", "far-lists"),
        ("numbers", "far-numbers"),
        ("constants", "far-constants"),
    ];
    let mut far = Vec::new();
    for profile in profiles::all() {
        if let Some((_, name)) = names.iter().find(|(old, _)| *old == profile.name) {
            far.push(Profile {
                name,
                row_kinds: [3, 5, 3, 4],
                values: values.clone(),
                ..profile
            });
        }
    }
    far
}

fn random_guards(set: &mut Set) {
    for profile in profiles() {
        profiles::fill(set, profile.name, &profile, |draft| is_far(&draft.rows));
    }
}

fn refused(set: &mut Set) {
    let mut random = Random::named("far-refused");
    for question in [Question::NumberEnds, Question::NumberForm] {
        broken::fill(set, "far-refused", question, || {
            damage(&mut random, question)
        });
    }
}

/// A random guard with a value beyond 32 bits that is cut off, or in a wrong
/// form.
pub fn damage(random: &mut Random, question: Question) -> Vec<u8> {
    let profiles = profiles();
    let profile = &profiles[random.below(profiles.len())];
    let tokens = random::draft(random, profile).tokens(Limits::BASE);
    let far = |at: &usize| {
        let token = tokens[*at];
        token.role == Role::Value && token.number > number::PLAIN.most
    };
    let places: Vec<usize> = (0..tokens.len()).filter(far).collect();
    let Some(at) = random.pick(&places) else {
        return bytes(&tokens);
    };
    let (before, value) = (bytes(&tokens[..at]), bytes(&tokens[at..=at]));
    if question == Question::NumberEnds {
        return [&before, &value[..random.below(value.len())]].concat();
    }
    let wrong = wrong_form(random, &value);
    [before, wrong, bytes(&tokens[at + 1..])].concat()
}

/// A value in one byte too many, too large, or without an end.
fn wrong_form(random: &mut Random, value: &[u8]) -> Vec<u8> {
    let more = |byte: u8| byte | 0x80;
    match random.below(3) {
        0 => {
            let mut longer: Vec<u8> = value.iter().copied().map(more).collect();
            longer.push(0x00);
            longer
        }
        1 => {
            let mut large: Vec<u8> = (0..9).map(|_| more(random.bits() as u8)).collect();
            large.push(2 + random.below(0x7e) as u8);
            large
        }
        _ => (0..10).map(|_| more(random.bits() as u8)).collect(),
    }
}
