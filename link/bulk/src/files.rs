//! Files of many kinds, each from a seed and its own number: guards that are accepted, and files damaged in many ways.

use oracle::encode::{bytes, Draft, Role};
use oracle::guard::Limits;
use oracle::random::{draft, edge_value, far_value, Profile, Random, Types};
use oracle::read::Question;
use oracle::vectors::{broken, far, profiles};

/// What makes the files.
pub struct Maker {
    usual: Vec<Profile>,
    /// Profiles whose searches are often long.
    long: Vec<Profile>,
    reads: Profile,
}

/// How a file was made.
#[derive(Clone, Copy)]
enum Kind {
    /// A guard of one of the outside solver's profiles.
    Usual,
    /// The same with lines left out: more of these can hold.
    Thinned,
    Long,
    /// A guard of long chains of reads, with many rows to show.
    Reads,
    /// A guard of a profile that is itself random.
    Any,
    /// A guard with constants of every length.
    Values,
    /// An accepted file with something wrong at one place, or put after it.
    Changed,
    Cut,
    Extended,
    Joined,
    /// Random bytes, of all values or of small ones.
    Bytes,
    /// A file aimed at one question.
    Question(Question),
    /// The same, aimed at a value beyond 32 bits.
    Value(Question),
    Types,
    /// Four to eleven bytes with bit 80 set in place of a number.
    NoEnd,
}

/// The kinds with their weights.
const KINDS: [(usize, Kind); 21] = [
    (120, Kind::Usual),
    (160, Kind::Thinned),
    (12, Kind::Long),
    (20, Kind::Reads),
    (80, Kind::Any),
    (40, Kind::Values),
    (60, Kind::Changed),
    (16, Kind::Cut),
    (16, Kind::Extended),
    (8, Kind::Joined),
    (12, Kind::Bytes),
    (4, Kind::Question(Question::NumberForm)),
    (8, Kind::Question(Question::CountWithinLimits)),
    (8, Kind::Question(Question::NamedThingExists)),
    (8, Kind::Question(Question::KindListed)),
    (12, Kind::Question(Question::TypeFits)),
    (4, Kind::Question(Question::NumberEnds)),
    (4, Kind::Value(Question::NumberEnds)),
    (8, Kind::Value(Question::NumberForm)),
    (16, Kind::Types),
    (12, Kind::NoEnd),
];

impl Default for Maker {
    fn default() -> Maker {
        Maker {
            usual: [profiles::all(), far::profiles()].concat(),
            long: profiles::long(),
            reads: reads(),
        }
    }
}

impl Maker {
    /// A random file.
    pub fn make(&self, random: &mut Random) -> Vec<u8> {
        let kind = KINDS[random.weighted(&KINDS.map(|(weight, _)| weight))].1;
        match kind {
            Kind::Usual => one_of(random, &self.usual).bytes(),
            Kind::Thinned => {
                let mut guard = one_of(random, &self.usual);
                let chance = random.below(100);
                guard.lines.retain(|_| random.percent(chance));
                guard.bytes()
            }
            Kind::Long => one_of(random, &self.long).bytes(),
            Kind::Reads => draft(random, &self.reads).bytes(),
            Kind::Any => {
                let profile = any(random);
                draft(random, &profile).bytes()
            }
            Kind::Values => values(random),
            Kind::Changed => changed(random),
            Kind::Cut => {
                let mut file = broken::whole(random).bytes();
                file.truncate(random.below(file.len()));
                file
            }
            Kind::Extended => broken::too_long(random),
            Kind::Joined => [broken::whole(random), broken::whole(random)]
                .map(|whole| whole.bytes())
                .concat(),
            Kind::Bytes => {
                let (length, bound) = (random.below(60), [3, 6, 30, 256][random.below(4)]);
                (0..length).map(|_| random.below(bound) as u8).collect()
            }
            Kind::Question(question) => broken::damage(random, question),
            Kind::Value(question) => far::damage(random, question),
            Kind::Types => broken::bad_types(random),
            Kind::NoEnd => no_end(random),
        }
    }
}

fn one_of(random: &mut Random, profiles: &[Profile]) -> Draft {
    let profile = &profiles[random.below(profiles.len())];
    draft(random, profile)
}

/// Rows that read the latest row, of types with three fields in many variants.
fn reads() -> Profile {
    Profile {
        name: "reads",
        types: Types::Made {
            types: 2..=6,
            numbers: 5,
            enumerations: 5,
            variants: 2..=3,
            fields: [3, 1, 1, 6],
        },
        rows: 12..=24,
        lines: 0..=6,
        row_kinds: [1, 0, 1, 14],
        line_kinds: [1, 6, 2, 4],
        deep: 85,
        values: vec![0],
    }
}

/// Weights of which the first isn't 0.
fn weights(random: &mut Random) -> [usize; 4] {
    [2, 0, 0, 0].map(|least| {
        let bound = [2, 6, 20][random.below(3)];
        least + random.below(bound)
    })
}

/// A profile whose every number is random.
fn any(random: &mut Random) -> Profile {
    let up_to = |random: &mut Random, most: usize| {
        let end = random.below(most + 1);
        random.below(end + 1)..=end
    };
    let variants = [2, 4, 8, 16][random.below(4)];
    let types = if random.percent(10) {
        Types::Most
    } else {
        Types::Made {
            types: 1..=1 + random.below(6),
            numbers: 5 + random.below(50),
            enumerations: random.below(60),
            variants: 1..=variants,
            fields: weights(random),
        }
    };
    Profile {
        name: "any",
        types,
        rows: up_to(random, 24),
        lines: up_to(random, 32),
        row_kinds: weights(random),
        line_kinds: weights(random),
        deep: random.below(100),
        values: (0..1 + random.below(4)).map(|_| value(random)).collect(),
    }
}

/// A value of 64 bits: near the end of a length, or any.
fn value(random: &mut Random) -> i64 {
    match random.below(5) {
        0 | 1 => edge_value(random),
        2 | 3 => far_value(random),
        _ => random.bits() as i64,
    }
}

/// A guard whose constants are random, many of them alike or alike in one half.
fn values(random: &mut Random) -> Vec<u8> {
    let mut tokens = broken::whole(random).tokens(Limits::BASE);
    let some = value(random);
    let (other_high, other_low) = (some ^ 1 << (32 + random.below(32)), some ^ 1);
    let pool = [some, value(random), 0, other_high, other_low];
    for token in &mut tokens {
        if token.role == Role::Value {
            token.number = oracle::number::fold(pool[random.below(pool.len())]);
        }
    }
    bytes(&tokens)
}

/// An accepted file with one byte changed, put in, left out or doubled, or one number changed.
fn changed(random: &mut Random) -> Vec<u8> {
    let mut tokens = broken::whole(random).tokens(Limits::BASE);
    let mut file = bytes(&tokens);
    let at = random.below(file.len());
    let how = random.below(CHANGES + 1);
    if how == CHANGES {
        let at = random.below(tokens.len());
        tokens[at].number = random.below(25) as u64;
        return bytes(&tokens);
    }
    change_at(random, &mut file, at, how);
    file
}

/// How many changes `change_at` knows.
const CHANGES: usize = 7;

/// One byte changed, put in, left out or doubled.
fn change_at(random: &mut Random, bytes: &mut Vec<u8>, at: usize, how: usize) {
    match how {
        0 => bytes[at] = random.bits() as u8,
        1 => bytes[at] ^= 1 << random.below(8),
        2 => bytes[at] = bytes[at].wrapping_add(1),
        3 => bytes[at] = bytes[at].wrapping_sub(1),
        4 => bytes.insert(at, random.below(5) as u8),
        5 => bytes.insert(at, bytes[at]),
        _ => {
            bytes.remove(at);
        }
    }
}

/// One byte of some changed, put in, left out or doubled.
pub fn change(random: &mut Random, bytes: &mut Vec<u8>) {
    let at = random.below(bytes.len());
    let how = random.below(CHANGES);
    change_at(random, bytes, at, how);
}

/// An accepted file up to some number, often a value, then four to eleven bytes with bit 80 set. It ends there, or goes on.
fn no_end(random: &mut Random) -> Vec<u8> {
    let tokens = broken::whole(random).tokens(Limits::BASE);
    let of_value = |&at: &usize| tokens[at].role == Role::Value;
    let values: Vec<usize> = (0..tokens.len()).filter(of_value).collect();
    let any = random.below(tokens.len());
    let value = random.pick(&values).filter(|_| random.percent(50));
    let at = value.unwrap_or(any);
    let mut file = bytes(&tokens[..at]);
    let length = [4, 5, 5, 9, 10, 10, 11][random.below(7)];
    let plain = random.percent(50);
    for _ in 0..length {
        let low = if plain { 0 } else { random.below(0x80) as u8 };
        file.push(0x80 | low);
    }
    if random.percent(30) {
        file.extend(bytes(&tokens[at..]));
    }
    file
}
