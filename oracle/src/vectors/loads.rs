//! Request #110: files with the flight loader's answers, for its smaller
//! limits and buffers.

use super::{hex, parse_lines, unhex, Vector, USUAL_BUDGET};
use crate::answer::{answer, answer_with_buffers, Answer};
use crate::encode::Draft;
use crate::guard::Limits;
use crate::random::{draft, Profile, Random, Types};

const LOADER: Limits = Limits::LOADER;

/// Of the vectors that both answer alike each so many'th is kept, and of those
/// that the loader's limits refuse.
const ALIKE: usize = 4;
const BEYOND: usize = 12;

/// Random guards of each profile.
const EACH: usize = 80;

const HEADER: &str = "\
# Guard files with the flight loader's answers, written by `oracle loads`.
# NAME, BUDGET, ROWS, PLACES, HEX and ANSWER, separated by single tabs; ROWS and PLACES are the
# lengths of the two buffers in numbers, HEX is the file, - if empty.
";

/// A call of the loader with its answer.
#[derive(Clone, Debug, PartialEq, Eq)]
pub struct Load {
    pub name: String,
    pub budget: u32,
    pub rows: usize,
    pub places: usize,
    pub file: Vec<u8>,
    pub answer: String,
}

struct Set(Vec<Load>);

impl Set {
    fn with_buffers(
        &mut self,
        name: String,
        budget: u32,
        file: &[u8],
        (rows, places): (usize, usize),
    ) {
        let answer = answer_with_buffers(file, budget, LOADER, rows, places);
        self.0.push(Load {
            name,
            budget,
            rows,
            places,
            file: file.to_vec(),
            answer: answer.to_string(),
        });
    }

    fn add(&mut self, name: String, budget: u32, file: &[u8]) {
        let lengths = (LOADER.row_buffer(), LOADER.place_buffer());
        self.with_buffers(name, budget, file, lengths);
    }
}

/// All calls, with files of these vectors among them.
pub fn all(vectors: &[Vector]) -> Vec<Load> {
    let mut set = Set(Vec::new());
    limits(&mut set);
    buffers(&mut set);
    random(&mut set);
    drawn(&mut set, vectors);
    set.0
}

/// So many number types, so many variables of the first, and so many lines that
/// the first variable equals itself.
fn sized(types: usize, terms: usize, lines: usize) -> Vec<u8> {
    let number: &[&[usize]] = &[];
    let mut draft = Draft::new(&vec![number; types]);
    draft.variables(0, terms);
    for _ in 0..lines {
        draft.equal(0, 0);
    }
    draft.bytes()
}

/// Each count at its limit and beyond it, beside the others at theirs; and what
/// comes before or after it.
fn limits(set: &mut Set) {
    let Limits {
        types,
        terms,
        lines,
        ..
    } = LOADER;
    let base = Limits::BASE;
    for (t, n, l) in [
        (0, 0, 0),
        (types, terms, lines),
        (types, terms, 0),
        (types, 1, lines),
        (types + 1, terms, lines),
        (types, terms + 1, lines),
        (types, terms, lines + 1),
        (types + 1, 0, 0),
        (1, terms + 1, 0),
        (1, 1, lines + 1),
        (base.types, base.terms, base.lines),
        (base.types + 1, 1, 1),
        (1, base.terms + 1, 1),
        (1, 1, base.lines + 1),
    ] {
        let file = sized(t, n, l);
        set.add(format!("limit-{t}-{n}-{l}"), 1, &file);
        // Cut short, or with a byte more.
        let (_, cut) = file.split_last().expect("a file has bytes");
        set.add(format!("limit-{t}-{n}-{l}-cut"), 1, cut);
        let more = [&file[..], &[0]].concat();
        set.add(format!("limit-{t}-{n}-{l}-more"), 1, &more);
    }
    // A count beyond its limit is asked before what follows it, and after what comes before.
    for (name, file) in [
        ("form", &[0x84, 0x00][..]),
        ("types", &[0x04]),
        ("default", &[0x01, 0x01, 0x01, 0x00, 0x09]),
        ("terms", &[0x01, 0x00, 0x09, 0x04]),
        ("row", &[0x01, 0x00, 0x01, 0x04, 0x09]),
        ("lines", &[0x01, 0x00, 0x01, 0x00, 0x00, 0x09, 0x04]),
    ] {
        set.add(format!("order-{name}"), 1, file);
    }
}

/// Buffers around the least lengths, for files with every kind of answer.
fn buffers(set: &mut Set) {
    let sat = sized(3, 8, 8);
    let mut unsat = Draft::new(&[&[]]);
    let (a, b) = (unsat.constant(0, -3), unsat.constant(0, 4));
    unsat.equal(a, b);
    let unsat = unsat.bytes();
    let (rows, places) = (LOADER.row_buffer(), LOADER.place_buffer());
    let base = Limits::BASE;
    for (name, budget, file) in [
        ("sat", 1, &sat[..]),
        ("unsat", 1, &unsat),
        ("spent", 0, &sat),
        ("beyond", 1, &sized(4, 1, 1)),
        ("empty", 1, &[]),
    ] {
        for lengths in [
            (rows - 1, places),
            (rows, places - 1),
            (rows - 1, places - 1),
            (rows, places),
            (rows + 1, places + 1),
            (0, places),
            (rows, 0),
            (base.row_buffer(), base.place_buffer()),
        ] {
            let (r, p) = lengths;
            set.with_buffers(format!("buffers-{name}-{r}-{p}"), budget, file, lengths);
        }
    }
}

/// Profiles of guards within the limits, many at all of them.
fn profiles() -> Vec<Profile> {
    let made = |types, numbers, enumerations, variants, fields| Types::Made {
        types,
        numbers,
        enumerations,
        variants,
        fields,
    };
    let profile = |name, types, row_kinds, line_kinds| Profile {
        name,
        types,
        rows: 5..=LOADER.terms,
        lines: 2..=LOADER.lines,
        row_kinds,
        line_kinds,
        deep: 40,
        values: vec![0, 1, -1, i64::MIN, i64::MAX, 1 << 32],
    };
    vec![
        profile(
            "mixed",
            made(1..=3, 25, 25, 1..=3, [4, 3, 3, 1]),
            [4, 1, 3, 5],
            [4, 4, 1, 2],
        ),
        profile(
            "reads",
            made(2..=3, 20, 20, 2..=3, [2, 2, 3, 3]),
            [1, 0, 1, 8],
            [1, 5, 2, 3],
        ),
        profile(
            "colours",
            made(1..=3, 0, 80, 2..=4, [6, 1, 1, 1]),
            [6, 0, 1, 3],
            [1, 6, 1, 2],
        ),
    ]
}

/// A random guard within the limits.
pub fn small(random: &mut Random) -> Vec<u8> {
    let profiles = profiles();
    let profile = &profiles[random.below(profiles.len())];
    draft(random, profile).bytes()
}

/// Random guards within the limits, with budgets around their node counts.
fn random(set: &mut Set) {
    for profile in profiles() {
        let mut random = Random::named(&format!("loads-{}", profile.name));
        for i in 0..EACH {
            let file = draft(&mut random, &profile).bytes();
            let name = format!("{}-{i:02}", profile.name);
            let nodes = match answer(&file, USUAL_BUDGET, LOADER) {
                Answer::Sat { nodes, .. } | Answer::Unsat { nodes, .. } if nodes > 1 => nodes,
                _ => {
                    set.add(name, USUAL_BUDGET, &file);
                    continue;
                }
            };
            set.add(format!("{name}-less"), nodes - 1, &file);
            set.add(name, nodes, &file);
        }
    }
}

/// Files of the desk's own vectors.
fn drawn(set: &mut Set, vectors: &[Vector]) {
    let (alike, beyond): (Vec<&Vector>, Vec<&Vector>) = vectors.iter().partition(|vector| {
        answer(&vector.file, vector.budget, LOADER).to_string() == vector.answer
    });
    let kept = alike
        .into_iter()
        .step_by(ALIKE)
        .chain(beyond.into_iter().step_by(BEYOND));
    for vector in kept {
        set.add(format!("desk-{}", vector.name), vector.budget, &vector.file);
    }
}

/// The calls as the text of `loads.txt`.
pub fn text(loads: &[Load]) -> String {
    let mut text = HEADER.to_string();
    for load in loads {
        text += &format!(
            "{}\t{}\t{}\t{}\t{}\t{}\n",
            load.name,
            load.budget,
            load.rows,
            load.places,
            hex(&load.file),
            load.answer
        );
    }
    text
}

/// Reads the text of `loads.txt`.
pub fn parse(text: &str) -> Result<Vec<Load>, String> {
    parse_lines(text, "a call of the loader", |line| {
        let columns: Vec<&str> = line.split('\t').collect();
        let [name, budget, rows, places, file, answer] = columns[..] else {
            return None;
        };
        Some(Load {
            name: name.to_string(),
            budget: budget.parse().ok()?,
            rows: rows.parse().ok()?,
            places: places.parse().ok()?,
            file: unhex(file)?,
            answer: answer.to_string(),
        })
    })
}

#[cfg(test)]
mod tests {
    use super::*;
    use crate::vectors;

    fn made() -> Vec<Load> {
        all(&vectors::all())
    }

    #[test]
    fn every_answer_is_there() {
        let loads = made();
        for start in [
            "SAT ",
            "UNSAT ",
            "SPENT ",
            "REFUSED 1",
            "REFUSED 2",
            "REFUSED 3",
            "REFUSED 4",
            "REFUSED 5",
            "REFUSED 6",
            "REFUSED 7",
            "REFUSED 8",
            "REFUSED 9",
            "REFUSED 10",
        ] {
            let many = loads.iter().filter(|load| load.answer.starts_with(start));
            assert!(many.count() > 1, "{start}");
        }
    }

    #[test]
    fn names_differ_and_the_text_reads_back() {
        let loads = made();
        for (i, load) in loads.iter().enumerate() {
            assert!(
                loads[..i].iter().all(|other| other.name != load.name),
                "{}",
                load.name
            );
        }
        assert_eq!(parse(&text(&loads)), Ok(loads));
    }

    /// Request #110: "a file within the small limits gets the same refusal, or
    /// verdict, node and split counts, from both".
    #[test]
    fn files_within_the_limits_get_the_desks_answer() {
        let loads = made();
        let long = loads.iter().filter(|load| {
            load.rows >= LOADER.row_buffer() && load.places >= LOADER.place_buffer()
        });
        let within = long.filter(|load| load.answer != "REFUSED 4");
        let mut many = 0;
        for load in within {
            let desk = answer(&load.file, load.budget, Limits::BASE);
            assert_eq!(desk.to_string(), load.answer, "{}", load.name);
            many += 1;
        }
        assert!(many > 500, "{many}");
    }
}
