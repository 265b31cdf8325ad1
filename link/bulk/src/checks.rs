//! The library's checker of records against the outside solver's: right records, damaged ones and those of other guards.

use crate::counts::Numbered;
use crate::desk::Desk;
use crate::files::{self, Maker};
use crate::known::Known;
use crate::mismatch::Mismatch;
use crate::orders;
use oracle::random::Random;
use oracle::vectors::hex;
use oracle::vectors::records::{answer, parse};

/// How many records of other guards there are to choose from, and the nodes of each at the most.
const OTHERS: usize = 64;
const OTHER_NODES: u32 = 200;

/// The most nodes of a record in another order, of an UNSAT guard and of any other.
const MOST_NODES: usize = 60;
const SOME_NODES: usize = 4;

/// What compares, with records of other guards.
pub struct Checker {
    others: Vec<Vec<u8>>,
}

impl Checker {
    pub fn new(maker: &Maker) -> Checker {
        let mut random = Random::named("other guards");
        let mut others = Vec::new();
        while others.len() < OTHERS {
            let known = Known::new(&maker.make(&mut random), OTHER_NODES);
            if known.unsat() {
                others.push(known.record);
            }
        }
        Checker { others }
    }

    /// All records that are tried on a file.
    pub fn compare(
        &self,
        desk: &impl Desk,
        random: &mut Random,
        file: &[u8],
        known: &Known,
        checks: &mut Numbered,
    ) -> Result<(), Box<Mismatch>> {
        for record in self.tried(random, known) {
            let expected = answer(file, &record);
            if expected == 0 && known.sat() {
                let why = "the solver accepts a record of a guard that can hold";
                return Err(mismatch(file, &record, why.to_string()));
            }
            check(desk, file, &record, expected, checks)?;
        }
        if known.unsat() {
            let record = &known.record;
            check(desk, file, record, 0, checks)?;
            let mut other = file.to_vec();
            files::change(random, &mut other);
            check(desk, &other, record, answer(&other, record), checks)?;
        }
        Ok(())
    }

    /// Records that aren't the search's own: of another guard, damaged, and in another order.
    fn tried(&self, random: &mut Random, known: &Known) -> Vec<Vec<u8>> {
        let mut records = vec![self.others[random.below(OTHERS)].clone()];
        if !known.record.is_empty() {
            records.extend(damaged(random, &known.record));
        }
        if let Ok(guard) = &known.guard {
            let most = if known.unsat() {
                MOST_NODES
            } else {
                SOME_NODES
            };
            records.push(orders::any(random, guard, most));
        }
        records
    }
}

/// Records that aren't quite this one, which has bytes: cut, longer, with a byte changed, put in, left out or doubled, and with
/// another small number.
fn damaged(random: &mut Random, record: &[u8]) -> [Vec<u8>; 4] {
    let cut = record[..random.below(record.len())].to_vec();
    let longer = [record, &appendix(random, record)].concat();
    let mut changed = record.to_vec();
    files::change(random, &mut changed);
    let mut number = record.to_vec();
    // Kinds are up to 4, most terms and all variants below 16.
    let below = [5, 16, 80][random.below(3)];
    number[random.below(record.len())] = random.below(below) as u8;
    [cut, longer, changed, number]
}

/// What to put behind a record: some bytes, or its own front.
fn appendix(random: &mut Random, record: &[u8]) -> Vec<u8> {
    if random.percent(50) {
        (0..1 + random.below(3))
            .map(|_| random.below(6) as u8)
            .collect()
    } else {
        record[..1 + random.below(record.len())].to_vec()
    }
}

/// One record through the desk's checker.
fn check(
    desk: &impl Desk,
    file: &[u8],
    record: &[u8],
    expected: u8,
    checks: &mut Numbered,
) -> Result<(), Box<Mismatch>> {
    let answered = desk.check(file, record);
    if answered == u32::from(expected) {
        checks.add(expected);
        return Ok(());
    }
    let why = format!("the record is answered {answered}, expected {expected}");
    Err(mismatch(file, record, why))
}

fn mismatch(file: &[u8], record: &[u8], why: String) -> Box<Mismatch> {
    let facts = vec![("file", hex(file)), ("record", hex(record))];
    Box::new(Mismatch { facts, why })
}

/// All lines of `records.txt`.
pub fn compare_lines(desk: &impl Desk, text: &str) -> Result<Numbered, String> {
    let mut checks = Numbered::default();
    for line in parse(text)? {
        check(desk, &line.file, &line.record, line.answer, &mut checks)
            .map_err(|mismatch| format!("MISMATCH in {}\n{mismatch}", line.name))?;
    }
    Ok(checks)
}

#[cfg(test)]
mod tests {
    use super::*;
    use crate::desk::planted::Check;
    use crate::desk::Library;
    use crate::library;

    const LINES: &str = "accepted\t01020001000200000200010001000001\t0300\t0\n";

    #[test]
    fn lines_of_records() {
        let record = &parse(LINES).expect("lines")[0];
        assert_eq!(answer(&record.file, &record.record), record.answer);
        assert_eq!(
            compare_lines(&Library, LINES).expect("no mismatch").total(),
            1
        );
        let wrong = LINES.replace("\t0\n", "\t12\n");
        let why = compare_lines(&Library, &wrong).expect_err("a mismatch");
        assert!(
            why.starts_with("MISMATCH in accepted\nfile      01"),
            "{why}"
        );
        assert!(why.ends_with("is answered 0, expected 12\n"), "{why}");
        assert!(compare_lines(&Library, "accepted\t01").is_err());
        let never = Check(|file: &[u8], record: &[u8]| library::check(file, record).max(1));
        assert!(compare_lines(&never, LINES).is_err());
    }
}
