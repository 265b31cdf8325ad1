//! What the kept vectors hold.

use std::collections::{BTreeMap, HashSet};
use std::fs;
use std::path::Path;

use oracle::answer::{answer, answer_to, Answer};
use oracle::guard::{Limits, VARIANTS_IN_ALL};
use oracle::list::LONGEST_FILE;
use oracle::order::most_nodes;
use oracle::problem::Problem;
use oracle::read::read;
use oracle::record;
use oracle::search::{search, End, Splits, Tally};
use oracle::vectors::{parse, text, Vector};

fn kept() -> Vec<Vector> {
    let path = Path::new(env!("CARGO_MANIFEST_DIR")).join("../vectors/vectors.txt");
    let kept = fs::read_to_string(path).expect("the vectors are there");
    let vectors = parse(&kept).expect("the vectors are readable");
    assert_eq!(
        text(&vectors),
        kept,
        "written back, the vectors are the same"
    );
    vectors
}

/// The longest searches are left to `oracle vectors --check`.
#[test]
fn answers_are_those_of_the_search() {
    for vector in kept() {
        if !vector.name.starts_with("walk-") {
            let found = answer(&vector.file, vector.budget, Limits::BASE).to_string();
            assert_eq!(found, vector.answer, "{}", vector.name);
        }
    }
}

#[test]
fn names_are_unique_and_answers_varied() {
    let vectors = kept();
    assert!(vectors.len() >= 700);
    let names: HashSet<&str> = vectors.iter().map(|vector| vector.name.as_str()).collect();
    assert_eq!(names.len(), vectors.len());
    let mut counts: BTreeMap<String, usize> = BTreeMap::new();
    for vector in &vectors {
        let refused = vector.answer.starts_with("REFUSED");
        let verdict = vector.answer.split(' ').next().unwrap_or_default();
        let key = if refused {
            vector.answer.clone()
        } else {
            verdict.to_string()
        };
        *counts.entry(key).or_default() += 1;
    }
    for number in 2..=10 {
        assert!(counts[&format!("REFUSED {number}")] >= 20, "{counts:?}");
    }
    assert!(counts["SAT"] >= 300 && counts["UNSAT"] >= 300 && counts["SPENT"] >= 20);
}

/// Every rule that closes or splits a node is met, and the limits are reached.
#[test]
fn searches_are_varied() {
    let mut total = Tally::default();
    let (mut longest, mut full) = (0, 0);
    for vector in kept() {
        let Ok(guard) = read(&vector.file, Limits::BASE) else {
            continue;
        };
        longest = longest.max(vector.file.len());
        let variants: usize = guard.types.iter().map(|ty| ty.variants.len()).sum();
        if (guard.types.len(), variants) == (6, VARIANTS_IN_ALL)
            && (guard.rows.len(), guard.lines.len()) == (24, 32)
        {
            full += 1;
        }
        if !vector.name.starts_with("walk-") {
            let (_, tally) = search(&guard, vector.budget);
            for (sum, count) in total.closed.iter_mut().zip(tally.closed) {
                *sum += u32::from(count > 0);
            }
            total.splits.first += u32::from(tally.splits.first > 0);
            total.splits.second += u32::from(tally.splits.second > 0);
        }
    }
    assert_eq!(longest, LONGEST_FILE);
    assert!(full >= 20, "{full}");
    assert!(total.closed.iter().all(|&guards| guards >= 50), "{total:?}");
    let Splits { first, second } = total.splits;
    assert!(first >= 100 && second >= 100, "{total:?}");
}

/// No search visits more than 2 × W − 1 nodes, and in a closed one every split
/// has two visited children, so there is a leaf more than splits.
#[test]
fn node_counts_obey_their_laws() {
    for vector in kept() {
        let Ok(guard) = read(&vector.file, Limits::BASE) else {
            continue;
        };
        let (end, tally) = search(&guard, vector.budget.min(30_000));
        if end == End::Spent {
            continue;
        }
        if end == End::Closed {
            let splits = tally.splits.total();
            assert_eq!(tally.closed.iter().sum::<u32>(), splits + 1);
        }
        let most = most_nodes(&Problem::new(&guard)).unwrap_or(u128::MAX);
        assert!(u128::from(tally.nodes) <= most, "{}", vector.name);
    }
}

/// The numbers of a kept answer: the node count or budget, and the splits.
fn numbers(vector: &Vector) -> Option<(&str, u32, Splits)> {
    let words: Vec<&str> = vector.answer.split(' ').collect();
    let [verdict, nodes, "splits", first, second] = words[..] else {
        assert!(vector.answer.starts_with("REFUSED "), "{}", vector.name);
        return None;
    };
    let [nodes, first, second] = [nodes, first, second].map(|word| word.parse().expect(word));
    Some((verdict, nodes, Splits { first, second }))
}

/// "For UNSAT, nodes are twice the two counts together and one more." A search
/// that stops at an open node has visited at least one child of each split, and
/// a SPENT one may have cut off both of its last.
#[test]
fn node_counts_and_splits() {
    let mut unsat = 0;
    for vector in kept() {
        let Some((verdict, nodes, splits)) = numbers(&vector) else {
            continue;
        };
        let splits = splits.total();
        let right = match verdict {
            "UNSAT" => nodes == 2 * splits + 1,
            "SAT" => splits < nodes && nodes <= 2 * splits + 1,
            "SPENT" => splits <= nodes && nodes <= 2 * splits,
            _ => false,
        };
        assert!(right, "{}: {}", vector.name, vector.answer);
        unsat += usize::from(verdict == "UNSAT");
    }
    assert!(unsat >= 300);
}

/// A second count, from the entries of #101's record: it has the nodes in walk
/// order, so the first of them are those within a budget.
#[test]
fn splits_are_those_of_the_entries() {
    const MOST: u32 = 3_000;
    let mut both = 0;
    for vector in kept() {
        let Some((_, _, splits)) = numbers(&vector) else {
            continue;
        };
        let budget = vector.budget.min(MOST);
        let guard = read(&vector.file, Limits::BASE).expect("accepted");
        let (end, entries) = record::entries(&guard, budget);
        if end != End::Spent || budget == vector.budget {
            let found = record::splits_in(&guard, &entries);
            assert_eq!(found, splits, "{}", vector.name);
            both += usize::from(splits.first > 0 && splits.second > 0);
        }
    }
    assert!(both >= 100, "{both}");
}

/// Every budget of short searches, and some of longer ones: the splits of SPENT
/// are those of so many entries, and none change above the node count.
#[test]
fn splits_at_every_budget() {
    const MOST: u32 = 60;
    let mut seen = HashSet::new();
    for vector in kept() {
        let Ok(guard) = read(&vector.file, Limits::BASE) else {
            continue;
        };
        if !seen.insert(vector.file) {
            continue;
        }
        let (end, entries) = record::entries(&guard, MOST);
        // The open node has no entry.
        let nodes = entries.len() as u32 + u32::from(end == End::Open);
        let splits = |budget: u32| {
            let visited = entries.len().min(budget as usize);
            record::splits_in(&guard, &entries[..visited])
        };
        let verdict = match end {
            End::Open => |nodes, splits| Answer::Sat { nodes, splits },
            End::Closed => |nodes, splits| Answer::Unsat { nodes, splits },
            End::Spent => |budget, splits| Answer::Spent { budget, splits },
        };
        for budget in 0..nodes {
            let splits = splits(budget);
            let expected = Answer::Spent { budget, splits };
            assert_eq!(answer_to(&guard, budget), expected, "{}", vector.name);
        }
        let expected = verdict(nodes, splits(nodes));
        let larger: &[u32] = match end {
            End::Spent => &[MOST],
            _ => &[nodes, nodes + 1, nodes + 7, u32::MAX],
        };
        for &budget in larger {
            assert_eq!(answer_to(&guard, budget), expected, "{}", vector.name);
        }
    }
}
