//! Request #108: trees by any order of splitting.

use oracle::closure::Closure;
use oracle::guard::{Guard, Limits};
use oracle::order::{all_trees, check, most_nodes, permitted, tree, Rule, Size, Trees};
use oracle::problem::Problem;
use oracle::random::{draft, Random};
use oracle::read::read;
use oracle::search::{search, split, End, Split};
use oracle::vectors::{profiles, unhex};

fn guard(hex: &str) -> Guard {
    read(&unhex(hex).expect("hexadecimal"), Limits::BASE).expect("accepted")
}

/// Document 01's cases c and h, a list that differs from its third tail, and
/// two optional pairs with equal first parts that differ.
const C: &str = "020002000200010200010300010101000001";
const H: &str = "010200000300000000000003010001010002010102";
const TAILS: &str = "0200020002000104000103000101030101010302010101010003";
const PAIRS: &str = "030002000002000200010400020002030001000301010002000203010001";

/// The definitions compute ten of these trees, with the same sizes
/// (`crates/theory/specs/OrderCases.antt`).
#[test]
fn trees_by_rules() {
    for (hex, nodes, open, most) in [
        (C, [3, 3, 3], 1, 7),
        (H, [11, 11, 11], 0, 15),
        (TAILS, [7, 13, 9], 3, 31),
        (PAIRS, [25, 31, 31], 10, 31),
    ] {
        let guard = guard(hex);
        let problem = Problem::new(&guard);
        assert_eq!(most_nodes(&problem), Some(most));
        for (rule, nodes) in [Rule::First, Rule::Last, Rule::Depth]
            .into_iter()
            .zip(nodes)
        {
            let size = Size { nodes, open };
            assert_eq!(tree(&problem, rule.clone(), nodes), Some(size), "{hex}");
            assert_eq!(tree(&problem, rule, nodes - 1), None, "{hex}");
        }
    }
}

/// In three cases of four some order makes another tree, and none has more than
/// 2 × W − 1 nodes.
#[test]
fn all_orders() {
    for (hex, fewest, most, open) in [
        (C, 3, 3, true),
        (H, 11, 11, false),
        (TAILS, 7, 13, true),
        (PAIRS, 25, 31, true),
    ] {
        let trees = Trees {
            fewest,
            most,
            some_open: open,
            all_open: open,
        };
        let guard = guard(hex);
        assert_eq!(all_trees(&Problem::new(&guard), 1_000), Some(trees));
        assert_eq!(all_trees(&Problem::new(&guard), 1), None);
    }
}

/// Both kinds are permitted beside each other, the second with each variant
/// left; and the search's own split is the first of all.
#[test]
fn permitted_splits() {
    let first = |term, variant| Split::First { term, variant };
    let second = |term, variant| Split::Second { term, variant };
    let splits = |guard: &Guard| {
        let problem = Problem::new(guard);
        let closure = Closure::new(&problem, &[]);
        let splits = permitted(&problem, &closure);
        assert_eq!(splits.first().copied(), split(&problem, &closure));
        splits
    };
    let colours = (0..3).flat_map(|term| [second(term, 0), second(term, 1)]);
    assert_eq!(splits(&guard(H)), colours.collect::<Vec<_>>());
    assert_eq!(splits(&guard(C)), [first(0, 1)]);
    let second_parts = [28, 30].map(|term| [second(term, 0), second(term, 1)]);
    let pairs = [[first(0, 1), first(1, 1)], second_parts[0], second_parts[1]];
    assert_eq!(splits(&guard(PAIRS)), pairs.concat());
}

/// Wishes are met where they can be, the earlier ones first.
#[test]
fn wishes() {
    let guard = guard(TAILS);
    let problem = Problem::new(&guard);
    let nodes = |list| tree(&problem, Rule::wishes(list)?, 100).map(|size| size.nodes);
    assert_eq!(nodes("0,1,2"), Some(7));
    assert_eq!(nodes("2/1,1,0"), Some(13));
    assert_eq!(nodes("2/0,23"), Some(7), "nothing that is permitted");
    for list in ["", "2,", "a", "1/", "1/b", "-1"] {
        assert_eq!(nodes(list), None, "{list:?}");
    }
}

/// Random guards in many orders, and in all where these are few.
#[test]
fn random_guards() {
    let mut random = Random::named("orders");
    let (mut sat, mut trees, mut all, mut varied) = (0, 0, 0, 0);
    for profile in profiles::all() {
        for _ in 0..80 {
            let file = draft(&mut random, &profile).bytes();
            let guard = read(&file, Limits::BASE).expect("random guards are accepted");
            let (end, _) = search(&guard, 200);
            if end == End::Spent {
                continue;
            }
            let tried = check(&guard, end == End::Open, 6, 200);
            let tried = tried.unwrap_or_else(|why| panic!("{why}: {file:02x?}"));
            sat += usize::from(end == End::Open);
            trees += tried.trees;
            all += usize::from(tried.all);
            varied += usize::from(tried.varied);
        }
    }
    assert!(sat > 100 && trees > 4_000, "{sat} SAT, {trees} trees");
    assert!(
        all > 300 && varied > 20,
        "{all} in all orders, {varied} vary"
    );
}
