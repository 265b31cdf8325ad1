//! Records that the search doesn't write: any splits in any order, any reason that holds at a node.

use oracle::closure::Closure;
use oracle::guard::Guard;
use oracle::problem::Problem;
use oracle::random::Random;
use oracle::record::{claims, next, splits, Entry, ROOT};
use oracle::search::Reason;

/// A record of at most so many nodes. It is whole, or ends where nothing holds or nothing more may be written.
pub fn any(random: &mut Random, guard: &Guard, most: usize) -> Vec<u8> {
    let problem = Problem::new(guard);
    let mut record = Vec::new();
    let mut branch = ROOT;
    for _ in 0..most {
        let Some(decisions) = branch else {
            break;
        };
        let closure = Closure::new(&problem, &decisions);
        let Some(entry) = any_entry(random, &problem, &closure) else {
            break;
        };
        record.extend(entry.bytes());
        branch = next(decisions, entry);
    }
    record
}

/// What holds at a node; mostly a reason to close it where there is one.
fn any_entry(random: &mut Random, problem: &Problem, closure: &Closure) -> Option<Entry> {
    let closing = Reason::ALL.map(|reason| claims(problem, reason));
    let closing = closing.into_iter().flatten();
    let closing: Vec<Entry> = closing.filter(|c| c.holds(problem, closure)).collect();
    if !closing.is_empty() && random.percent(95) {
        return random.pick(&closing);
    }
    let of_term = |term| {
        let variants = splits(problem, closure, term).into_iter();
        variants.map(move |variant| Entry::Split { term, variant })
    };
    let all: Vec<Entry> = (0..problem.types.len()).flat_map(of_term).collect();
    random.pick(&all)
}
