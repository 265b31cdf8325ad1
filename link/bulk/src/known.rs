//! What the outside solver says of a file.

use oracle::answer::Answer;
use oracle::guard::{Guard, Limits};
use oracle::random::Random;
use oracle::read::{self, Question};
use oracle::record::{self, Entry};
use oracle::search::{search, End, Splits, Tally};

/// What the outside solver says of a file.
pub struct Known {
    /// Those of the caller.
    pub limits: Limits,
    /// An accepted file's guard, or the question that refuses it.
    pub guard: Result<Guard, Question>,
    /// How the search ended, within `limit` nodes.
    end: End,
    pub nodes: u32,
    splits: Splits,
    /// The nodes in order, up to an open one.
    entries: Vec<Entry>,
    /// The record of the nodes that are closed, up to an open one.
    pub record: Vec<u8>,
}

impl Known {
    pub fn new(file: &[u8], limit: u32) -> Known {
        Known::within(file, limit, Limits::BASE)
    }

    /// For a caller with these limits.
    pub fn within(file: &[u8], limit: u32, limits: Limits) -> Known {
        let guard = read::read(file, limits);
        let (end, tally, entries) = match &guard {
            Ok(guard) => {
                let (end, tally) = search(guard, limit);
                let (_, entries) = record::entries(guard, limit);
                let counted = record::splits_in(guard, &entries);
                assert_eq!(counted, tally.splits, "two counts of the splits differ");
                (end, tally, entries)
            }
            Err(_) => (End::Closed, Tally::default(), Vec::new()),
        };
        let record = match end {
            End::Spent => Vec::new(),
            _ => record::bytes(&entries),
        };
        Known {
            limits,
            guard,
            end,
            nodes: tally.nodes,
            splits: tally.splits,
            entries,
            record,
        }
    }

    /// "SPENT is given precisely if the walk would visit more nodes than the budget." No budget above the solver's own
    /// limit may be asked of a search that ended there.
    pub fn answer(&self, budget: u32) -> Answer {
        let (nodes, splits) = (self.nodes, self.splits);
        match (&self.guard, self.end) {
            (Err(question), _) => Answer::Refused(*question),
            (Ok(guard), End::Spent) => self.spent(guard, budget),
            (Ok(guard), _) if nodes > budget => self.spent(guard, budget),
            (Ok(_), End::Open) => Answer::Sat { nodes, splits },
            (Ok(_), End::Closed) => Answer::Unsat { nodes, splits },
        }
    }

    /// Its splits are those at so many nodes, "those whose children the budget cut off included".
    fn spent(&self, guard: &Guard, budget: u32) -> Answer {
        let splits = record::splits_in(guard, &self.entries[..budget as usize]);
        Answer::Spent { budget, splits }
    }

    /// Whether the guard is UNSAT, within the limit.
    pub fn unsat(&self) -> bool {
        self.guard.is_ok() && self.end == End::Closed
    }

    /// Whether the guard is SAT, within the limit.
    pub fn sat(&self) -> bool {
        self.guard.is_ok() && self.end == End::Open
    }

    /// The budgets to call with, rising. One of those that don't suffice is drawn: the splits of SPENT depend on it.
    pub fn budgets(&self, random: &mut Random) -> Vec<u32> {
        let nodes = self.nodes;
        let mut below = || random.below(nodes.max(1) as usize) as u32;
        let mut budgets = match (&self.guard, self.end) {
            (Err(_), _) => vec![0, u32::MAX],
            (Ok(_), End::Spent) => vec![0, below(), nodes],
            (Ok(_), _) => vec![0, below(), nodes - 1, nodes, nodes + 1, u32::MAX],
        };
        budgets.dedup();
        budgets
    }
}
