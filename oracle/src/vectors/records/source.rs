//! Guards with the nodes of their searches.

use super::Vector;
use crate::closure::Closure;
use crate::encode::Draft;
use crate::guard::{Guard, Limits};
use crate::problem::Problem;
use crate::random::Random;
use crate::read::read;
use crate::record::{self, Entry};
use crate::search::End;

/// The longest searches whose records are kept.
pub const MOST_NODES: u32 = 60;

/// A node of a search: what the record says of it, and its closure.
pub struct Node {
    pub entry: Entry,
    pub closure: Closure,
}

/// An accepted guard with the nodes of its search, without the open one.
pub struct Source {
    pub name: String,
    pub file: Vec<u8>,
    pub guard: Guard,
    pub nodes: Vec<Node>,
    /// UNSAT, so without an open node.
    pub closed: bool,
}

impl Source {
    /// The guard of a vector, if it is accepted and its search is short.
    pub fn of(vector: &Vector) -> Option<Source> {
        let guard = read(&vector.file, Limits::BASE).ok()?;
        let (end, entries) = record::entries(&guard, MOST_NODES);
        if end == End::Spent {
            return None;
        }
        let nodes = nodes(&Problem::new(&guard), &entries);
        Some(Source {
            name: vector.name.clone(),
            file: vector.file.clone(),
            guard,
            nodes,
            closed: end == End::Closed,
        })
    }

    pub fn entries(&self) -> Vec<Entry> {
        self.nodes.iter().map(|node| node.entry).collect()
    }

    pub fn record(&self) -> Vec<u8> {
        record::bytes(&self.entries())
    }

    /// The record up to a node.
    pub fn before(&self, node: usize) -> Vec<u8> {
        record::bytes(&self.entries()[..node])
    }

    /// The record with other bytes for one node.
    pub fn with(&self, node: usize, bytes: &[u8]) -> Vec<u8> {
        let behind = record::bytes(&self.entries()[node + 1..]);
        [&self.before(node), bytes, &behind].concat()
    }

    /// The file without one line, if there is a line.
    pub fn file_with_a_line_less(&self, random: &mut Random) -> Option<Vec<u8>> {
        let mut draft = Draft::of(&self.guard);
        let places: Vec<usize> = (0..draft.lines.len()).collect();
        draft.lines.remove(random.pick(&places)?);
        Some(draft.bytes())
    }
}

/// The nodes that right entries speak of.
fn nodes(problem: &Problem, entries: &[Entry]) -> Vec<Node> {
    let mut nodes = Vec::new();
    let mut branch = record::ROOT;
    for &entry in entries {
        let decisions = branch.expect("no entry follows the last branch");
        let closure = Closure::new(problem, &decisions);
        nodes.push(Node { entry, closure });
        branch = record::next(decisions, entry);
    }
    nodes
}

/// A guard by chance; half of those with one node are drawn once more.
pub fn pick<'s>(random: &mut Random, sources: &[&'s Source]) -> Option<&'s Source> {
    let source = random.pick(sources)?;
    if source.nodes.len() > 1 || random.percent(50) {
        return Some(source);
    }
    random.pick(sources)
}
