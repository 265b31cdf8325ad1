//! Request #108: search trees by any order of splitting.

use std::collections::HashMap;

use crate::closure::{Closure, Decision};
use crate::guard::{Guard, Row};
use crate::problem::{Label, Problem};
use crate::random::Random;
use crate::search::{closed, first_kind, second_kind, Split};

/// The variables, field rows and sibling fields of variant type, each with its
/// type, in order of number.
pub fn choices<'p>(problem: &'p Problem) -> impl Iterator<Item = (usize, usize)> + 'p {
    let rows = &problem.guard.rows;
    let first_default = problem.default(0);
    problem.variant_terms().filter(move |&(term, _)| {
        term < first_default && !matches!(rows.get(term), Some(Row::Built { .. }))
    })
}

/// 2 × W − 1, where "W is a product of variant counts: one factor for each
/// variable of variant type, each field row of variant type, and each sister
/// field of variant type". Nothing if it is 2^128 or more.
pub fn most_nodes(problem: &Problem) -> Option<u128> {
    let types = &problem.guard.types;
    let mut factors = choices(problem).map(|(_, ty)| types[ty].variants.len() as u128);
    let w = factors.try_fold(1u128, |w, factor| w.checked_mul(factor))?;
    Some(w.checked_mul(2)? - 1)
}

/// "A permitted first-kind split is any field row that qualifies; a second-kind
/// split is any variable, field row or sister field that qualifies, with any of
/// its messages left." In order of kind, number and variant.
pub fn permitted(problem: &Problem, closure: &Closure) -> Vec<Split> {
    let mut splits = Vec::new();
    for read in &problem.reads {
        splits.extend(first_kind(closure, read));
    }
    for (term, ty) in choices(problem) {
        if second_kind(problem, closure, term, ty) {
            let left = variants(closure.label(term));
            splits.extend(left.map(|variant| Split::Second { term, variant }));
        }
    }
    splits
}

/// The variants of a label, in order.
fn variants(label: Label) -> impl Iterator<Item = usize> {
    (0..Label::BITS as usize).filter(move |variant| label >> variant & 1 == 1)
}

/// A split that is wished for: on a term, and perhaps on one variant of it.
#[derive(Clone, Copy, Debug, PartialEq, Eq)]
pub struct Wish {
    pub term: usize,
    pub variant: Option<usize>,
}

/// Which of the permitted splits is taken at a node.
#[derive(Clone, Debug)]
pub enum Rule {
    /// The first in order, which is the counted search's.
    First,
    /// The last in order.
    Last,
    /// At the root the first, below it the second, and so on, or the last.
    Depth,
    /// The first whose term has the most variants left.
    Most,
    /// The first whose term has the fewest variants left.
    Fewest,
    /// Any, by chance.
    Chance(Random),
    /// The first that the earliest of these wishes meets, or the first of all.
    Wishes(Vec<Wish>),
}

impl Rule {
    /// The rules that need nothing else, by name.
    pub fn named() -> [(&'static str, Rule); 5] {
        [
            ("first", Rule::First),
            ("last", Rule::Last),
            ("depth", Rule::Depth),
            ("most", Rule::Most),
            ("fewest", Rule::Fewest),
        ]
    }

    /// Reads wishes, as `3,0/1`: a split on term 3, or else on term 0 and its
    /// variant 1.
    pub fn wishes(text: &str) -> Option<Rule> {
        let wish = |word: &str| {
            let (term, variant) = match word.split_once('/') {
                Some((term, variant)) => (term, Some(variant.parse().ok()?)),
                None => (word, None),
            };
            let term = term.parse().ok()?;
            Some(Wish { term, variant })
        };
        text.split(',')
            .map(wish)
            .collect::<Option<_>>()
            .map(Rule::Wishes)
    }

    /// One of the splits, of which there is at least one.
    fn choose(&mut self, depth: usize, closure: &Closure, splits: &[Split]) -> Split {
        let left = |split: &&Split| closure.label(split.term()).count_ones();
        let (first, last) = (splits[0], splits[splits.len() - 1]);
        match self {
            Rule::First => first,
            Rule::Last => last,
            Rule::Depth => *splits.get(depth).unwrap_or(&last),
            // Of equal ones `max_by_key` takes the last, `min_by_key` the first.
            Rule::Most => *splits.iter().rev().max_by_key(left).unwrap_or(&first),
            Rule::Fewest => *splits.iter().min_by_key(left).unwrap_or(&first),
            Rule::Chance(random) => random.pick(splits).unwrap_or(first),
            Rule::Wishes(wishes) => {
                let meets = |wish: &Wish| {
                    splits.iter().find(|split| {
                        let variant = wish.variant.unwrap_or(split.variant());
                        (split.term(), split.variant()) == (wish.term, variant)
                    })
                };
                *wishes.iter().find_map(meets).unwrap_or(&first)
            }
        }
    }
}

/// A finished tree, counted.
#[derive(Clone, Copy, Debug, Default, PartialEq, Eq)]
pub struct Size {
    pub nodes: u32,
    /// The open leaves among them.
    pub open: u32,
}

/// The whole tree that a rule makes; nothing if it has more than `most` nodes.
pub fn tree(problem: &Problem, rule: Rule, most: u32) -> Option<Size> {
    let mut tree = Tree {
        problem,
        rule,
        most,
        decisions: Vec::new(),
        size: Size::default(),
    };
    tree.grow().then_some(tree.size)
}

struct Tree<'p> {
    problem: &'p Problem<'p>,
    rule: Rule,
    most: u32,
    decisions: Vec<Decision>,
    size: Size,
}

impl Tree<'_> {
    /// Both children of every node that is neither closed nor open. False if
    /// there are too many.
    fn grow(&mut self) -> bool {
        if self.size.nodes == self.most {
            return false;
        }
        self.size.nodes += 1;
        let closure = Closure::new(self.problem, &self.decisions);
        if closed(self.problem, &closure).is_some() {
            return true;
        }
        let splits = permitted(self.problem, &closure);
        if splits.is_empty() {
            self.size.open += 1;
            return true;
        }
        let depth = self.decisions.len();
        let split = self.rule.choose(depth, &closure, &splits);
        [true, false].into_iter().all(|is| {
            self.decisions.push(split.decision(is));
            let grown = self.grow();
            self.decisions.pop();
            grown
        })
    }
}

/// What all finished trees of a guard have in common.
#[derive(Clone, Copy, Debug, PartialEq, Eq)]
pub struct Trees {
    /// The nodes of the smallest and of the largest.
    pub fewest: u128,
    pub most: u128,
    /// Whether some tree, and whether every tree, has an open leaf.
    pub some_open: bool,
    pub all_open: bool,
}

/// All orders there are: each permitted split at each node. Nothing if that
/// takes more than so many closures.
pub fn all_trees(problem: &Problem, closures: u32) -> Option<Trees> {
    let mut orders = Orders {
        problem,
        closures_left: closures,
        known: HashMap::new(),
        decisions: Vec::new(),
    };
    orders.below()
}

struct Orders<'p> {
    problem: &'p Problem<'p>,
    closures_left: u32,
    /// What lies below a node depends on its closure alone.
    known: HashMap<Closure, Trees>,
    decisions: Vec<Decision>,
}

impl Orders<'_> {
    fn below(&mut self) -> Option<Trees> {
        self.closures_left = self.closures_left.checked_sub(1)?;
        let closure = Closure::new(self.problem, &self.decisions);
        if let Some(&trees) = self.known.get(&closure) {
            return Some(trees);
        }
        let is_closed = closed(self.problem, &closure).is_some();
        let splits = if is_closed {
            Vec::new()
        } else {
            permitted(self.problem, &closure)
        };
        let mut trees: Option<Trees> = None;
        for split in splits {
            let [yes, no] = self.children(split)?;
            let new = Trees {
                fewest: yes.fewest.saturating_add(no.fewest).saturating_add(1),
                most: yes.most.saturating_add(no.most).saturating_add(1),
                some_open: yes.some_open || no.some_open,
                all_open: yes.all_open || no.all_open,
            };
            trees = Some(trees.map_or(new, |old| Trees {
                fewest: old.fewest.min(new.fewest),
                most: old.most.max(new.most),
                some_open: old.some_open || new.some_open,
                all_open: old.all_open && new.all_open,
            }));
        }
        let leaf = Trees {
            fewest: 1,
            most: 1,
            some_open: !is_closed,
            all_open: !is_closed,
        };
        let trees = trees.unwrap_or(leaf);
        self.known.insert(closure, trees);
        Some(trees)
    }

    fn children(&mut self, split: Split) -> Option<[Trees; 2]> {
        let mut child = |is| {
            self.decisions.push(split.decision(is));
            let trees = self.below();
            self.decisions.pop();
            trees
        };
        Some([child(true)?, child(false)?])
    }
}

/// What was tried on one guard.
#[derive(Clone, Copy, Debug, Default, PartialEq, Eq)]
pub struct Tried {
    pub trees: usize,
    /// Whether all orders were tried.
    pub all: bool,
    /// Whether the size of the tree depends on the order.
    pub varied: bool,
}

/// The trees by the named rules and by so many random orders, and all orders
/// where that takes at most `most` closures: each has an open leaf exactly if
/// the guard can hold, and at most 2 × W − 1 nodes. It ends at a tree with more
/// than `most` nodes.
pub fn check(guard: &Guard, sat: bool, random: u64, most: u32) -> Result<Tried, String> {
    let problem = Problem::new(guard);
    let limit = most_nodes(&problem).unwrap_or(u128::MAX);
    let named = Rule::named().map(|(name, rule)| (name.to_string(), rule));
    let seeded = (0..random).map(|seed| (format!("seed {seed}"), Rule::Chance(Random::new(seed))));
    let mut tried = Tried::default();
    for (name, rule) in named.into_iter().chain(seeded) {
        let Some(Size { nodes, open }) = tree(&problem, rule, most) else {
            return Ok(tried);
        };
        tried.trees += 1;
        if (open > 0) != sat || u128::from(nodes) > limit {
            return Err(format!("{name}: {nodes} nodes, {open} open leaves"));
        }
    }
    if let Some(trees) = all_trees(&problem, most) {
        tried.all = true;
        tried.varied = trees.fewest != trees.most;
        if [trees.some_open, trees.all_open] != [sat; 2] || trees.most > limit {
            return Err(format!("all orders: {trees:?}"));
        }
    }
    Ok(tried)
}
