//! The guard desk for Rust programs: whether a guard over message fields can hold at all and, where it can, messages that
//! make it hold.
//!
//! [`decide`], [`load`], [`explain`], [`check`], [`write()`], [`merge`], [`store`], [`restore`], [`branches`], [`summarize`] and [`add_line`] are
//! safe functions over the proved library `libdesklink.a`. What that
//! library gives is proved for every file, budget, record and list; what this crate makes of it (types, text) is tested. A guard file is at
//! most 585 bytes long; its format is that of document 01, with values over 64 bits.
//!
//! ```
//! use guarddesk::{decide, Answer, Names};
//!
//! // Numbers, and lists of them: nil or cons. A list x, and nothing said of it but that it isn't nil.
//! let file = [2, 0, 2, 0, 2, 0, 1, 1, 0, 1, 1, 3, 0, 0];
//! let Answer::Sat { messages, .. } = decide(&file, 1000) else { panic!() };
//! let names = Names { variants: &[&[], &["nil", "cons"]] };
//! let x = messages.term(0).unwrap();
//! assert!(x.with_names(&names).to_string().starts_with("cons("));
//! ```
//!
//! [`explain`] has the branches of a guard that cannot hold, and [`check`] takes their record. [`write()`] makes guard files from
//! lists of their numbers, [`merge`] one of two guards that have to hold at once. [`store`] has a file with its term rows by column,
//! for slow memory, and [`restore`] gives it back. [`branches`] decides the branches of a procedure and
//! each pair of them; [`summarize`] tells which variants the terms of a guard can have, and [`add_line`] keeps that up to date.
//!
//! A call needs 820 KB of stack: the main thread and threads that [`std::thread::spawn`] makes by default have more.

mod branching;
mod columns;
mod fields;
mod merging;
mod messages;
mod numbers;
mod questions;
pub mod raw;
mod refutations;
mod summaries;
mod writer;

pub use branching::{branches, Branches, ProcedureRefusal, Verdict};
pub use columns::{restore, store, StoreRefusal};
pub use merging::{merge, MergeRefusal};
pub use messages::{Kind, Message, Messages, Named, Names, Parts};
pub use refutations::{check, Branch, Question, Reason, Refutation, Term};
pub use summaries::{add_line, summarize, Summary, SummaryRefusal};
pub use writer::{write, Refusal};

use std::fmt;

/// The answer to a guard file.
///
/// Its text is what the program `guarddesk` prints: the verdict with its number and, after SAT, the [`Messages`].
///
/// All but a refusal have the splits at the nodes that were visited, by kind, which say what the nodes went on. A larger budget
/// than one that suffices changes no count.
#[derive(Clone, Debug, PartialEq, Eq)]
pub enum Answer {
    /// The bytes are no guard file.
    Refused {
        /// The first question of document 01 that got a no, 2 to 10.
        question: u32,
    },
    /// The guard can hold.
    Sat {
        /// How many nodes the search visited.
        nodes: u32,
        /// How many of them asked whether a term is the variant that a field is read of.
        first_splits: u32,
        /// How many of them asked whether a term with only variants without fields left is the lowest of them.
        second_splits: u32,
        /// A message for each term of the file; with them the guard holds.
        messages: Messages,
    },
    /// The guard cannot hold, whatever the messages. There is a node more than twice the splits of both kinds.
    Unsat {
        /// How many nodes the search visited.
        nodes: u32,
        /// As after [`Answer::Sat`].
        first_splits: u32,
        /// As after [`Answer::Sat`].
        second_splits: u32,
    },
    /// The search takes more nodes than the budget.
    Spent {
        /// The budget.
        budget: u32,
        /// As after [`Answer::Sat`], at the nodes within the budget: at the last one too if it asked and got no answer.
        first_splits: u32,
        /// Likewise.
        second_splits: u32,
    },
}

/// Decides a guard file, visiting at most `budget` nodes of its search.
pub fn decide(file: &[u8], budget: u32) -> Answer {
    let mut rows = vec![0; raw::ROWS_LENGTH];
    let mut places = [0; raw::PLACES_LENGTH];
    let mut answer = [0; raw::ANSWER_LENGTH];
    let code = raw::decide_into(file, budget, &mut rows, &mut places, &mut answer);
    answered(file, code, answer, &rows, &places)
}

/// Decides a guard file of at most 3 types, 8 terms and 8 lines with a quarter of the memory, as the flight loader does: the answer
/// is that of [`decide`], but with other messages perhaps. A larger guard is refused, question 4.
///
/// ```
/// use guarddesk::{decide, load, Answer};
///
/// // A number type and nine variables of it: one more than the loader takes.
/// let file = [&[1, 0, 9][..], &[0, 0].repeat(9), &[0]].concat();
/// assert!(matches!(decide(&file, 1), Answer::Sat { nodes: 1, .. }));
/// assert_eq!(load(&file, 1), Answer::Refused { question: 4 });
/// ```
pub fn load(file: &[u8], budget: u32) -> Answer {
    let mut rows = vec![0; raw::LOADER_ROWS_LENGTH];
    let mut places = [0; raw::LOADER_PLACES_LENGTH];
    let mut answer = [0; raw::ANSWER_LENGTH];
    let code = raw::load_into(file, budget, &mut rows, &mut places, &mut answer);
    answered(file, code, answer, &rows, &places)
}

/// The answer that the numbers and the buffers of a call stand for.
fn answered(
    file: &[u8],
    code: u32,
    answer: [u32; raw::ANSWER_LENGTH],
    rows: &[i32],
    places: &[i32],
) -> Answer {
    let [verdict, number, many, first_splits, second_splits] = answer;
    match (code, verdict) {
        (raw::ANSWERED, raw::REFUSED) => Answer::Refused { question: number },
        (raw::ANSWERED, raw::SAT) => Answer::Sat {
            nodes: number,
            first_splits,
            second_splits,
            messages: Messages::read(file, many as usize, rows, places),
        },
        (raw::ANSWERED, raw::UNSAT) => Answer::Unsat {
            nodes: number,
            first_splits,
            second_splits,
        },
        (raw::ANSWERED, raw::SPENT) => Answer::Spent {
            budget: number,
            first_splits,
            second_splits,
        },
        _ => unreachable!("the library's contract has no such answer: code {code}, {answer:?}"),
    }
}

/// The answer to a guard file, and why a guard cannot hold.
#[derive(Clone, Debug, PartialEq, Eq)]
pub struct Explanation {
    /// The answer of [`decide`].
    pub answer: Answer,
    /// After [`Answer::Unsat`] and only then: the branches of the search.
    pub refutation: Option<Refutation>,
}

/// Decides a guard file as [`decide`] does and, if the guard cannot hold, has the branches that show it. Then the search runs a
/// second and a third time, for the record.
///
/// ```
/// use guarddesk::{check, explain, Branch, Reason, Term};
///
/// // Numbers, and lists of them: nil or cons. A list x that is nil and is cons.
/// let file = [2, 0, 2, 0, 2, 0, 1, 1, 0, 1, 2, 2, 0, 0, 2, 0, 1];
/// let refutation = explain(&file, 1000).refutation.expect("UNSAT");
/// assert_eq!(refutation.tree(), Branch::Closed(Reason::NoVariant(Term::Row(0))));
/// assert!(check(&file, refutation.bytes()).is_ok());
/// ```
pub fn explain(file: &[u8], budget: u32) -> Explanation {
    let answer = decide(file, budget);
    let refutation = match answer {
        Answer::Unsat { nodes, .. } => Some(refutation(file, nodes)),
        _ => None,
    };
    Explanation { answer, refutation }
}

/// The branches of a guard that cannot hold, and whose search has so many nodes.
fn refutation(file: &[u8], nodes: u32) -> Refutation {
    let mut rows = vec![0; raw::ROWS_LENGTH];
    let mut places = [0; raw::PLACES_LENGTH];
    let mut record = vec![0; raw::RECORD_BYTES_PER_NODE * nodes as usize];
    let mut answer = [0; raw::ANSWER_LENGTH];
    let many = raw::explain_into(
        file,
        nodes,
        &mut rows,
        &mut places,
        &mut record,
        &mut answer,
    );
    match (many, answer) {
        (Some(many), [raw::UNSAT, ..]) => record.truncate(many),
        _ => unreachable!("the library's contract has no such answer: {many:?}, {answer:?}"),
    }
    Refutation::new(record)
}

impl fmt::Display for Answer {
    fn fmt(&self, f: &mut fmt::Formatter<'_>) -> fmt::Result {
        match self {
            Answer::Refused { question } => writeln!(f, "REFUSED {question}"),
            Answer::Sat {
                nodes, messages, ..
            } => write!(f, "SAT {nodes}\n{messages}"),
            Answer::Unsat { nodes, .. } => writeln!(f, "UNSAT {nodes}"),
            Answer::Spent { budget, .. } => writeln!(f, "SPENT {budget}"),
        }
    }
}
