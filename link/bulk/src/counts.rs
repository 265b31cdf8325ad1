//! What was seen, counted.

use crate::calls::Expected;
use oracle::answer::Answer;
use std::fmt;

/// Counts of answers.
#[derive(Clone, Copy, Debug, Default, PartialEq, Eq)]
pub struct Answers {
    pub sat: u64,
    pub unsat: u64,
    pub spent: u64,
    /// By question, the first at 0.
    pub refused: [u64; 10],
}

impl Answers {
    fn add(&mut self, answer: Answer) {
        match answer {
            Answer::Sat { .. } => self.sat += 1,
            Answer::Unsat { .. } => self.unsat += 1,
            Answer::Spent { .. } => self.spent += 1,
            Answer::Refused(question) => self.refused[usize::from(question.number()) - 1] += 1,
        }
    }

    fn merge(&mut self, other: &Answers) {
        self.sat += other.sat;
        self.unsat += other.unsat;
        self.spent += other.spent;
        merge_all(&mut self.refused, &other.refused);
    }

    fn total(&self) -> u64 {
        self.sat + self.unsat + self.spent + self.refused.iter().sum::<u64>()
    }
}

fn merge_all(counts: &mut [u64], others: &[u64]) {
    for (count, more) in counts.iter_mut().zip(others) {
        *count += more;
    }
}

/// A line of the questions from `first` on.
fn by_question(f: &mut fmt::Formatter<'_>, first: usize, counts: &[u64]) -> fmt::Result {
    let numbered = counts.iter().enumerate();
    let counts: Vec<String> = numbered
        .map(|(i, count)| format!("{}: {count}", first + i))
        .collect();
    writeln!(f, "    refused by question {}", counts.join(", "))
}

impl fmt::Display for Answers {
    fn fmt(&self, f: &mut fmt::Formatter<'_>) -> fmt::Result {
        let Answers {
            sat, unsat, spent, ..
        } = self;
        let refused: u64 = self.refused.iter().sum();
        writeln!(
            f,
            "SAT {sat}, UNSAT {unsat}, SPENT {spent}, REFUSED {refused}"
        )?;
        by_question(f, 1, &self.refused)
    }
}

/// Counts of calls.
#[derive(Clone, Copy, Debug, Default, PartialEq, Eq)]
pub struct Calls {
    pub answers: Answers,
    /// REFUSED 11.
    pub outgrown: u64,
    /// Calls with too short an answer buffer.
    pub too_short: u64,
}

impl Calls {
    fn add(&mut self, expected: Expected) {
        match expected {
            Expected::Answer(answer) => self.answers.add(answer),
            Expected::Outgrown => self.outgrown += 1,
            Expected::TooShort => self.too_short += 1,
        }
    }

    fn merge(&mut self, other: &Calls) {
        self.answers.merge(&other.answers);
        self.outgrown += other.outgrown;
        self.too_short += other.too_short;
    }

    fn total(&self) -> u64 {
        self.answers.total() + self.outgrown + self.too_short
    }
}

impl fmt::Display for Calls {
    fn fmt(&self, f: &mut fmt::Formatter<'_>) -> fmt::Result {
        write!(f, "{}", self.answers)?;
        writeln!(
            f,
            "    too short a record buffer, REFUSED 11: {}",
            self.outgrown
        )?;
        writeln!(f, "    too short an answer buffer: {}", self.too_short)
    }
}

/// Counts of the answers of the checker, of a call that writes a file, of the branches' call or those of summaries, by number; 0 is
/// that of what is accepted.
#[derive(Clone, Copy, Debug, Default, PartialEq, Eq)]
pub struct Numbered(pub [u64; 20]);

impl Numbered {
    /// An answer that was right.
    pub fn add(&mut self, answer: u8) {
        self.0[usize::from(answer)] += 1;
    }

    pub fn total(&self) -> u64 {
        self.0.iter().sum()
    }
}

impl fmt::Display for Numbered {
    fn fmt(&self, f: &mut fmt::Formatter<'_>) -> fmt::Result {
        let accepted = self.0[0];
        let refused = self.total() - accepted;
        writeln!(f, "accepted {accepted}, REFUSED {refused}")?;
        by_question(f, 1, &self.0[1..])
    }
}

/// Counts of files and calls.
#[derive(Clone, Copy, Debug, Default, PartialEq, Eq)]
pub struct Counts {
    /// By the answer within the solver's limit; SPENT takes more nodes than that.
    pub files: Answers,
    pub decided: Calls,
    pub loaded: Calls,
    pub explained: Calls,
    pub checked: Numbered,
    pub written: Numbered,
    pub merged: Numbered,
    pub stored: Numbered,
    pub restored: Numbered,
    pub most_nodes: u32,
    pub most_rows: usize,
    /// Of the loader's calls.
    pub most_loaded: usize,
    /// In bytes.
    pub longest_record: usize,
}

impl Counts {
    /// A file with the solver's answer within its own limit.
    pub fn add_file(&mut self, answer: Answer, record: usize) {
        self.files.add(answer);
        if let Answer::Sat { nodes, .. } | Answer::Unsat { nodes, .. } = answer {
            self.most_nodes = self.most_nodes.max(nodes);
        }
        if let Answer::Unsat { .. } = answer {
            self.longest_record = self.longest_record.max(record);
        }
    }

    /// A call that was right, with its number of rows.
    pub fn add_decide(&mut self, expected: Expected, rows: usize) {
        self.decided.add(expected);
        self.most_rows = self.most_rows.max(rows);
    }

    /// The same of the loader.
    pub fn add_load(&mut self, expected: Expected, rows: usize) {
        self.loaded.add(expected);
        self.most_loaded = self.most_loaded.max(rows);
    }

    pub fn add_explain(&mut self, expected: Expected) {
        self.explained.add(expected);
    }

    /// Adds another thread's.
    pub fn merge(&mut self, other: &Counts) {
        self.files.merge(&other.files);
        self.decided.merge(&other.decided);
        self.loaded.merge(&other.loaded);
        self.explained.merge(&other.explained);
        merge_all(&mut self.checked.0, &other.checked.0);
        merge_all(&mut self.written.0, &other.written.0);
        merge_all(&mut self.merged.0, &other.merged.0);
        merge_all(&mut self.stored.0, &other.stored.0);
        merge_all(&mut self.restored.0, &other.restored.0);
        self.most_nodes = self.most_nodes.max(other.most_nodes);
        self.most_rows = self.most_rows.max(other.most_rows);
        self.most_loaded = self.most_loaded.max(other.most_loaded);
        self.longest_record = self.longest_record.max(other.longest_record);
    }
}

impl fmt::Display for Counts {
    fn fmt(&self, f: &mut fmt::Formatter<'_>) -> fmt::Result {
        let Counts {
            files,
            decided,
            loaded,
            explained,
            checked,
            written,
            merged,
            stored,
            restored,
            ..
        } = self;
        write!(f, "files {}: {files}", files.total())?;
        write!(f, "decide {}: {decided}", decided.total())?;
        write!(f, "load {}: {loaded}", loaded.total())?;
        write!(f, "explain {}: {explained}", explained.total())?;
        write!(f, "check {}: {checked}", checked.total())?;
        write!(f, "write {}: {written}", written.total())?;
        write!(f, "merge {}: {merged}", merged.total())?;
        write!(f, "store {}: {stored}", stored.total())?;
        write!(f, "restore {}: {restored}", restored.total())?;
        let (nodes, rows, record) = (self.most_nodes, self.most_rows, self.longest_record);
        writeln!(
            f,
            "most nodes {nodes}, most rows {rows}, {} of the loader, longest record {record}",
            self.most_loaded
        )
    }
}
