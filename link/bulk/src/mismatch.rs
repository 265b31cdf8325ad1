//! What went wrong, with all that it takes to see it again.

use std::fmt;

/// A call that went wrong.
#[derive(Debug)]
pub struct Mismatch {
    /// What was asked and what came back, each with its name.
    pub facts: Vec<(&'static str, String)>,
    pub why: String,
}

impl fmt::Display for Mismatch {
    fn fmt(&self, f: &mut fmt::Formatter<'_>) -> fmt::Result {
        for (name, fact) in &self.facts {
            writeln!(f, "{name:10}{fact}")?;
        }
        writeln!(f, "fault     {}", self.why)
    }
}
