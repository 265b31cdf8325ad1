//! The branches of a procedure: which of them can run, and which two together.

use crate::questions::why;
use crate::raw;
use std::fmt;

/// The verdict on a branch, or on two together.
#[derive(Clone, Copy, Debug, PartialEq, Eq)]
pub enum Verdict {
    /// It can run.
    Sat,
    /// It can never run.
    Unsat,
    /// The search takes more nodes than the budget.
    Spent,
}

impl Verdict {
    fn numbered(number: u8) -> Verdict {
        match u32::from(number) {
            raw::SAT => Verdict::Sat,
            raw::UNSAT => Verdict::Unsat,
            raw::SPENT => Verdict::Spent,
            _ => unreachable!("the library's contract has no such verdict: {number}"),
        }
    }
}

/// The first question about the file of a procedure that got a no.
#[derive(Clone, Copy, Debug, PartialEq, Eq)]
pub struct ProcedureRefusal(pub u32);

impl fmt::Display for ProcedureRefusal {
    fn fmt(&self, f: &mut fmt::Formatter<'_>) -> fmt::Result {
        let why = match self.0 {
            2 => "the file ends within a number",
            3 => "a number is not in its one form",
            10 => "bytes follow the last branch",
            19 => "the number of branches is outside its limits",
            question => why(question),
        };
        write!(f, "question {}: {why}", self.0)
    }
}

impl std::error::Error for ProcedureRefusal {}

/// The verdicts on the branches of a procedure and on each pair of them.
///
/// Its text is what the program `branchdesk` prints: the dead branches, the pairs that can run together, and what took more nodes than
/// the budget.
#[derive(Clone, Debug, PartialEq, Eq)]
pub struct Branches {
    branches: Vec<Verdict>,
    /// By lower branch, then higher.
    pairs: Vec<(usize, usize, Verdict)>,
}

impl Branches {
    /// The verdict on each branch, in order.
    pub fn branches(&self) -> &[Verdict] {
        &self.branches
    }

    /// Each pair, the lower branch first, and the verdict on it; by lower branch, then higher.
    pub fn pairs(&self) -> &[(usize, usize, Verdict)] {
        &self.pairs
    }

    /// The verdict on two branches together, in either order; nothing if one isn't there or they are the same.
    pub fn pair(&self, a: usize, b: usize) -> Option<Verdict> {
        let wanted = (a.min(b), a.max(b));
        let found = self.pairs.iter().find(|pair| (pair.0, pair.1) == wanted);
        found.map(|pair| pair.2)
    }

    /// The branches with this verdict, rising: after [`Verdict::Unsat`] those that can never run.
    pub fn having(&self, verdict: Verdict) -> impl Iterator<Item = usize> + '_ {
        let numbered = self.branches.iter().enumerate();
        numbered.filter_map(move |(i, &found)| (found == verdict).then_some(i))
    }

    /// The pairs with this verdict, rising: after [`Verdict::Sat`] those that can run together.
    pub fn pairs_having(&self, verdict: Verdict) -> impl Iterator<Item = (usize, usize)> + '_ {
        let pairs = self.pairs.iter();
        pairs.filter_map(move |&(a, b, found)| (found == verdict).then_some((a, b)))
    }
}

impl fmt::Display for Branches {
    fn fmt(&self, f: &mut fmt::Formatter<'_>) -> fmt::Result {
        for branch in self.having(Verdict::Unsat) {
            writeln!(f, "dead {branch}")?;
        }
        for (a, b) in self.pairs_having(Verdict::Sat) {
            writeln!(f, "pair {a} {b}")?;
        }
        for branch in self.having(Verdict::Spent) {
            writeln!(f, "spent {branch}")?;
        }
        for (a, b) in self.pairs_having(Verdict::Spent) {
            writeln!(f, "spent {a} {b}")?;
        }
        Ok(())
    }
}

/// Decides each branch of a procedure and each pair of branches, visiting at most `budget` nodes for each of them. The file has types and
/// terms as a guard file, then the number of branches, 1 to 8, and for each of them the number of its lines and the lines.
///
/// ```
/// use guarddesk::{branches, ProcedureRefusal, Verdict};
///
/// // Numbers, and lists of them: nil or cons. A list x; a branch where it is nil and one where it isn't.
/// let file = [2, 0, 2, 0, 2, 0, 1, 1, 0, 1, 2, 1, 2, 0, 0, 1, 3, 0, 0];
/// let told = branches(&file, 1000)?;
/// assert_eq!(told.branches(), [Verdict::Sat, Verdict::Sat]);
/// assert_eq!(told.pair(0, 1), Some(Verdict::Unsat));
/// // A procedure has at least one branch.
/// assert_eq!(branches(&[0, 0, 0], 1000), Err(ProcedureRefusal(19)));
/// # Ok::<(), ProcedureRefusal>(())
/// ```
pub fn branches(procedure: &[u8], budget: u32) -> Result<Branches, ProcedureRefusal> {
    let mut out = [0; raw::BRANCHES_LENGTH];
    let code = raw::branches_into(procedure, budget, &mut out);
    let many = usize::try_from(code).map_err(|_| ProcedureRefusal(code.unsigned_abs() as u32))?;
    let (front, behind) = out.split_at(many);
    let names = (0..many).flat_map(|a| (a + 1..many).map(move |b| (a, b)));
    let pairs = names.zip(behind);
    Ok(Branches {
        branches: front.iter().map(|&n| Verdict::numbered(n)).collect(),
        pairs: pairs
            .map(|((a, b), &n)| (a, b, Verdict::numbered(n)))
            .collect(),
    })
}

#[cfg(test)]
mod tests {
    use super::*;
    use Verdict::{Sat, Spent, Unsat};

    // A list and its tail, in document 01's types; what follows is the number of branches.
    const LIST_AND_TAIL: &[u8] = &[2, 0, 2, 0, 2, 0, 1, 2, 0, 1, 3, 0, 1, 1];
    // It is its own tail; it is its own tail and a cons; it isn't a cons.
    const THREE: &[u8] = &[3, 1, 0, 0, 1, 2, 0, 0, 1, 2, 0, 1, 1, 3, 0, 1];

    fn told(behind: &[u8], budget: u32) -> Result<Branches, ProcedureRefusal> {
        branches(&[LIST_AND_TAIL, behind].concat(), budget)
    }

    #[test]
    fn three_branches() {
        let three = |budget| told(THREE, budget).expect("accepted");
        let all = three(9);
        assert_eq!(all.branches(), [Sat, Unsat, Sat]);
        assert_eq!(all.pairs(), [(0, 1, Unsat), (0, 2, Sat), (1, 2, Unsat)]);
        assert_eq!(all.to_string(), "dead 1\npair 0 2\n");
        assert_eq!(
            [
                all.pair(2, 0),
                all.pair(2, 1),
                all.pair(1, 1),
                all.pair(0, 3)
            ],
            [Some(Sat), Some(Unsat), None, None]
        );
        assert_eq!(three(2).branches(), [Spent, Unsat, Sat]);
        assert_eq!(three(2).to_string(), "dead 1\npair 0 2\nspent 0\n");
        let none = "spent 0\nspent 1\nspent 2\nspent 0 1\nspent 0 2\nspent 1 2\n";
        assert_eq!(three(0).to_string(), none);
    }

    #[test]
    fn one_branch_and_eight() {
        let one = told(&[1, 0], 9).expect("accepted");
        assert_eq!((one.branches(), one.pairs()), (&[Sat][..], &[][..]));
        let eight = told(&[8, 0, 0, 0, 0, 0, 0, 0, 0], 9).expect("accepted");
        assert_eq!(eight.branches(), [Sat; 8]);
        assert_eq!(eight.pairs_having(Sat).count(), 28);
        assert_eq!(eight.pairs()[27], (6, 7, Sat));
    }

    #[test]
    fn refusals_say_why() {
        let why = |behind| told(behind, 9).unwrap_err().to_string();
        let count = "question 19: the number of branches is outside its limits";
        assert_eq!(why(&[0]), count);
        assert_eq!(why(&[9]), count);
        assert_eq!(why(&[]), "question 2: the file ends within a number");
        let form = "question 3: a number is not in its one form";
        assert_eq!(why(&[0x88, 0]), form);
        assert_eq!(why(&[1, 33]), "question 4: a count is outside its limits");
        let named = "question 5: something named is not there";
        assert_eq!(why(&[2, 0, 1, 0, 0, 2]), named);
        assert_eq!(why(&[1, 0, 0]), "question 10: bytes follow the last branch");
    }
}
