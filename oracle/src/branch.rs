//! Request #113: the branches of a procedure, which of them can run and which
//! two together.

use crate::encode::{bytes, Draft, Role, Token};
use crate::guard::{Guard, Limits, Line};
use crate::read::{read_procedure, Question};
use crate::search::{search, End};

/// "B (1 to 8) branches."
pub const BRANCHES: usize = 8;

/// "A lent buffer of at least 36 bytes."
pub const BUFFER: usize = 36;

/// "A pair goes to the desk .. under a line limit of 64."
const PAIR: Limits = Limits {
    lines: 64,
    ..Limits::BASE
};

/// "One file part with types and terms, then B branches, each with its own L
/// and lines."
#[derive(Clone, Debug, PartialEq, Eq)]
pub struct Procedure {
    /// The types and the terms: a guard without lines.
    pub head: Guard,
    pub branches: Vec<Vec<Line>>,
}

/// The numbers of the branches, then those of the pairs.
#[derive(Clone, Debug, PartialEq, Eq)]
pub struct Codes {
    pub branches: Vec<u8>,
    /// "By lower branch, then higher."
    pub pairs: Vec<u8>,
}

impl Codes {
    /// "One for each branch, then one for each pair .. 0 past the last", in a
    /// buffer of so many bytes.
    pub fn buffer(&self, room: usize) -> Vec<u8> {
        let mut out = [&self.branches[..], &self.pairs].concat();
        out.resize(room, 0);
        out
    }
}

/// The pairs of so many branches, "by lower branch, then higher".
pub fn pairs(many: usize) -> Vec<(usize, usize)> {
    let above = |a| (a + 1..many).map(move |b| (a, b));
    (0..many).flat_map(above).collect()
}

impl Procedure {
    /// The guard of these lines.
    fn guard(&self, lines: Vec<Line>, limits: Limits) -> Guard {
        Guard {
            limits,
            lines,
            ..self.head.clone()
        }
    }

    /// The guards that are asked, first those of the branches, then those of the
    /// pairs: "lower branch's lines first".
    pub fn asked(&self) -> (Vec<Guard>, Vec<Guard>) {
        let alone = self.branches.iter();
        let both = |(a, b): (usize, usize)| {
            let lines = [&self.branches[a][..], &self.branches[b]].concat();
            self.guard(lines, PAIR)
        };
        (
            alone
                .map(|lines| self.guard(lines.clone(), self.head.limits))
                .collect(),
            pairs(self.branches.len()).into_iter().map(both).collect(),
        )
    }

    /// "1 SAT, 2 UNSAT, 3 SPENT."
    pub fn codes(&self, budget: u32) -> Codes {
        let code = |guard: &Guard| match search(guard, budget).0 {
            End::Open => 1,
            End::Closed => 2,
            End::Spent => 3,
        };
        let (branches, pairs) = self.asked();
        Codes {
            branches: branches.iter().map(code).collect(),
            pairs: pairs.iter().map(code).collect(),
        }
    }
}

/// The numbers of a procedure for a buffer of so many bytes: "a shorter one is 1".
pub fn branches(file: &[u8], budget: u32, room: usize) -> Result<Codes, Question> {
    Question::BuffersLongEnough.ask(room >= BUFFER)?;
    Ok(read_procedure(file, Limits::BASE)?.codes(budget))
}

/// What the program `branchdesk` prints: "the branches that can never run, the
/// pairs that can run together, and apart what came out SPENT", "branches before
/// pairs, or REFUSED and its number".
pub fn printed(file: &[u8], budget: u32) -> String {
    let codes = match branches(file, budget, BUFFER) {
        Ok(codes) => codes,
        Err(question) => return format!("REFUSED {}\n", question.number()),
    };
    let pairs = pairs(codes.branches.len());
    let alone = |word: &str, wanted: u8| {
        let numbered = codes.branches.iter().enumerate();
        let found = numbered.filter(|(_, code)| **code == wanted);
        found
            .map(|(branch, _)| format!("{word} {branch}\n"))
            .collect::<String>()
    };
    let both = |word: &str, wanted: u8| {
        let found = pairs.iter().zip(&codes.pairs);
        let found = found.filter(|(_, code)| **code == wanted);
        found
            .map(|((a, b), _)| format!("{word} {a} {b}\n"))
            .collect::<String>()
    };
    [
        alone("dead", 2),
        both("pair", 1),
        alone("spent", 3),
        both("spent", 3),
    ]
    .concat()
}

/// The numbers of the file of a procedure: the types and terms of a draft, whose
/// own lines are left out, and these branches.
pub fn tokens(draft: &Draft, branches: &[Vec<Line>]) -> Vec<Token> {
    let with = |lines: &[Line]| {
        let lines = lines.to_vec();
        let draft = Draft {
            lines,
            ..draft.clone()
        };
        draft.tokens(Limits::BASE)
    };
    let mut out = with(&[]);
    // Its number of lines goes; the number of branches stands there.
    out.pop();
    let head = out.len();
    out.push(Token {
        role: Role::Count { limit: BRANCHES },
        number: branches.len() as u64,
    });
    for lines in branches {
        out.extend(&with(lines)[head..]);
    }
    out
}

/// The bytes of such a file.
pub fn file(draft: &Draft, branches: &[Vec<Line>]) -> Vec<u8> {
    bytes(&tokens(draft, branches))
}

#[cfg(test)]
mod tests {
    use super::*;

    /// A list and its tail, in document 01's types; then the number of branches.
    const LIST_AND_TAIL: &[u8] = &[2, 0, 2, 0, 2, 0, 1, 2, 0, 1, 3, 0, 1, 1];

    /// It is its own tail; it is its own tail and a cons; it isn't a cons.
    const THREE: &[u8] = &[3, 1, 0, 0, 1, 2, 0, 0, 1, 2, 0, 1, 1, 3, 0, 1];

    fn with(behind: &[u8]) -> Vec<u8> {
        [LIST_AND_TAIL, behind].concat()
    }

    fn told(behind: &[u8], budget: u32) -> Result<Vec<u8>, u8> {
        let codes = branches(&with(behind), budget, BUFFER).map_err(Question::number)?;
        let mut out = codes.buffer(BUFFER);
        let many = codes.branches.len();
        assert!(out[many * (many + 1) / 2..].iter().all(|&code| code == 0));
        out.truncate(many * (many + 1) / 2);
        Ok(out)
    }

    #[test]
    fn three_branches() {
        assert_eq!(told(THREE, 9), Ok(vec![1, 2, 1, 2, 1, 2]));
        assert_eq!(told(THREE, 2), Ok(vec![3, 2, 1, 2, 1, 2]));
        assert_eq!(told(THREE, 0), Ok(vec![3; 6]));
        assert_eq!(printed(&with(THREE), 9), "dead 1\npair 0 2\n");
        assert_eq!(printed(&with(THREE), 2), "dead 1\npair 0 2\nspent 0\n");
        let none = "spent 0\nspent 1\nspent 2\nspent 0 1\nspent 0 2\nspent 1 2\n";
        assert_eq!(printed(&with(THREE), 0), none);
    }

    #[test]
    fn one_branch_and_eight() {
        assert_eq!(told(&[1, 0], 9), Ok(vec![1]));
        assert_eq!(told(&[8, 0, 0, 0, 0, 0, 0, 0, 0], 9), Ok(vec![1; 36]));
    }

    /// That the list is nil, said so many times in each of two branches.
    fn often(many: u8) -> Vec<u8> {
        let lines = [&[many][..], &[2, 0, 0].repeat(usize::from(many))].concat();
        [&[2][..], &lines, &lines].concat()
    }

    #[test]
    fn limits_of_lines() {
        assert_eq!(told(&often(32), 9), Ok(vec![1, 1, 1]));
        assert_eq!(told(&often(33), 9), Err(4));
    }

    #[test]
    fn refusals() {
        for (behind, question) in [
            (&[0][..], 19),
            (&[9], 19),
            (&[0xff, 0xff, 0xff, 0xff, 0x0f], 19),
            (&[0x88, 0x00], 3),
            (&[0x88], 2),
            (&[], 2),
            (&[2, 0], 2),
            (&[2, 0, 1, 4], 6),
            (&[2, 0, 1, 0, 0, 2], 5),
            (&[2, 0, 0, 0], 10),
        ] {
            assert_eq!(told(behind, 9), Err(question), "{behind:?}");
            let line = format!("REFUSED {question}\n");
            assert_eq!(printed(&with(behind), 9), line);
        }
        let asked = |file: &[u8], room| branches(file, 9, room).map_err(Question::number);
        // In the types and terms, as of a guard file.
        assert_eq!(asked(&[1, 1, 1, 0], BUFFER), Err(8));
        assert_eq!(asked(&[2, 1, 0, 1, 1, 0], BUFFER), Err(9));
        assert_eq!(asked(&[1, 0, 1, 2, 0], BUFFER), Err(7));
        // Before anything of the file.
        assert_eq!(asked(&[], BUFFER - 1), Err(1));
        assert_eq!(asked(&with(THREE), 0), Err(1));
        assert!(asked(&with(THREE), BUFFER + 1).is_ok());
    }

    #[test]
    fn files_of_procedures() {
        let head = read_procedure(&with(THREE), Limits::BASE).expect("accepted");
        let draft = Draft::of(&head.head);
        assert_eq!(file(&draft, &head.branches), with(THREE));
    }
}
