//! The desk behind two calls: the proved library, through the crate `guarddesk`.

use guarddesk::{Kind, Refutation};

/// A row of a shown message; its parts are rows too.
#[derive(Clone, Debug, PartialEq, Eq)]
pub enum Message {
    Number {
        ty: usize,
        value: i64,
    },
    Built {
        ty: usize,
        variant: usize,
        parts: Vec<usize>,
    },
}

/// The splits at the nodes that were visited.
#[derive(Clone, Copy, Debug, Default, PartialEq, Eq)]
pub struct Splits {
    /// Of the first kind: whether a term is the variant that a field is read of.
    pub reads: u32,
    /// Of the second kind: which of its variants without fields a term is.
    pub values: u32,
}

#[derive(Clone, Debug, PartialEq, Eq)]
pub enum Answer {
    /// The number of the question that got a no.
    Refused(u32),
    Sat {
        nodes: u32,
        splits: Splits,
        rows: Vec<Message>,
        /// The row of each term.
        places: Vec<usize>,
    },
    Unsat {
        nodes: u32,
        splits: Splits,
    },
    Spent {
        budget: u32,
        splits: Splits,
    },
}

/// The answer to a guard file within a budget of nodes.
pub fn decide(file: &[u8], budget: u32) -> Answer {
    answer(guarddesk::decide(file, budget))
}

/// The same, and the branches of a guard that can't hold.
pub fn explain(file: &[u8], budget: u32) -> (Answer, Option<Refutation>) {
    let explanation = guarddesk::explain(file, budget);
    (answer(explanation.answer), explanation.refutation)
}

fn answer(answer: guarddesk::Answer) -> Answer {
    let splits = |reads, values| Splits { reads, values };
    match answer {
        guarddesk::Answer::Refused { question } => Answer::Refused(question),
        guarddesk::Answer::Sat {
            nodes,
            first_splits,
            second_splits,
            messages,
        } => Answer::Sat {
            nodes,
            splits: splits(first_splits, second_splits),
            rows: messages.rows().map(row).collect(),
            places: messages.terms().map(|message| message.row()).collect(),
        },
        guarddesk::Answer::Unsat {
            nodes,
            first_splits,
            second_splits,
        } => Answer::Unsat {
            nodes,
            splits: splits(first_splits, second_splits),
        },
        guarddesk::Answer::Spent {
            budget,
            first_splits,
            second_splits,
        } => Answer::Spent {
            budget,
            splits: splits(first_splits, second_splits),
        },
    }
}

fn row(message: guarddesk::Message) -> Message {
    let ty = message.ty().into();
    match message.kind() {
        Kind::Number(value) => Message::Number { ty, value },
        Kind::Variant(variant, parts) => Message::Built {
            ty,
            variant: variant.into(),
            parts: parts.map(|part| part.row()).collect(),
        },
    }
}

#[cfg(test)]
mod tests {
    use super::*;

    #[test]
    fn messages_have_rows_and_places() {
        // Numbers; lists of them. A list, the number -3 and a cons of it over nil that equals the list.
        let file = [
            &[2, 0, 2, 0, 2, 0, 1][..],
            &[4, 0, 1, 1, 0, 5, 2, 1, 0, 2, 1, 1, 1, 2],
            &[1, 0, 0, 3],
        ];
        let rows = vec![
            Message::Number { ty: 0, value: -3 },
            Message::Built {
                ty: 1,
                variant: 0,
                parts: vec![],
            },
            Message::Built {
                ty: 1,
                variant: 1,
                parts: vec![0, 1],
            },
        ];
        let places = vec![2, 0, 1, 2];
        let sat = Answer::Sat {
            nodes: 1,
            splits: Splits::default(),
            rows,
            places,
        };
        assert_eq!(decide(&file.concat(), 1), sat);
    }

    #[test]
    fn budgets_are_exact() {
        // Three flags that all differ.
        let unequal = [1, 0, 1, 1, 0, 2, 1, 1, 2];
        let file = [&[1, 2, 0, 0, 3, 0, 0, 0, 0, 0, 0, 3][..], &unequal].concat();
        let splits = |values| Splits { reads: 0, values };
        let unsat = Answer::Unsat {
            nodes: 11,
            splits: splits(5),
        };
        assert_eq!(decide(&file, 11), unsat);
        assert_eq!(decide(&file, u32::MAX), unsat);
        for (budget, values) in [(0, 0), (1, 1), (2, 2), (6, 3), (10, 5)] {
            let splits = splits(values);
            assert_eq!(decide(&file, budget), Answer::Spent { budget, splits });
        }
        assert_eq!(decide(&[1, 1, 1, 0], 0), Answer::Refused(8));
    }

    #[test]
    fn splits_on_a_field_read() {
        // Numbers; lists of them. A list that is its own tail.
        let file = [2, 0, 2, 0, 2, 0, 1, 2, 0, 1, 3, 0, 1, 1, 1, 0, 0, 1];
        let one = Splits {
            reads: 1,
            values: 0,
        };
        let Answer::Sat { nodes, splits, .. } = decide(&file, 3) else {
            panic!("not SAT");
        };
        assert_eq!((nodes, splits), (3, one));
        let spent = |budget, splits| Answer::Spent { budget, splits };
        assert_eq!(decide(&file, 2), spent(2, one));
        assert_eq!(decide(&file, 1), spent(1, one));
        assert_eq!(decide(&file, 0), spent(0, Splits::default()));
    }
}
