//! Small guards and messages, and what a guard says of them.

use oracle::guard::{Guard, Line, Row};
use oracle::random::{Profile, Types};
use oracle::types::{DefaultOf, Type};

#[derive(Clone, Debug, PartialEq)]
pub enum Message {
    Number(i64),
    Variant(usize, Vec<Message>),
}

/// Messages of each type that are tried.
const MOST: usize = 24;
const ROUNDS: usize = 4;

/// The smallest messages of each type, by rounds.
pub fn small_messages(guard: &Guard) -> Vec<Vec<Message>> {
    let numbers = [0, 1, 2, -1, 7, 8].map(Message::Number);
    let start = |ty: &Type| {
        if ty.is_number() {
            numbers.to_vec()
        } else {
            vec![]
        }
    };
    let mut known: Vec<Vec<Message>> = guard.types.iter().map(start).collect();
    for _ in 0..ROUNDS {
        let earlier = known.clone();
        for (ty, messages) in guard.types.iter().zip(&mut known) {
            for (variant, fields) in ty.variants.iter().enumerate() {
                let mut choices = vec![vec![]];
                for &field in fields {
                    choices = longer(&choices, &earlier[field]);
                }
                for parts in choices {
                    let message = Message::Variant(variant, parts);
                    if messages.len() < MOST && !messages.contains(&message) {
                        messages.push(message);
                    }
                }
            }
        }
    }
    known
}

fn longer(fronts: &[Vec<Message>], messages: &[Message]) -> Vec<Vec<Message>> {
    let mut all = Vec::new();
    for message in messages {
        for front in fronts {
            all.push([front.as_slice(), std::slice::from_ref(message)].concat());
        }
    }
    all.truncate(200);
    all
}

fn default(guard: &Guard, ty: usize) -> Message {
    match guard.defaults[ty] {
        DefaultOf::Zero => Message::Number(0),
        DefaultOf::Variant(variant) => {
            let fields = guard.fields(ty, variant).iter();
            Message::Variant(
                variant,
                fields.map(|&field| default(guard, field)).collect(),
            )
        }
    }
}

/// The value of a row over those of the rows before it; a variable has none.
pub fn value(guard: &Guard, row: usize, values: &[Message]) -> Option<Message> {
    Some(match &guard.rows[row] {
        Row::Variable { .. } => return None,
        Row::Constant { value, .. } => Message::Number(*value),
        Row::Built { variant, parts, .. } => {
            let parts = parts.iter().map(|&part| values[part].clone()).collect();
            Message::Variant(*variant, parts)
        }
        Row::Read {
            term,
            variant,
            position,
        } => match &values[*term] {
            Message::Variant(shown, parts) if shown == variant => parts[*position].clone(),
            _ => default(guard, guard.row_types[row]),
        },
    })
}

pub fn holds(line: &Line, values: &[Message]) -> bool {
    let is = |term: usize, variant| matches!(&values[term], Message::Variant(shown, _) if *shown == variant);
    match *line {
        Line::Equal(a, b) => values[a] == values[b],
        Line::Unequal(a, b) => values[a] != values[b],
        Line::Is(term, variant) => is(term, variant),
        Line::Isnt(term, variant) => !is(term, variant),
    }
}

/// Guards with few rows and lines, of such kinds.
pub fn tiny(row_kinds: [usize; 4], line_kinds: [usize; 4]) -> Profile {
    Profile {
        name: "tiny",
        types: Types::Made {
            types: 1..=3,
            numbers: 30,
            enumerations: 25,
            variants: 1..=3,
            fields: [4, 3, 2, 1],
        },
        rows: 1..=6,
        lines: 1..=6,
        row_kinds,
        line_kinds,
        deep: 30,
        values: vec![0, 1, 2, -1],
    }
}
