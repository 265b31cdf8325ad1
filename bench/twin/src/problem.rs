//! A guard as the search needs it, with the places of crate `problem`.

use std::cmp::Ordering;

use crate::guard::{Few, Guard, Label, Line, Row, Term};

/// Places of a state; the terms are below `TERMS`.
pub const PLACES: usize = 96;
pub const TERMS: usize = 78;
pub const ROWS: usize = 24;
/// Shapes and constants have a slot for each row and for each type's default.
pub const SLOTS: usize = 30;

/// The term of the default of type 0.
const DEFAULTS: Term = 72;

/// A term built by a variant, or one read, which is built where the others have gone.
#[derive(Clone, Copy, Default)]
pub struct Shape {
    pub owner: Term,
    /// One more than 16 times the type, plus the variant; 0 in an empty slot.
    pub kind: u8,
    /// The variants that must have gone.
    pub others: Label,
    pub parts: Few,
}

#[derive(Clone, Copy, Default)]
pub struct Read {
    pub term: Term,
    /// Of type, variant and position; 0 in an empty slot.
    pub key: u16,
    pub variant: Label,
    pub default: Term,
}

#[derive(Clone, Copy, Default)]
pub struct Constant {
    pub term: Term,
    /// One more than the type; 0 in an empty slot.
    pub sort: u8,
    pub value: i64,
}

pub struct Problem<'g> {
    pub shapes: [Shape; SLOTS],
    pub reads: [Read; ROWS],
    /// The type of each term, plus one.
    pub sorts: [u8; PLACES],
    /// By type plus one: all variants, and the fieldless ones.
    full: [Label; 8],
    fieldless: [Label; 8],
    pub constants: [Constant; SLOTS],
    pub lines: &'g [Line],
    /// The terms of variant type, in rising order, and how many there are.
    labelled: ([Term; PLACES], usize),
}

impl<'g> Problem<'g> {
    pub fn new(guard: &'g Guard) -> Problem<'g> {
        let mut problem = Problem {
            shapes: Default::default(),
            reads: Default::default(),
            sorts: [0; PLACES],
            full: [0; 8],
            fieldless: [0; 8],
            constants: Default::default(),
            lines: &guard.lines,
            labelled: ([0; PLACES], 0),
        };
        for row in 0..guard.rows.len() {
            problem.add_row(guard, row as Term);
        }
        for ty in 0..guard.types.len() {
            problem.add_type(guard, ty as u8);
        }
        for term in 0..TERMS as Term {
            if problem.full(term) != 0 {
                let (terms, many) = &mut problem.labelled;
                terms[*many] = term;
                *many += 1;
            }
        }
        problem
    }

    fn add_row(&mut self, guard: &Guard, row: Term) {
        let slot = usize::from(row);
        let ty = guard.row_types[slot];
        self.sorts[slot] = 1 + ty;
        match guard.rows[slot] {
            Row::Variable => {}
            Row::Constant(value) => self.constants[slot] = constant(row, ty, value),
            Row::Built { variant, parts } => self.shapes[slot] = shape(row, ty, variant, 0, parts),
            Row::Read {
                term,
                variant,
                position,
            } => self.add_read(guard, row, term, variant, position),
        }
    }

    fn add_read(&mut self, guard: &Guard, row: Term, term: Term, variant: u8, position: u8) {
        let slot = usize::from(row);
        let ty = guard.row_types[usize::from(term)];
        let siblings = ROWS as Term + 2 * row;
        let mut parts = Few::default();
        for (&field, place) in guard.fields(ty, variant).iter().zip(0..) {
            let part = match place.cmp(&position) {
                Ordering::Less => siblings + place,
                Ordering::Equal => row,
                Ordering::Greater => siblings + place - 1,
            };
            self.sorts[usize::from(part)] = 1 + field;
            parts.push(part);
        }
        let only = 1 << variant;
        self.shapes[slot] = shape(term, ty, variant, !only, parts);
        self.reads[slot] = Read {
            term,
            key: 1 + 64 * u16::from(ty) + 4 * u16::from(variant) + u16::from(position),
            variant: only,
            default: DEFAULTS + guard.row_types[slot],
        };
    }

    /// The labels of a type, and its default.
    fn add_type(&mut self, guard: &Guard, t: u8) {
        let ty = &guard.types[usize::from(t)];
        let sort = 1 + usize::from(t);
        self.full[sort] = ty.label(|_| true);
        self.fieldless[sort] = ty.label(|fields| fields.is_empty());
        let term = DEFAULTS + t;
        self.sorts[usize::from(term)] = 1 + t;
        let slot = ROWS + usize::from(t);
        if ty.is_number() {
            self.constants[slot] = constant(term, t, 0);
            return;
        }
        let variant = guard.defaults[usize::from(t)];
        let mut parts = Few::default();
        for &field in guard.fields(t, variant).iter() {
            parts.push(DEFAULTS + field);
        }
        self.shapes[slot] = shape(term, t, variant, 0, parts);
    }

    /// The terms that have a label.
    pub fn labelled(&self) -> &[Term] {
        &self.labelled.0[..self.labelled.1]
    }

    /// The fieldless variants of a term's type.
    pub fn fieldless(&self, term: Term) -> Label {
        self.fieldless[self.sorts[term as usize] as usize]
    }

    /// All variants of a term's type.
    pub fn full(&self, term: Term) -> Label {
        self.full[self.sorts[term as usize] as usize]
    }
}

fn constant(term: Term, ty: u8, value: i64) -> Constant {
    Constant {
        term,
        sort: 1 + ty,
        value,
    }
}

fn shape(owner: Term, ty: u8, variant: u8, others: Label, parts: Few) -> Shape {
    Shape {
        owner,
        kind: 1 + 16 * ty + variant,
        others,
        parts,
    }
}
