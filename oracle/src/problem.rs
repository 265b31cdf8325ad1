//! The terms of the search: rows, sibling fields and defaults.

use std::cmp::Ordering;

use crate::guard::{Guard, Row};
use crate::types::DefaultOf;

/// A set of variants, one bit each.
pub type Label = u16;

/// The label that holds one variant alone.
pub fn only(variant: usize) -> Label {
    1 << variant
}

/// Does the label hold no other variant? An emptied label "still counts as
/// each one variant alone".
pub fn is_alone(label: Label, variant: usize) -> bool {
    label & !only(variant) == 0
}

/// A term known to be a variant over parts.
#[derive(Clone, Debug, PartialEq, Eq)]
pub struct Built {
    pub term: usize,
    pub ty: usize,
    pub variant: usize,
    pub parts: Vec<usize>,
}

/// A field row, with what the rules about it need.
#[derive(Clone, Debug)]
pub struct Read {
    pub row: usize,
    pub position: usize,
    /// The default of the field's type.
    pub default: usize,
    /// The read term as the variant built from the read and its siblings;
    /// true only where the label of the read term is that variant alone.
    pub whole: Built,
}

/// A term with a known number.
#[derive(Clone, Copy, Debug)]
pub struct Constant {
    pub term: usize,
    pub ty: usize,
    pub value: i64,
}

/// A guard with all its terms listed.
pub struct Problem<'g> {
    pub guard: &'g Guard,
    /// The type of each term number; `None` where there is no such term.
    pub types: Vec<Option<usize>>,
    pub constants: Vec<Constant>,
    /// Built rows and the defaults of variant types.
    pub built: Vec<Built>,
    pub reads: Vec<Read>,
    /// The fieldless variants of each type.
    pub fieldless: Vec<Label>,
}

impl<'g> Problem<'g> {
    pub fn new(guard: &'g Guard) -> Problem<'g> {
        let limits = guard.limits;
        let mut problem = Problem {
            guard,
            types: vec![None; 3 * limits.terms + limits.types],
            constants: Vec::new(),
            built: Vec::new(),
            reads: Vec::new(),
            fieldless: Vec::new(),
        };
        for row in 0..guard.rows.len() {
            problem.add_row(row);
        }
        for ty in 0..guard.types.len() {
            problem.add_default(ty);
            problem
                .fieldless
                .push(problem.variants_where(ty, <[usize]>::is_empty));
        }
        problem
    }

    fn add_row(&mut self, row: usize) {
        let ty = self.guard.row_types[row];
        self.types[row] = Some(ty);
        match &self.guard.rows[row] {
            Row::Variable { .. } => {}
            Row::Constant { value, .. } => self.constants.push(Constant {
                term: row,
                ty,
                value: *value,
            }),
            Row::Built { variant, parts, .. } => self.built.push(Built {
                term: row,
                ty,
                variant: *variant,
                parts: parts.clone(),
            }),
            Row::Read {
                term,
                variant,
                position,
            } => self.add_read(row, *term, *variant, *position),
        }
    }

    /// "For field row r, the other fields of its variant, in order of
    /// position, are terms 24 + 2 × r and 25 + 2 × r."
    fn add_read(&mut self, row: usize, term: usize, variant: usize, position: usize) {
        let ty = self.guard.row_types[term];
        let fields = self.guard.fields(ty, variant);
        let siblings = self.guard.limits.terms + 2 * row;
        let mut parts = Vec::new();
        for (place, &field) in fields.iter().enumerate() {
            let part = match place.cmp(&position) {
                Ordering::Less => siblings + place,
                Ordering::Equal => row,
                Ordering::Greater => siblings + place - 1,
            };
            self.types[part] = Some(field);
            parts.push(part);
        }
        self.reads.push(Read {
            row,
            position,
            default: self.default(fields[position]),
            whole: Built {
                term,
                ty,
                variant,
                parts,
            },
        });
    }

    /// "A number type's default is a constant 0, any other default a row built
    /// from its fields' defaults."
    fn add_default(&mut self, ty: usize) {
        let term = self.default(ty);
        self.types[term] = Some(ty);
        match self.guard.defaults[ty] {
            DefaultOf::Zero => self.constants.push(Constant { term, ty, value: 0 }),
            DefaultOf::Variant(variant) => {
                let fields = self.guard.fields(ty, variant);
                let parts = fields.iter().map(|&field| self.default(field)).collect();
                self.built.push(Built {
                    term,
                    ty,
                    variant,
                    parts,
                });
            }
        }
    }

    /// "The default of type t is term 72 + t."
    pub fn default(&self, ty: usize) -> usize {
        3 * self.guard.limits.terms + ty
    }

    /// The variants of a type whose fields meet a condition.
    fn variants_where(&self, ty: usize, condition: impl Fn(&[usize]) -> bool) -> Label {
        let variants = self.guard.types[ty].variants.iter().enumerate();
        variants
            .filter(|(_, fields)| condition(fields))
            .fold(0, |label, (variant, _)| label | only(variant))
    }

    /// All variants of a type; none for a number type.
    pub fn all_variants(&self, ty: usize) -> Label {
        self.variants_where(ty, |_| true)
    }

    /// The terms of variant type, each with its type, in order of number.
    pub fn variant_terms(&self) -> impl Iterator<Item = (usize, usize)> + '_ {
        let terms = self.types.iter().enumerate();
        terms
            .filter_map(|(term, ty)| ty.map(|ty| (term, ty)))
            .filter(|&(_, ty)| !self.guard.types[ty].is_number())
    }
}
