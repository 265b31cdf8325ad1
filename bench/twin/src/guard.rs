//! A guard as its file has it.

use std::ops::Deref;

pub type Term = u8;
pub type Label = u16;

/// The most types that a guard has.
pub const TYPES: usize = 6;

/// At most three numbers: the types of a variant's fields, or the parts of a built row.
#[derive(Clone, Copy, Debug, Default)]
pub struct Few {
    many: u8,
    numbers: [u8; 3],
}

impl Few {
    pub fn push(&mut self, number: u8) {
        self.numbers[usize::from(self.many)] = number;
        self.many += 1;
    }

    /// All three places, with 0 past the last number.
    pub fn places(&self) -> [u8; 3] {
        self.numbers
    }
}

impl Deref for Few {
    type Target = [u8];

    fn deref(&self) -> &[u8] {
        &self.numbers[..usize::from(self.many)]
    }
}

/// A type as its variants, a variant as the types of its fields.
#[derive(Clone, Debug, Default)]
pub struct Type {
    pub variants: Vec<Few>,
}

impl Type {
    pub fn is_number(&self) -> bool {
        self.variants.is_empty()
    }

    /// The variants whose fields meet a condition, as a label.
    pub fn label(&self, condition: impl Fn(&Few) -> bool) -> Label {
        let variants = self.variants.iter().enumerate();
        variants
            .filter(|(_, fields)| condition(fields))
            .fold(0, |label, (variant, _)| label | 1 << variant)
    }
}

#[derive(Clone, Copy, Debug)]
pub enum Row {
    Variable,
    Constant(i64),
    Built {
        variant: u8,
        parts: Few,
    },
    Read {
        term: Term,
        variant: u8,
        position: u8,
    },
}

#[derive(Clone, Copy, Debug)]
pub enum Line {
    Equal(Term, Term),
    Unequal(Term, Term),
    Is(Term, u8),
    Isnt(Term, u8),
}

#[derive(Clone, Debug)]
pub struct Guard {
    pub types: Vec<Type>,
    pub finite: [bool; TYPES],
    /// The variant of each type's default; 0 for a number type.
    pub defaults: [u8; TYPES],
    pub rows: Vec<Row>,
    pub row_types: Vec<u8>,
    pub lines: Vec<Line>,
}

impl Guard {
    /// The types of the fields of a variant.
    pub fn fields(&self, ty: u8, variant: u8) -> &Few {
        &self.types[usize::from(ty)].variants[usize::from(variant)]
    }

    pub fn is_number(&self, ty: u8) -> bool {
        self.types[usize::from(ty)].is_number()
    }
}
