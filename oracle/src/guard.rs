//! A guard: types, rows and lines.

use crate::types::{DefaultOf, Type};

/// The counts that a guard file may use, and the rows that always suffice.
#[derive(Clone, Copy, Debug, PartialEq, Eq)]
pub struct Limits {
    pub types: usize,
    pub terms: usize,
    pub lines: usize,
    pub rows: usize,
}

impl Limits {
    /// The limits of document 01.
    pub const BASE: Limits = Limits {
        types: 6,
        terms: 24,
        lines: 32,
        rows: 4_096,
    };

    /// Request #110: "at most 3 types, 8 terms and 8 lines"; "for these 1,024
    /// rows always suffice".
    pub const LOADER: Limits = Limits {
        types: 3,
        terms: 8,
        lines: 8,
        rows: 1_024,
    };

    /// "The row buffer (at least 16,384 numbers)"; request #110: "a row buffer
    /// of at least 4,096 numbers".
    pub const fn row_buffer(&self) -> usize {
        4 * self.rows
    }

    /// "The place buffer (at least 24)"; request #110: "a place buffer of at
    /// least 8".
    pub const fn place_buffer(&self) -> usize {
        self.terms
    }
}

/// "Then for each type V (0 to 16)."
pub const VARIANTS_PER_TYPE: usize = 16;
/// "All types together have at most 48 variants."
pub const VARIANTS_IN_ALL: usize = 48;
/// "Each as F (0 to 3)."
pub const FIELDS: usize = 3;

/// A numbered term of the guard.
#[derive(Clone, Debug, PartialEq, Eq)]
pub enum Row {
    Variable {
        ty: usize,
    },
    Constant {
        ty: usize,
        value: i64,
    },
    Built {
        ty: usize,
        variant: usize,
        parts: Vec<usize>,
    },
    Read {
        term: usize,
        variant: usize,
        position: usize,
    },
}

/// A literal of the guard; the guard is the conjunction of its lines.
#[derive(Clone, Copy, Debug, PartialEq, Eq)]
pub enum Line {
    Equal(usize, usize),
    Unequal(usize, usize),
    Is(usize, usize),
    Isnt(usize, usize),
}

/// An accepted guard.
#[derive(Clone, Debug, PartialEq, Eq)]
pub struct Guard {
    pub limits: Limits,
    pub types: Vec<Type>,
    /// The default of each type.
    pub defaults: Vec<DefaultOf>,
    pub rows: Vec<Row>,
    /// The type of each row.
    pub row_types: Vec<usize>,
    pub lines: Vec<Line>,
}

impl Guard {
    /// The types of the fields of a variant.
    pub fn fields(&self, ty: usize, variant: usize) -> &[usize] {
        &self.types[ty].variants[variant]
    }
}
