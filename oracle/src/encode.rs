//! Writes guard files. A draft may break rules that an accepted guard keeps.

use crate::guard::{Guard, Limits, Line, Row, FIELDS, VARIANTS_IN_ALL, VARIANTS_PER_TYPE};
use crate::number;
use crate::types::Type;

/// What a number in a guard file stands for.
#[derive(Clone, Copy, Debug, PartialEq, Eq)]
pub enum Role {
    /// A count with its limit.
    Count {
        limit: usize,
    },
    /// A name of one of so many things.
    Name {
        things: usize,
    },
    /// As `Name`, for a number that must also fit a type.
    Typed {
        things: usize,
    },
    Kind,
    Value,
}

#[derive(Clone, Copy, Debug, PartialEq, Eq)]
pub struct Token {
    pub role: Role,
    pub number: u64,
}

/// A guard in the making.
#[derive(Clone, Debug, Default, PartialEq, Eq)]
pub struct Draft {
    pub types: Vec<Type>,
    pub rows: Vec<Row>,
    pub row_types: Vec<usize>,
    pub lines: Vec<Line>,
}

impl Draft {
    pub fn new(types: &[&[&[usize]]]) -> Draft {
        let ty = |variants: &&[&[usize]]| Type {
            variants: variants.iter().map(|fields| fields.to_vec()).collect(),
        };
        Draft::with_types(types.iter().map(ty).collect())
    }

    pub fn with_types(types: Vec<Type>) -> Draft {
        Draft {
            types,
            ..Draft::default()
        }
    }

    /// The draft of an accepted guard.
    pub fn of(guard: &Guard) -> Draft {
        Draft {
            types: guard.types.clone(),
            rows: guard.rows.clone(),
            row_types: guard.row_types.clone(),
            lines: guard.lines.clone(),
        }
    }

    /// A row of this type.
    pub fn push(&mut self, row: Row, ty: usize) -> usize {
        self.rows.push(row);
        self.row_types.push(ty);
        self.rows.len() - 1
    }

    pub fn variable(&mut self, ty: usize) -> usize {
        self.push(Row::Variable { ty }, ty)
    }

    pub fn variables(&mut self, ty: usize, many: usize) -> Vec<usize> {
        (0..many).map(|_| self.variable(ty)).collect()
    }

    pub fn constant(&mut self, ty: usize, value: i64) -> usize {
        self.push(Row::Constant { ty, value }, ty)
    }

    pub fn built(&mut self, ty: usize, variant: usize, parts: &[usize]) -> usize {
        let parts = parts.to_vec();
        self.push(Row::Built { ty, variant, parts }, ty)
    }

    pub fn read(&mut self, term: usize, variant: usize, position: usize) -> usize {
        let ty = self.types[self.row_types[term]].variants[variant][position];
        self.push(
            Row::Read {
                term,
                variant,
                position,
            },
            ty,
        )
    }

    pub fn equal(&mut self, a: usize, b: usize) {
        self.lines.push(Line::Equal(a, b));
    }

    pub fn unequal(&mut self, a: usize, b: usize) {
        self.lines.push(Line::Unequal(a, b));
    }

    pub fn is(&mut self, term: usize, variant: usize) {
        self.lines.push(Line::Is(term, variant));
    }

    pub fn isnt(&mut self, term: usize, variant: usize) {
        self.lines.push(Line::Isnt(term, variant));
    }

    /// Unequal lines between every two of the terms.
    pub fn all_unequal(&mut self, terms: &[usize]) {
        for (i, &a) in terms.iter().enumerate() {
            for &b in &terms[i + 1..] {
                self.unequal(a, b);
            }
        }
    }

    /// The numbers of the file, in order.
    pub fn tokens(&self, limits: Limits) -> Vec<Token> {
        self.parts(limits).concat().concat()
    }

    /// The same in parts: the types and N, the rows, each by itself, and L and
    /// the lines.
    pub fn parts(&self, limits: Limits) -> [Vec<Vec<Token>>; 3] {
        let mut head = Tokens(Vec::new());
        self.write_types(limits, &mut head);
        head.count(self.rows.len(), limits.terms);
        let row = |(number, row)| {
            let mut out = Tokens(Vec::new());
            self.write_row(number, row, &mut out);
            out.0
        };
        let rows = self.rows.iter().enumerate().map(row).collect();
        let mut lines = Tokens(Vec::new());
        lines.count(self.lines.len(), limits.lines);
        for line in &self.lines {
            self.write_line(line, &mut lines);
        }
        [vec![head.0], rows, vec![lines.0]]
    }

    fn write_types(&self, limits: Limits, out: &mut Tokens) {
        out.count(self.types.len(), limits.types);
        let mut left = VARIANTS_IN_ALL;
        for ty in &self.types {
            out.count(ty.variants.len(), left.min(VARIANTS_PER_TYPE));
            left = left.saturating_sub(ty.variants.len());
            for fields in &ty.variants {
                out.count(fields.len(), FIELDS);
                for &field in fields {
                    out.name(field, self.types.len());
                }
            }
        }
    }

    fn write_row(&self, number: usize, row: &Row, out: &mut Tokens) {
        let types = self.types.len();
        match row {
            Row::Variable { ty } => {
                out.kind(0);
                out.name(*ty, types);
            }
            Row::Constant { ty, value } => {
                out.kind(1);
                out.typed(*ty, types);
                out.push(Role::Value, number::fold(*value));
            }
            Row::Built { ty, variant, parts } => {
                out.kind(2);
                out.typed(*ty, types);
                out.name(*variant, self.types[*ty].variants.len());
                for &part in parts {
                    out.typed(part, number);
                }
            }
            Row::Read {
                term,
                variant,
                position,
            } => {
                let variants = &self.types[self.row_types[*term]].variants;
                out.kind(3);
                out.typed(*term, number);
                out.name(*variant, variants.len());
                out.name(*position, variants[*variant].len());
            }
        }
    }

    fn write_line(&self, line: &Line, out: &mut Tokens) {
        let terms = self.rows.len();
        let variants = |term: usize| self.types[self.row_types[term]].variants.len();
        match *line {
            Line::Equal(a, b) | Line::Unequal(a, b) => {
                out.kind(u64::from(matches!(line, Line::Unequal(..))));
                out.name(a, terms);
                out.typed(b, terms);
            }
            Line::Is(term, variant) | Line::Isnt(term, variant) => {
                out.kind(2 + u64::from(matches!(line, Line::Isnt(..))));
                out.typed(term, terms);
                out.name(variant, variants(term));
            }
        }
    }

    pub fn bytes(&self) -> Vec<u8> {
        bytes(&self.tokens(Limits::BASE))
    }
}

/// The bytes of a file of these numbers.
pub fn bytes(tokens: &[Token]) -> Vec<u8> {
    let mut out = Vec::new();
    for token in tokens {
        number::write(token.number, &mut out);
    }
    out
}

struct Tokens(Vec<Token>);

impl Tokens {
    fn push(&mut self, role: Role, number: u64) {
        self.0.push(Token { role, number });
    }

    fn push_size(&mut self, role: Role, number: usize) {
        self.push(role, number as u64);
    }

    fn count(&mut self, number: usize, limit: usize) {
        self.push_size(Role::Count { limit }, number);
    }

    fn name(&mut self, number: usize, things: usize) {
        self.push_size(Role::Name { things }, number);
    }

    fn typed(&mut self, number: usize, things: usize) {
        self.push_size(Role::Typed { things }, number);
    }

    fn kind(&mut self, number: u64) {
        self.push(Role::Kind, number);
    }
}
