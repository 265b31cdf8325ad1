//! A guard file to its guard, or to the first question that gets a no, and at which byte.

use std::fmt;

use crate::guard::{
    Guard, Line, Row, Type, FIELDS, LINES, TERMS, TYPES, VARIANTS_IN_ALL, VARIANTS_PER_TYPE,
};
use crate::types;

/// Why a file is refused.
#[derive(Clone, Copy, Debug, PartialEq, Eq)]
pub enum Why {
    CutOff,
    Form,
    Count { found: usize, limit: usize },
    NotThere,
    Kind,
    TypeDiffers,
    NoDefault { ty: usize },
    FiniteFields { ty: usize, variant: usize },
    GoesOn,
}

impl Why {
    /// The number of the question in document 01.
    pub fn question(self) -> u32 {
        match self {
            Why::CutOff => 2,
            Why::Form => 3,
            Why::Count { .. } => 4,
            Why::NotThere => 5,
            Why::Kind => 6,
            Why::TypeDiffers => 7,
            Why::NoDefault { .. } => 8,
            Why::FiniteFields { .. } => 9,
            Why::GoesOn => 10,
        }
    }
}

/// A refusal, at the first byte of the number it is about.
#[derive(Clone, Copy, Debug, PartialEq, Eq)]
pub struct Refusal {
    pub offset: usize,
    pub why: Why,
}

impl fmt::Display for Refusal {
    fn fmt(&self, f: &mut fmt::Formatter<'_>) -> fmt::Result {
        write!(f, "REFUSED {}, byte {}: ", self.why.question(), self.offset)?;
        match self.why {
            Why::CutOff => f.write_str("the file ends within or before a number"),
            Why::Form => f.write_str("a number isn't in its form"),
            Why::Count { found, limit } => write!(f, "a count is {found}, at most {limit} fit"),
            Why::NotThere => f.write_str("what the number names isn't there"),
            Why::Kind => f.write_str("there is no such kind"),
            Why::TypeDiffers => f.write_str("the type doesn't fit"),
            Why::NoDefault { ty } => write!(f, "type {ty} has no default"),
            Why::FiniteFields { ty, variant } => write!(
                f,
                "variant {variant} of type {ty} has fields, all of finite type"
            ),
            Why::GoesOn => f.write_str("the file goes on after its last line"),
        }
    }
}

/// The file that hexadecimal digits stand for; blanks between them don't count. None if these
/// bytes don't look like hexadecimal: an accepted file begins with its count of types, which
/// is neither a digit nor a blank.
pub fn from_hex(bytes: &[u8]) -> Option<Result<Vec<u8>, String>> {
    let first = bytes.first()?;
    if !first.is_ascii_hexdigit() && !first.is_ascii_whitespace() {
        return None;
    }
    let digits = bytes.iter().filter(|byte| !byte.is_ascii_whitespace());
    let digits: Option<Vec<u32>> = digits.map(|&byte| char::from(byte).to_digit(16)).collect();
    Some(match digits {
        Some(digits) if digits.len() % 2 == 0 => {
            let pairs = digits.chunks(2);
            Ok(pairs.map(|pair| (16 * pair[0] + pair[1]) as u8).collect())
        }
        _ => Err("expected hexadecimal digits in pairs".to_string()),
    })
}

pub fn decode(file: &[u8]) -> Result<Guard, Refusal> {
    let mut reader = Reader {
        file,
        next: 0,
        last: 0,
        guard: Guard::default(),
    };
    reader.types()?;
    for _ in 0..reader.count(TERMS)? {
        let (row, ty) = reader.row()?;
        reader.guard.rows.push(row);
        reader.guard.row_types.push(ty);
    }
    for _ in 0..reader.count(LINES)? {
        let line = reader.line()?;
        reader.guard.lines.push(line);
    }
    reader.last = reader.next;
    reader.ask(reader.next == file.len(), Why::GoesOn)?;
    Ok(reader.guard)
}

struct Reader<'a> {
    file: &'a [u8],
    /// The first byte that isn't read yet.
    next: usize,
    /// The first byte of the last number.
    last: usize,
    guard: Guard,
}

impl Reader<'_> {
    /// Goes on if the answer is yes.
    fn ask(&self, yes: bool, why: Why) -> Result<(), Refusal> {
        if yes {
            return Ok(());
        }
        let offset = self.last;
        Err(Refusal { offset, why })
    }

    /// A number of at most so many bytes and `most`.
    fn number(&mut self, bytes: usize, most: u64) -> Result<u64, Refusal> {
        self.last = self.next;
        let rest = &self.file[self.next..];
        // "A fifth byte with bit 80 set counts here as its end"; a tenth of a value.
        let end = rest.iter().take(bytes).position(|byte| byte & 0x80 == 0);
        self.ask(end.is_some() || rest.len() >= bytes, Why::CutOff)?;
        let length = end.map_or(bytes, |end| end + 1);
        let mut value = 0_u128;
        for (i, byte) in rest[..length].iter().enumerate() {
            value |= u128::from(byte & 0x7f) << (7 * i);
        }
        let shortest = length == 1 || rest[length - 1] != 0;
        let right = end.is_some() && shortest && value <= most.into();
        self.ask(right, Why::Form)?;
        self.next += length;
        Ok(value as u64)
    }

    /// A count, a name or a kind.
    fn plain(&mut self) -> Result<usize, Refusal> {
        Ok(self.number(5, u32::MAX.into())? as usize)
    }

    fn below(&mut self, bound: usize, why: Why) -> Result<usize, Refusal> {
        let value = self.plain()?;
        self.ask(value < bound, why)?;
        Ok(value)
    }

    fn count(&mut self, limit: usize) -> Result<usize, Refusal> {
        let found = self.plain()?;
        self.ask(found <= limit, Why::Count { found, limit })?;
        Ok(found)
    }

    fn types(&mut self) -> Result<(), Refusal> {
        let many = self.count(TYPES)?;
        let mut in_all = 0;
        // Where each variant's count of fields is, after that of its type's variants.
        let mut counts = Vec::new();
        for _ in 0..many {
            let variants = self.count(VARIANTS_PER_TYPE.min(VARIANTS_IN_ALL - in_all))?;
            in_all += variants;
            let mut offsets = vec![self.last];
            let mut ty = Type::default();
            for _ in 0..variants {
                let fields = self.count(FIELDS)?;
                offsets.push(self.last);
                let fields = (0..fields).map(|_| self.below(many, Why::NotThere));
                ty.variants.push(fields.collect::<Result<_, _>>()?);
            }
            self.guard.types.push(ty);
            counts.push(offsets);
        }
        if let Some(ty) = types::without_default(&self.guard.types) {
            self.last = counts[ty][0];
            return self.ask(false, Why::NoDefault { ty });
        }
        if let Some((ty, variant)) = types::finite_fields(&self.guard.types) {
            self.last = counts[ty][1 + variant];
            return self.ask(false, Why::FiniteFields { ty, variant });
        }
        Ok(())
    }

    /// A type, which is or isn't a number type.
    fn ty(&mut self, number: bool) -> Result<usize, Refusal> {
        let ty = self.below(self.guard.types.len(), Why::NotThere)?;
        self.ask(self.guard.types[ty].is_number() == number, Why::TypeDiffers)?;
        Ok(ty)
    }

    fn term(&mut self, ty: Option<usize>) -> Result<usize, Refusal> {
        let term = self.below(self.guard.rows.len(), Why::NotThere)?;
        let found = self.guard.row_types[term];
        self.ask(ty.unwrap_or(found) == found, Why::TypeDiffers)?;
        Ok(term)
    }

    /// A term of variant type, and a variant of it.
    fn term_and_variant(&mut self) -> Result<(usize, usize), Refusal> {
        let term = self.term(None)?;
        let variants = self.guard.types[self.guard.row_types[term]].variants.len();
        self.ask(variants > 0, Why::TypeDiffers)?;
        Ok((term, self.below(variants, Why::NotThere)?))
    }

    fn row(&mut self) -> Result<(Row, usize), Refusal> {
        match self.below(4, Why::Kind)? {
            0 => {
                let ty = self.below(self.guard.types.len(), Why::NotThere)?;
                Ok((Row::Variable(ty), ty))
            }
            1 => {
                let ty = self.ty(true)?;
                let folded = self.number(10, u64::MAX)?;
                // Half of it, or the complement of half of it.
                let value = (folded >> 1) as i64 ^ -((folded & 1) as i64);
                Ok((Row::Constant(ty, value), ty))
            }
            2 => {
                let ty = self.ty(false)?;
                let variant = self.below(self.guard.types[ty].variants.len(), Why::NotThere)?;
                let fields = self.guard.types[ty].variants[variant].clone();
                let parts = fields.iter().map(|&field| self.term(Some(field)));
                let parts = parts.collect::<Result<_, _>>()?;
                Ok((Row::Built(ty, variant, parts), ty))
            }
            _ => {
                let (term, variant) = self.term_and_variant()?;
                let ty = self.guard.row_types[term];
                let fields = self.guard.types[ty].variants[variant].clone();
                let position = self.below(fields.len(), Why::NotThere)?;
                Ok((Row::Read(term, variant, position), fields[position]))
            }
        }
    }

    fn line(&mut self) -> Result<Line, Refusal> {
        let kind = self.below(4, Why::Kind)?;
        if kind >= 2 {
            let (term, variant) = self.term_and_variant()?;
            return Ok(match kind {
                2 => Line::Is(term, variant),
                _ => Line::Isnt(term, variant),
            });
        }
        let a = self.term(None)?;
        let b = self.term(Some(self.guard.row_types[a]))?;
        Ok(match kind {
            0 => Line::Equal(a, b),
            _ => Line::Unequal(a, b),
        })
    }
}
