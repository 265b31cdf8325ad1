//! The file, number by number, to a guard or to the first question that gets a no.

use crate::guard::{Few, Guard, Line, Row, Term, Type, TYPES};

const VARIANTS_IN_TYPE: usize = 16;
const VARIANTS_IN_ALL: usize = 48;
const FIELDS: usize = 3;
const ROWS: usize = 24;
const LINES: usize = 32;

/// The questions that can get a no here.
#[derive(Clone, Copy, Debug, PartialEq, Eq)]
pub enum Question {
    NumberEnds = 2,
    NumberForm = 3,
    CountWithinLimits = 4,
    NamedThingExists = 5,
    KindListed = 6,
    TypeFits = 7,
    DefaultsExist = 8,
    FieldsCanGrow = 9,
    FileEnded = 10,
}

impl Question {
    fn ask(self, yes: bool) -> Result<(), Question> {
        match yes {
            true => Ok(()),
            false => Err(self),
        }
    }
}

pub fn read(file: &[u8]) -> Result<Guard, Question> {
    let mut reader = Reader { rest: file };
    let types = reader.types()?;
    let defaults = defaults(&types).ok_or(Question::DefaultsExist)?;
    let finite = finite(&types);
    Question::FieldsCanGrow.ask(fields_can_grow(&types, &finite))?;
    let mut guard = Guard {
        types,
        finite,
        defaults,
        rows: Vec::with_capacity(ROWS),
        row_types: Vec::with_capacity(ROWS),
        lines: Vec::with_capacity(LINES),
    };
    for _ in 0..reader.count(ROWS)? {
        let (row, ty) = reader.row(&guard)?;
        guard.rows.push(row);
        guard.row_types.push(ty);
    }
    for _ in 0..reader.count(LINES)? {
        let line = reader.line(&guard)?;
        guard.lines.push(line);
    }
    Question::FileEnded.ask(reader.rest.is_empty())?;
    Ok(guard)
}

/// Which types are finite: those whose fields all are, found round by round.
fn finite(types: &[Type]) -> [bool; TYPES] {
    let mut finite = [false; TYPES];
    loop {
        let mut changed = false;
        for (t, ty) in types.iter().enumerate() {
            let mut fields = ty.variants.iter().flat_map(|fields| fields.iter());
            if !finite[t] && !ty.is_number() && fields.all(|&field| finite[usize::from(field)]) {
                finite[t] = true;
                changed = true;
            }
        }
        if !changed {
            return finite;
        }
    }
}

/// The variant of each type's default, if all have one. In each round a type takes its lowest variant over defaults of
/// earlier rounds.
fn defaults(types: &[Type]) -> Option<[u8; TYPES]> {
    let mut known = [false; TYPES];
    let mut defaults = [0; TYPES];
    for (known, ty) in known.iter_mut().zip(types) {
        *known = ty.is_number();
    }
    while !known[..types.len()].iter().all(|&known| known) {
        let earlier = known;
        for (t, ty) in types.iter().enumerate() {
            let ready = |fields: &Few| fields.iter().all(|&field| earlier[usize::from(field)]);
            if let (false, Some(variant)) = (earlier[t], ty.variants.iter().position(ready)) {
                defaults[t] = variant as u8;
                known[t] = true;
            }
        }
        if known == earlier {
            return None;
        }
    }
    Some(defaults)
}

/// Whether every variant with fields has one of infinite type.
fn fields_can_grow(types: &[Type], finite: &[bool; TYPES]) -> bool {
    let mut variants = types.iter().flat_map(|ty| &ty.variants);
    variants
        .all(|fields| fields.is_empty() || fields.iter().any(|&field| !finite[usize::from(field)]))
}

struct Reader<'a> {
    rest: &'a [u8],
}

impl Reader<'_> {
    /// A number of at most so many bytes and `most`.
    fn number(&mut self, bytes: usize, most: u64) -> Result<u64, Question> {
        let mut value = 0;
        for (i, &byte) in self.rest.iter().take(bytes).enumerate() {
            let group = u64::from(byte & 0x7f);
            value |= group << (7 * i);
            if byte < 0x80 {
                self.rest = &self.rest[i + 1..];
                // A tenth group has more bits than are left.
                let lost = value >> (7 * i) != group;
                let form = (i == 0 || byte != 0) && !lost && value <= most;
                Question::NumberForm.ask(form)?;
                return Ok(value);
            }
        }
        Question::NumberEnds.ask(self.rest.len() >= bytes)?;
        Err(Question::NumberForm)
    }

    /// The value of a constant.
    fn value(&mut self) -> Result<i64, Question> {
        Ok(unfold(self.number(10, u64::MAX)?))
    }

    /// A number below `bound`; any other gets a no to `question`.
    fn below(&mut self, bound: usize, question: Question) -> Result<u8, Question> {
        let value = self.number(5, u32::MAX.into())?;
        question.ask((value as usize) < bound)?;
        Ok(value as u8)
    }

    fn count(&mut self, limit: usize) -> Result<u8, Question> {
        self.below(limit + 1, Question::CountWithinLimits)
    }

    fn name(&mut self, things: usize) -> Result<u8, Question> {
        self.below(things, Question::NamedThingExists)
    }

    fn types(&mut self) -> Result<Vec<Type>, Question> {
        let many = self.count(TYPES)?;
        let mut left = VARIANTS_IN_ALL;
        let mut types = Vec::with_capacity(many.into());
        for _ in 0..many {
            let variants = self.count(VARIANTS_IN_TYPE.min(left))?;
            left -= usize::from(variants);
            let variants = (0..variants).map(|_| self.fields(many.into()));
            types.push(Type {
                variants: variants.collect::<Result<_, _>>()?,
            });
        }
        Ok(types)
    }

    fn fields(&mut self, types: usize) -> Result<Few, Question> {
        let mut fields = Few::default();
        for _ in 0..self.count(FIELDS)? {
            fields.push(self.name(types)?);
        }
        Ok(fields)
    }

    /// An earlier row and its type.
    fn term(&mut self, guard: &Guard) -> Result<(Term, u8), Question> {
        let term = self.name(guard.rows.len())?;
        Ok((term, guard.row_types[usize::from(term)]))
    }

    /// The same for a term of variant type.
    fn variant_term(&mut self, guard: &Guard) -> Result<(Term, u8), Question> {
        let (term, ty) = self.term(guard)?;
        Question::TypeFits.ask(!guard.is_number(ty))?;
        Ok((term, ty))
    }

    fn ty(&mut self, guard: &Guard, number: bool) -> Result<u8, Question> {
        let ty = self.name(guard.types.len())?;
        Question::TypeFits.ask(guard.is_number(ty) == number)?;
        Ok(ty)
    }

    fn variant(&mut self, guard: &Guard, ty: u8) -> Result<u8, Question> {
        self.name(guard.types[usize::from(ty)].variants.len())
    }

    fn kind(&mut self) -> Result<u8, Question> {
        self.below(4, Question::KindListed)
    }

    fn row(&mut self, guard: &Guard) -> Result<(Row, u8), Question> {
        match self.kind()? {
            0 => Ok((Row::Variable, self.name(guard.types.len())?)),
            1 => {
                let ty = self.ty(guard, true)?;
                Ok((Row::Constant(self.value()?), ty))
            }
            2 => self.built(guard),
            _ => {
                let (term, ty) = self.variant_term(guard)?;
                let variant = self.variant(guard, ty)?;
                let fields = guard.fields(ty, variant);
                let position = self.name(fields.len())?;
                let row = Row::Read {
                    term,
                    variant,
                    position,
                };
                Ok((row, fields[usize::from(position)]))
            }
        }
    }

    fn built(&mut self, guard: &Guard) -> Result<(Row, u8), Question> {
        let ty = self.ty(guard, false)?;
        let variant = self.variant(guard, ty)?;
        let mut parts = Few::default();
        for &field in guard.fields(ty, variant).iter() {
            let (part, part_type) = self.term(guard)?;
            Question::TypeFits.ask(part_type == field)?;
            parts.push(part);
        }
        Ok((Row::Built { variant, parts }, ty))
    }

    fn line(&mut self, guard: &Guard) -> Result<Line, Question> {
        let kind = self.kind()?;
        if kind < 2 {
            let (a, a_type) = self.term(guard)?;
            let (b, b_type) = self.term(guard)?;
            Question::TypeFits.ask(a_type == b_type)?;
            return Ok(match kind {
                0 => Line::Equal(a, b),
                _ => Line::Unequal(a, b),
            });
        }
        let (term, ty) = self.variant_term(guard)?;
        let variant = self.variant(guard, ty)?;
        Ok(match kind {
            2 => Line::Is(term, variant),
            _ => Line::Isnt(term, variant),
        })
    }
}

/// A signed value: 2 × v for 0 or more, −2 × v − 1 for a negative v.
fn unfold(number: u64) -> i64 {
    (number >> 1) as i64 ^ -((number & 1) as i64)
}
