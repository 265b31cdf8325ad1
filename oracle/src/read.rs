//! Reads a guard, asking the questions of document 01 in their order: from the
//! bytes of a file, or from where else its numbers come.

use crate::branch::{Procedure, BRANCHES};
use crate::guard::{Guard, Limits, Line, Row, FIELDS, VARIANTS_IN_ALL, VARIANTS_PER_TYPE};
use crate::number::{self, Width};
use crate::types::{self, DefaultOf, Type};

/// The questions of document 01, the one that request #112 adds for the writer,
/// and the one that request #113 adds for procedures; a "no" refuses with the
/// question's number.
#[derive(Clone, Copy, Debug, PartialEq, Eq)]
pub enum Question {
    BuffersLongEnough = 1,
    NumberEnds = 2,
    NumberForm = 3,
    CountWithinLimits = 4,
    NamedThingExists = 5,
    KindListed = 6,
    TypeFits = 7,
    DefaultsExist = 8,
    FieldsCanGrow = 9,
    FileEnded = 10,
    OneNumberType = 18,
    BranchCount = 19,
}

impl Question {
    /// All questions of document 01, in their order.
    pub const ALL: [Question; 10] = [
        Question::BuffersLongEnough,
        Question::NumberEnds,
        Question::NumberForm,
        Question::CountWithinLimits,
        Question::NamedThingExists,
        Question::KindListed,
        Question::TypeFits,
        Question::DefaultsExist,
        Question::FieldsCanGrow,
        Question::FileEnded,
    ];

    pub fn number(self) -> u8 {
        self as u8
    }

    /// Goes on if the answer is yes.
    pub fn ask(self, yes: bool) -> Result<(), Question> {
        if yes {
            Ok(())
        } else {
            Err(self)
        }
    }
}

/// Question 1: "are both buffers long enough?" Request #110: "questions 1 and 4
/// read each caller's limits".
pub fn buffers_long_enough(
    limits: Limits,
    row_buffer: usize,
    place_buffer: usize,
) -> Result<(), Question> {
    Question::BuffersLongEnough
        .ask(row_buffer >= limits.row_buffer() && place_buffer >= limits.place_buffer())
}

/// Where the numbers of a guard come from, in file order. A number that isn't
/// there, or isn't in its form, gets a no.
pub trait Numbers {
    /// A count, a name or a kind, whatever its size.
    fn plain(&mut self) -> Result<i64, Question>;

    /// The value of a constant. Request #104: "signed values now run over 64
    /// bits".
    fn value(&mut self) -> Result<i64, Question>;

    /// Is no number left?
    fn ended(&self) -> bool;

    /// What is asked of the types after 9; of a file nothing.
    fn after_types(&self, _types: &[Type]) -> Result<(), Question> {
        Ok(())
    }
}

/// Questions 2 to 10: the guard that `file` holds.
pub fn read(file: &[u8], limits: Limits) -> Result<Guard, Question> {
    read_numbers(File { rest: file }, limits)
}

/// Request #114: a line alone, of a guard's terms.
pub fn read_line(bytes: &[u8], guard: &Guard) -> Result<Line, Question> {
    let mut reader = Reader {
        numbers: File { rest: bytes },
    };
    let line = reader.line(guard)?;
    Question::FileEnded.ask(reader.numbers.ended())?;
    Ok(line)
}

/// The guard of which these are the numbers.
pub fn read_numbers(numbers: impl Numbers, limits: Limits) -> Result<Guard, Question> {
    let mut reader = Reader { numbers };
    let mut guard = reader.head(limits)?;
    guard.lines = reader.lines(&guard)?;
    Question::FileEnded.ask(reader.numbers.ended())?;
    Ok(guard)
}

/// The types of a file, N, and the bytes behind it. Nothing is asked of these.
pub fn read_up_to_rows(file: &[u8], limits: Limits) -> Result<(Vec<Type>, usize, &[u8]), Question> {
    let numbers = File { rest: file };
    let mut reader = Reader { numbers };
    let (types, _) = reader.asked_types(limits)?;
    let rows = reader.count(limits.terms)?;
    Ok((types, rows, reader.numbers.rest))
}

/// Questions 2 and 3: the number at the front of these bytes, and its length.
pub fn read_number(bytes: &[u8], width: Width) -> Result<(u64, usize), Question> {
    number::read(bytes, width).map_err(|fault| match fault {
        number::Fault::CutOff => Question::NumberEnds,
        number::Fault::Form => Question::NumberForm,
    })
}

/// Request #113: "one file part with types and terms, then B (1 to 8) branches,
/// each with its own L and lines". "The questions of the file apply to each
/// branch, 10 only after the last."
pub fn read_procedure(file: &[u8], limits: Limits) -> Result<Procedure, Question> {
    let mut reader = Reader {
        numbers: File { rest: file },
    };
    let head = reader.head(limits)?;
    // "19, asked at B after 3, when B is out of its limits."
    let many = reader.below(BRANCHES + 1, Question::BranchCount)?;
    Question::BranchCount.ask(many > 0)?;
    let branches: Result<_, _> = (0..many).map(|_| reader.lines(&head)).collect();
    let branches = branches?;
    Question::FileEnded.ask(reader.numbers.ended())?;
    Ok(Procedure { head, branches })
}

struct File<'a> {
    rest: &'a [u8],
}

impl File<'_> {
    fn number(&mut self, width: Width) -> Result<u64, Question> {
        let (value, length) = read_number(self.rest, width)?;
        self.rest = &self.rest[length..];
        Ok(value)
    }
}

impl Numbers for File<'_> {
    fn plain(&mut self) -> Result<i64, Question> {
        self.number(number::PLAIN).map(|number| number as i64)
    }

    fn value(&mut self) -> Result<i64, Question> {
        self.number(number::VALUE).map(number::unfold)
    }

    fn ended(&self) -> bool {
        self.rest.is_empty()
    }
}

struct Reader<N> {
    numbers: N,
}

impl<N: Numbers> Reader<N> {
    /// A number below `bound`; any other gets a no to `question`.
    fn below(&mut self, bound: usize, question: Question) -> Result<usize, Question> {
        let value = self.numbers.plain()?;
        match usize::try_from(value) {
            Ok(value) if value < bound => Ok(value),
            _ => Err(question),
        }
    }

    /// "If a count, is it within its limits?"
    fn count(&mut self, limit: usize) -> Result<usize, Question> {
        self.below(limit + 1, Question::CountWithinLimits)
    }

    /// "If it names a type, term, variant or position, is that thing there?"
    fn name(&mut self, things: usize) -> Result<usize, Question> {
        self.below(things, Question::NamedThingExists)
    }

    /// "If a kind, is it listed?" Rows and lines both have the kinds 0 to 3.
    fn kind(&mut self) -> Result<usize, Question> {
        self.below(4, Question::KindListed)
    }

    /// The types with their defaults, and what is asked "after the last type and
    /// before N".
    fn asked_types(&mut self, limits: Limits) -> Result<(Vec<Type>, Vec<DefaultOf>), Question> {
        let types = self.types(limits)?;
        let defaults: Option<Vec<_>> = types::defaults(&types).into_iter().collect();
        let defaults = defaults.ok_or(Question::DefaultsExist)?;
        Question::FieldsCanGrow.ask(types::fields_can_grow(&types))?;
        self.numbers.after_types(&types)?;
        Ok((types, defaults))
    }

    fn types(&mut self, limits: Limits) -> Result<Vec<Type>, Question> {
        let many = self.count(limits.types)?;
        let mut total = 0;
        let mut types = Vec::new();
        for _ in 0..many {
            // "The total of 48 included."
            let variants = self.count(VARIANTS_PER_TYPE.min(VARIANTS_IN_ALL - total))?;
            total += variants;
            let mut ty = Type::default();
            for _ in 0..variants {
                let fields = self.count(FIELDS)?;
                // "A later type may be named."
                let fields: Result<_, _> = (0..fields).map(|_| self.name(many)).collect();
                ty.variants.push(fields?);
            }
            types.push(ty);
        }
        Ok(types)
    }

    /// The types and the terms: a guard without lines.
    fn head(&mut self, limits: Limits) -> Result<Guard, Question> {
        let (types, defaults) = self.asked_types(limits)?;
        let mut guard = Guard {
            limits,
            types,
            defaults,
            rows: Vec::new(),
            row_types: Vec::new(),
            lines: Vec::new(),
        };
        for _ in 0..self.count(limits.terms)? {
            let (row, ty) = self.row(&guard)?;
            guard.rows.push(row);
            guard.row_types.push(ty);
        }
        Ok(guard)
    }

    /// L and the lines, over the terms of this guard.
    fn lines(&mut self, guard: &Guard) -> Result<Vec<Line>, Question> {
        let many = self.count(guard.limits.lines)?;
        (0..many).map(|_| self.line(guard)).collect()
    }

    /// Names an earlier row, and gives its type as well.
    fn term(&mut self, guard: &Guard) -> Result<(usize, usize), Question> {
        let term = self.name(guard.rows.len())?;
        Ok((term, guard.row_types[term]))
    }

    /// Names an earlier row of variant type: "a read or tested term".
    fn variant_term(&mut self, guard: &Guard) -> Result<(usize, usize), Question> {
        let (term, ty) = self.term(guard)?;
        Question::TypeFits.ask(!guard.types[ty].is_number())?;
        Ok((term, ty))
    }

    /// A row and its type.
    fn row(&mut self, guard: &Guard) -> Result<(Row, usize), Question> {
        match self.kind()? {
            0 => {
                let ty = self.name(guard.types.len())?;
                Ok((Row::Variable { ty }, ty))
            }
            1 => {
                let ty = self.name(guard.types.len())?;
                Question::TypeFits.ask(guard.types[ty].is_number())?;
                let value = self.numbers.value()?;
                Ok((Row::Constant { ty, value }, ty))
            }
            2 => {
                let ty = self.name(guard.types.len())?;
                Question::TypeFits.ask(!guard.types[ty].is_number())?;
                let variant = self.name(guard.types[ty].variants.len())?;
                let mut parts = Vec::new();
                for &field in guard.fields(ty, variant) {
                    let (part, part_type) = self.term(guard)?;
                    Question::TypeFits.ask(part_type == field)?;
                    parts.push(part);
                }
                Ok((Row::Built { ty, variant, parts }, ty))
            }
            _ => {
                let (term, ty) = self.variant_term(guard)?;
                let variant = self.name(guard.types[ty].variants.len())?;
                let fields = guard.fields(ty, variant);
                let position = self.name(fields.len())?;
                let row = Row::Read {
                    term,
                    variant,
                    position,
                };
                Ok((row, fields[position]))
            }
        }
    }

    fn line(&mut self, guard: &Guard) -> Result<Line, Question> {
        let kind = self.kind()?;
        if kind < 2 {
            let (a, a_type) = self.term(guard)?;
            let (b, b_type) = self.term(guard)?;
            Question::TypeFits.ask(a_type == b_type)?;
            Ok(if kind == 0 {
                Line::Equal(a, b)
            } else {
                Line::Unequal(a, b)
            })
        } else {
            let (term, ty) = self.variant_term(guard)?;
            let variant = self.name(guard.types[ty].variants.len())?;
            Ok(if kind == 2 {
                Line::Is(term, variant)
            } else {
                Line::Isnt(term, variant)
            })
        }
    }
}
