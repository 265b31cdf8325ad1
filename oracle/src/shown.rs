//! Checks the messages that a SAT answer shows, on the numbers of its buffers.

use crate::answer::{answer_with_buffers, Answer};
use crate::guard::{Guard, Limits, Line, Row};
use crate::number;
use crate::read;
use crate::types::DefaultOf;

/// What is wrong, in words.
pub type Fault = String;

fn ensure(condition: bool, fault: impl FnOnce() -> Fault) -> Result<(), Fault> {
    if condition {
        Ok(())
    } else {
        Err(fault())
    }
}

/// One row of the row buffer. Since "no two rows are alike", two messages are
/// equal exactly if their row numbers are.
#[derive(Clone, Debug, PartialEq, Eq)]
pub enum Message {
    Number {
        ty: usize,
        value: i64,
    },
    Variant {
        ty: usize,
        variant: usize,
        parts: Vec<usize>,
    },
}

impl Message {
    pub fn ty(&self) -> usize {
        match *self {
            Message::Number { ty, .. } | Message::Variant { ty, .. } => ty,
        }
    }
}

/// Checks a whole call: the claimed answer with its number of rows, and all
/// numbers left in both buffers.
pub fn check_call(
    file: &[u8],
    budget: u32,
    limits: Limits,
    (claimed, row_count): (Answer, usize),
    rows: &[i32],
    places: &[i32],
) -> Result<(), Fault> {
    let expected = answer_with_buffers(file, budget, limits, rows.len(), places.len());
    let guard = read::read(file, limits).ok();
    let claim = (claimed, row_count);
    check_known_call(expected, guard.as_ref(), claim, rows, places)
}

/// As `check_call`, where the answer and the guard of an accepted file are
/// known.
pub fn check_known_call(
    expected: Answer,
    guard: Option<&Guard>,
    (claimed, row_count): (Answer, usize),
    rows: &[i32],
    places: &[i32],
) -> Result<(), Fault> {
    ensure(claimed == expected, || {
        format!("answered {claimed}, expected {expected}")
    })?;
    if let (Answer::Sat { .. }, Some(guard)) = (claimed, guard) {
        return check_shown(guard, row_count, rows, places);
    }
    // "After UNSAT or SPENT both buffers are all 0"; the same after REFUSED.
    ensure(row_count == 0, || {
        format!("{row_count} rows after {claimed}")
    })?;
    let all_zero = rows.iter().chain(places).all(|&number| number == 0);
    ensure(all_zero, || format!("a buffer isn't all 0 after {claimed}"))
}

/// Checks the messages in both buffers against an accepted guard: the layout,
/// the value of every row and every line.
pub fn check_shown(
    guard: &Guard,
    row_count: usize,
    rows: &[i32],
    places: &[i32],
) -> Result<(), Fault> {
    let messages = messages(guard, row_count, rows)?;
    let places = row_of_each_term(guard, &messages, places)?;
    check_reached(&messages, &places)?;
    let shown = Shown {
        guard,
        messages,
        places,
    };
    shown.check_rows()?;
    shown.check_lines()
}

/// The messages in the row buffer, once its layout is right.
fn messages(guard: &Guard, row_count: usize, rows: &[i32]) -> Result<Vec<Message>, Fault> {
    // "Within these limits 4,096 rows always suffice"; request #110: 1,024.
    let most = guard.limits.rows;
    ensure(row_count <= most, || {
        format!("{row_count} rows are more than {most}")
    })?;
    ensure(4 * row_count <= rows.len(), || {
        format!("{row_count} rows don't fit in the buffer")
    })?;
    let (used, unused) = rows.split_at(4 * row_count);
    let used: Vec<&[i32]> = used.chunks(4).collect();
    let mut messages: Vec<Message> = Vec::new();
    for (i, numbers) in used.iter().enumerate() {
        let message =
            message(guard, &messages, numbers).map_err(|why| format!("row {i}: {why}"))?;
        messages.push(message);
        // "No two rows are alike."
        if let Some(j) = used[..i].iter().position(|earlier| earlier == numbers) {
            return Err(format!("rows {j} and {i} are alike"));
        }
    }
    // "Every number past the last row [...] is 0."
    let clear = unused.iter().all(|&number| number == 0);
    ensure(clear, || "a number past the last row isn't 0".to_string())?;
    Ok(messages)
}

/// "A message of type t and variant v has 16 × t + v, then the rows of its
/// parts, all lower than i. [...] Unused numbers of a row are 0." Request #104:
/// "A number's row holds −1 − t, then the low 32 bits as a signed number, then
/// the value divided by 4,294,967,296 rounded down."
fn message(guard: &Guard, earlier: &[Message], numbers: &[i32]) -> Result<Message, Fault> {
    let (head, rest) = (numbers[0], &numbers[1..]);
    let (message, used) = if head < 0 {
        let ty = usize::try_from(-1 - i64::from(head)).unwrap_or(usize::MAX);
        let found = guard
            .types
            .get(ty)
            .ok_or(format!("there is no type {ty}"))?;
        ensure(found.is_number(), || {
            format!("type {ty} isn't a number type")
        })?;
        let value = number::of_words([rest[0], rest[1]]);
        (Message::Number { ty, value }, 2)
    } else {
        let (ty, variant) = (head as usize / 16, head as usize % 16);
        let found = guard
            .types
            .get(ty)
            .ok_or(format!("there is no type {ty}"))?;
        let fields = found.variants.get(variant);
        let fields = fields.ok_or(format!("type {ty} has no variant {variant}"))?;
        let mut parts = Vec::new();
        for (&number, &field) in rest.iter().zip(fields) {
            let part = usize::try_from(number)
                .ok()
                .filter(|&part| part < earlier.len());
            let part = part.ok_or(format!("part {number} isn't a lower row"))?;
            let part_type = earlier[part].ty();
            ensure(part_type == field, || {
                format!("part {part} is of type {part_type}, its field of type {field}")
            })?;
            parts.push(part);
        }
        (Message::Variant { ty, variant, parts }, fields.len())
    };
    let clear = rest[used..].iter().all(|&number| number == 0);
    ensure(clear, || "an unused number isn't 0".to_string())?;
    Ok(message)
}

/// "Number i of the place buffer is the row of term i."
fn row_of_each_term(
    guard: &Guard,
    messages: &[Message],
    places: &[i32],
) -> Result<Vec<usize>, Fault> {
    let terms = guard.rows.len();
    ensure(terms <= places.len(), || {
        format!("{terms} places don't fit in the buffer")
    })?;
    let (used, unused) = places.split_at(terms);
    let mut rows = Vec::new();
    for (term, &place) in used.iter().enumerate() {
        let row = usize::try_from(place)
            .ok()
            .filter(|&row| row < messages.len());
        let row = row.ok_or(format!("term {term}: there is no row {place}"))?;
        let (shown, wanted) = (messages[row].ty(), guard.row_types[term]);
        ensure(shown == wanted, || {
            format!("term {term} is of type {wanted}, row {row} of type {shown}")
        })?;
        rows.push(row);
    }
    let clear = unused.iter().all(|&number| number == 0);
    ensure(clear, || "a number past the last place isn't 0".to_string())?;
    Ok(rows)
}

/// "Every row is reached from a place."
fn check_reached(messages: &[Message], places: &[usize]) -> Result<(), Fault> {
    let mut reached = vec![false; messages.len()];
    for &row in places {
        reached[row] = true;
    }
    // Parts are lower, so going down meets each row after all that hold it.
    for (row, message) in messages.iter().enumerate().rev() {
        ensure(reached[row], || {
            format!("row {row} isn't reached from a term")
        })?;
        if let Message::Variant { parts, .. } = message {
            for &part in parts {
                reached[part] = true;
            }
        }
    }
    Ok(())
}

struct Shown<'g> {
    guard: &'g Guard,
    messages: Vec<Message>,
    /// The row of each term.
    places: Vec<usize>,
}

impl Shown<'_> {
    /// Every term has the value that the variables' messages give it.
    fn check_rows(&self) -> Result<(), Fault> {
        for (term, row) in self.guard.rows.iter().enumerate() {
            let place = self.places[term];
            let right = match row {
                Row::Variable { .. } => true,
                Row::Constant { ty, value } => {
                    self.messages[place]
                        == Message::Number {
                            ty: *ty,
                            value: *value,
                        }
                }
                Row::Built { ty, variant, parts } => {
                    let parts = parts.iter().map(|&part| self.places[part]).collect();
                    let wanted = Message::Variant {
                        ty: *ty,
                        variant: *variant,
                        parts,
                    };
                    self.messages[place] == wanted
                }
                Row::Read {
                    term: from,
                    variant: read,
                    position,
                } => {
                    match &self.messages[self.places[*from]] {
                        Message::Variant { variant, parts, .. } if variant == read => {
                            place == parts[*position]
                        }
                        // "A field read from a message of another variant
                        // gives the default of the field's type."
                        _ => self.is_default(place),
                    }
                }
            };
            ensure(right, || {
                format!("term {term} has a wrong value, row {place}")
            })?;
        }
        Ok(())
    }

    fn is_default(&self, row: usize) -> bool {
        let default = self.guard.defaults[self.messages[row].ty()];
        match (&self.messages[row], default) {
            (Message::Number { value, .. }, DefaultOf::Zero) => *value == 0,
            (Message::Variant { variant, parts, .. }, DefaultOf::Variant(wanted)) => {
                *variant == wanted && parts.iter().all(|&part| self.is_default(part))
            }
            _ => false,
        }
    }

    /// "A guard holds [...] when all its lines do."
    fn check_lines(&self) -> Result<(), Fault> {
        for (number, line) in self.guard.lines.iter().enumerate() {
            let holds = match *line {
                Line::Equal(a, b) => self.places[a] == self.places[b],
                Line::Unequal(a, b) => self.places[a] != self.places[b],
                Line::Is(term, variant) => self.is_variant(term, variant),
                Line::Isnt(term, variant) => !self.is_variant(term, variant),
            };
            ensure(holds, || format!("line {number} doesn't hold"))?;
        }
        Ok(())
    }

    fn is_variant(&self, term: usize, wanted: usize) -> bool {
        let message = &self.messages[self.places[term]];
        matches!(message, Message::Variant { variant, .. } if *variant == wanted)
    }
}
