//! A guard to its file: its numbers, which the proved writer turns into bytes.

use guarddesk::Refusal;

use crate::guard::{Guard, Line, Row};

/// The guard's file, or the question that refuses it.
pub fn encode(guard: &Guard) -> Result<Vec<u8>, Refusal> {
    guarddesk::write(&numbers(guard))
}

/// The numbers of the guard's file, in order, constants as their values.
pub fn numbers(guard: &Guard) -> Vec<i64> {
    let mut list = List::default();
    list.size(guard.types.len());
    for ty in &guard.types {
        list.size(ty.variants.len());
        for fields in &ty.variants {
            list.size(fields.len());
            list.sizes(fields);
        }
    }
    list.size(guard.rows.len());
    for row in &guard.rows {
        list.row(row);
    }
    list.size(guard.lines.len());
    for line in &guard.lines {
        list.line(line);
    }
    list.0
}

#[derive(Default)]
struct List(Vec<i64>);

impl List {
    fn size(&mut self, size: usize) {
        // No text is long enough for more.
        self.0.push(i64::try_from(size).unwrap_or(i64::MAX));
    }

    fn sizes(&mut self, sizes: &[usize]) {
        for &size in sizes {
            self.size(size);
        }
    }

    fn row(&mut self, row: &Row) {
        match row {
            Row::Variable(ty) => self.sizes(&[0, *ty]),
            Row::Constant(ty, value) => {
                self.sizes(&[1, *ty]);
                self.0.push(*value);
            }
            Row::Built(ty, variant, parts) => {
                self.sizes(&[2, *ty, *variant]);
                self.sizes(parts);
            }
            Row::Read(term, variant, position) => self.sizes(&[3, *term, *variant, *position]),
        }
    }

    fn line(&mut self, line: &Line) {
        match *line {
            Line::Equal(a, b) => self.sizes(&[0, a, b]),
            Line::Unequal(a, b) => self.sizes(&[1, a, b]),
            Line::Is(term, variant) => self.sizes(&[2, term, variant]),
            Line::Isnt(term, variant) => self.sizes(&[3, term, variant]),
        }
    }
}

/// A file in hexadecimal, without spaces.
pub fn hex(bytes: &[u8]) -> String {
    bytes.iter().map(|byte| format!("{byte:02x}")).collect()
}

#[cfg(test)]
mod tests {
    use super::*;

    /// A guard of numbers alone, with these constants.
    fn constants(values: &[i64]) -> Guard {
        Guard {
            types: vec![Default::default()],
            rows: values.iter().map(|&v| Row::Constant(0, v)).collect(),
            row_types: vec![0; values.len()],
            lines: vec![],
        }
    }

    #[test]
    fn constants_are_their_values() {
        let guard = constants(&[-3, i64::MIN, i64::MAX]);
        let wanted = [1, 0, 3, 1, 0, -3, 1, 0, i64::MIN, 1, 0, i64::MAX, 0];
        assert_eq!(numbers(&guard), wanted);
        let file = encode(&guard).expect("a file");
        let ends = "0100ffffffffffffffffff010100feffffffffffffffff01";
        assert_eq!(hex(&file), format!("010003010005{ends}00"));
    }

    #[test]
    fn too_many_terms_have_no_file() {
        assert!(encode(&constants(&[0; 24])).is_ok());
        assert_eq!(encode(&constants(&[0; 25])), Err(Refusal(4)));
    }
}
