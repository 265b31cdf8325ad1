//! What a row does not say of itself: how many fields each variant has, and how many terms there are. Read from the types
//! and the number of terms of a file that the library has accepted.

use crate::numbers::number;

/// The field counts of the variants of each type, and the number of terms.
#[derive(Debug, PartialEq, Eq)]
pub struct Fields {
    pub types: Vec<Vec<usize>>,
    pub terms: usize,
}

/// The field counts and the number of terms of an accepted file; of other bytes perhaps nothing.
pub fn read(file: &[u8]) -> Option<Fields> {
    let mut bytes = file.iter();
    let mut types = Vec::new();
    for _ in 0..number(&mut bytes)? {
        let mut variants = Vec::new();
        for _ in 0..number(&mut bytes)? {
            let fields = number(&mut bytes)?;
            for _ in 0..fields {
                number(&mut bytes)?;
            }
            variants.push(fields);
        }
        types.push(variants);
    }
    let terms = number(&mut bytes)?;
    Some(Fields { types, terms })
}

#[cfg(test)]
mod tests {
    use super::*;

    #[test]
    fn fields_and_terms() {
        let lists = [2, 0, 2, 0, 2, 0, 1, 24];
        assert_eq!(
            read(&lists),
            Some(Fields {
                types: vec![vec![], vec![0, 2]],
                terms: 24
            })
        );
        assert_eq!(
            read(&[0, 0]),
            Some(Fields {
                types: vec![],
                terms: 0
            })
        );
    }

    #[test]
    fn bytes_that_stop_short() {
        for bytes in [&[][..], &[1], &[1, 1, 3, 0], &[0x80], &[0x80; 9]] {
            assert_eq!(read(bytes), None);
        }
    }
}
