//! What a no to a question means, where it means the same of a file and of a list of numbers; and calls that write files.

use crate::raw;

/// What a no to this question means.
pub fn why(question: u32) -> &'static str {
    match question {
        4 => "a count is outside its limits",
        5 => "something named is not there",
        6 => "a kind is none of those listed",
        7 => "a type does not fit",
        8 => "a type has no default",
        9 => "a variant with fields has none of infinite type",
        _ => "the file does not fit into its buffer",
    }
}

/// The file that a call writes into a buffer, or the first question that got a no.
pub fn file_of(call: impl FnOnce(&mut [u8]) -> i64) -> Result<Vec<u8>, u32> {
    let mut file = vec![0; raw::FILE_LENGTH];
    let code = call(&mut file);
    match usize::try_from(code) {
        Ok(many) => {
            file.truncate(many);
            Ok(file)
        }
        Err(_) => Err(code.unsigned_abs() as u32),
    }
}
