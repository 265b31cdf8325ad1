//! Packed guard files, as the desk's test programs read them.

/// The next file and its budget: a 2-byte length, the file, and a 4-byte budget, low byte
/// first. None after the last one, where the length is too large.
pub fn next<'a>(rest: &mut &'a [u8]) -> Option<(&'a [u8], u32)> {
    let (length, after) = rest.split_first_chunk()?;
    let (file, after) = after.split_at_checked(u16::from_le_bytes(*length).into())?;
    let (budget, after) = after.split_first_chunk()?;
    *rest = after;
    Some((file, u32::from_le_bytes(*budget)))
}
