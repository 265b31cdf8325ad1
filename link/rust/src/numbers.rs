//! Numbers as guard files and records have them: seven bits to a byte, low group first.

/// A number at the front of the bytes; nothing if they stop short of its end.
pub fn number(bytes: &mut std::slice::Iter<'_, u8>) -> Option<usize> {
    let mut value = 0;
    for shift in [0, 7, 14, 21, 28] {
        let byte = *bytes.next()?;
        value |= (byte as usize & 0x7f) << shift;
        if byte < 0x80 {
            return Some(value);
        }
    }
    None
}
