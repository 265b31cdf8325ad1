//! Numbers in groups of seven bits, low group first.

/// How long a number may be, and how large.
#[derive(Clone, Copy, Debug, PartialEq, Eq)]
pub struct Width {
    pub bytes: usize,
    pub most: u64,
}

/// "It has one to five bytes, is at most 4,294,967,295." Request #104:
/// "Counts and names keep five."
pub const PLAIN: Width = Width {
    bytes: 5,
    most: 4_294_967_295,
};

/// A signed value, request #104: "with up to ten bytes and at most
/// 18,446,744,073,709,551,615 as written".
pub const VALUE: Width = Width {
    bytes: 10,
    most: 18_446_744_073_709_551_615,
};

/// Set "in every byte but the last".
const MORE: u8 = 0x80;

#[derive(Clone, Copy, Debug, PartialEq, Eq)]
pub enum Fault {
    /// The file ends before the number does.
    CutOff,
    /// The number ends, but not in the form of document 01.
    Form,
}

/// Reads the number at the front of `bytes`: its value and its length.
pub fn read(bytes: &[u8], width: Width) -> Result<(u64, usize), Fault> {
    let front = &bytes[..bytes.len().min(width.bytes)];
    let length = match front.iter().position(|byte| byte & MORE == 0) {
        Some(last) => last + 1,
        // "A fifth byte with bit 80 set counts here as its end"; request #104:
        // "a tenth byte with bit 80 counts as the end".
        None if front.len() == width.bytes => width.bytes,
        None => return Err(Fault::CutOff),
    };
    let groups = &front[..length];
    let last = groups[length - 1];
    // "Uses the fewest bytes, so a last byte of 00 stands only alone."
    if last & MORE != 0 || (last == 0 && length > 1) {
        return Err(Fault::Form);
    }
    // Ten groups have 70 bits.
    let value = groups
        .iter()
        .rev()
        .fold(0u128, |value, byte| value << 7 | u128::from(byte & !MORE));
    match u64::try_from(value) {
        Ok(value) if value <= width.most => Ok((value, length)),
        _ => Err(Fault::Form),
    }
}

/// Appends `value` in its one right form.
pub fn write(mut value: u64, out: &mut Vec<u8>) {
    while value >= u64::from(MORE) {
        out.push(value as u8 | MORE);
        value >>= 7;
    }
    out.push(value as u8);
}

/// "Written as 2 × v when v is 0 or more and as −2 × v − 1 when it is negative."
pub fn fold(value: i64) -> u64 {
    let value = i128::from(value);
    let folded = if value >= 0 {
        2 * value
    } else {
        -2 * value - 1
    };
    u64::try_from(folded).expect("a folded 64-bit value fits in 64 bits")
}

/// The inverse of `fold`.
pub fn unfold(number: u64) -> i64 {
    let half = i128::from(number / 2);
    let value = if number & 1 == 0 { half } else { -half - 1 };
    i64::try_from(value).expect("an unfolded 64-bit number fits in 64 bits")
}

/// A value as two numbers of 32 bits, request #104: "the low 32 bits as a
/// signed number, then the value divided by 4,294,967,296 rounded down".
pub fn words(value: i64) -> [i32; 2] {
    let high = value.div_euclid(4_294_967_296);
    let high = i32::try_from(high).expect("the high half of 64 bits fits in 32");
    [value as i32, high]
}

/// The inverse of `words`.
pub fn of_words([low, high]: [i32; 2]) -> i64 {
    4_294_967_296 * i64::from(high) + i64::from(low as u32)
}

#[cfg(test)]
mod tests {
    use super::*;

    #[test]
    fn words_are_exact_at_every_edge() {
        let pairs = [
            (0, [0, 0]),
            (-1, [-1, -1]),
            (-3, [-3, -1]),
            (2_147_483_647, [i32::MAX, 0]),
            (2_147_483_648, [i32::MIN, 0]),
            (-2_147_483_648, [i32::MIN, -1]),
            (-2_147_483_649, [i32::MAX, -1]),
            (4_294_967_295, [-1, 0]),
            (4_294_967_296, [0, 1]),
            (-4_294_967_296, [0, -1]),
            (-4_294_967_297, [-1, -2]),
            (i64::MAX, [-1, i32::MAX]),
            (i64::MIN, [0, i32::MIN]),
        ];
        for (value, numbers) in pairs {
            assert_eq!(words(value), numbers, "{value}");
            assert_eq!(of_words(numbers), value, "{numbers:?}");
        }
    }

    #[test]
    fn fold_is_exact_at_zero_and_both_ends() {
        let pairs = [
            (0, 0),
            (-1, 1),
            (1, 2),
            (-3, 5),
            (4, 8),
            (i64::from(i32::MAX), 4_294_967_294),
            (i64::from(i32::MIN), 4_294_967_295),
            (i64::from(i32::MAX) + 1, 4_294_967_296),
            (i64::from(i32::MIN) - 1, 4_294_967_297),
            (i64::MAX, u64::MAX - 1),
            (i64::MIN, u64::MAX),
        ];
        for (value, number) in pairs {
            assert_eq!(fold(value), number);
            assert_eq!(unfold(number), value);
        }
    }

    #[test]
    fn written_numbers_read_back_with_the_fewest_bytes() {
        let mut edges = vec![0, u64::from(u32::MAX), 1 << 32, u64::MAX];
        for bits in [7, 14, 21, 28, 35, 42, 49, 56, 63] {
            edges.extend([(1 << bits) - 1, 1 << bits, (1 << bits) + 1]);
        }
        for value in edges {
            let mut bytes = Vec::new();
            write(value, &mut bytes);
            let length = bytes.len();
            let needed = (64 - value.leading_zeros()).div_ceil(7).max(1);
            assert_eq!(length, needed as usize, "{value}");
            bytes.push(0xff);
            assert_eq!(read(&bytes, VALUE), Ok((value, length)));
            for cut in 0..length {
                assert_eq!(read(&bytes[..cut], VALUE), Err(Fault::CutOff));
            }
            // A longer number's fifth byte has bit 80 set, and is its end.
            let plain = if value <= PLAIN.most {
                Ok((value, length))
            } else {
                Err(Fault::Form)
            };
            assert_eq!(read(&bytes, PLAIN), plain);
            for cut in 0..length.min(PLAIN.bytes) {
                assert_eq!(read(&bytes[..cut], PLAIN), Err(Fault::CutOff));
            }
        }
    }

    /// So many bytes alike, and then these.
    fn after(byte: u8, many: usize, rest: &[u8]) -> Vec<u8> {
        [&vec![byte; many], rest].concat()
    }

    #[test]
    fn wrong_forms_of_counts_and_names() {
        let wrong = [
            after(0x80, 1, &[0x00]),
            after(0xff, 1, &[0x00]),
            after(0x80, 2, &[0x00]),
            after(0xff, 3, &[0x00]),
            after(0xff, 4, &[0x00]),
            after(0x80, 4, &[0x10]),
            after(0xff, 4, &[0x7f]),
            after(0x80, 5, &[]),
            after(0x80, 4, &[0x8f, 0x01]),
            // A right value, six bytes and ten bytes long.
            after(0x80, 5, &[0x01]),
            after(0xff, 9, &[0x01]),
        ];
        for bytes in wrong {
            assert_eq!(read(&bytes, PLAIN), Err(Fault::Form), "{bytes:x?}");
        }
        for (bytes, value) in [
            (after(0x80, 4, &[0x0f]), 0xf000_0000),
            (after(0xff, 4, &[0x0f]), 0xffff_ffff),
        ] {
            assert_eq!(read(&bytes, PLAIN), Ok((value, 5)));
        }
        let cut = after(0x80, 4, &[]);
        assert_eq!(read(&cut, PLAIN), Err(Fault::CutOff));
    }

    #[test]
    fn wrong_forms_of_values() {
        let wrong = [
            after(0x80, 1, &[0x00]),
            after(0xff, 4, &[0x00]),
            after(0x80, 5, &[0x00]),
            after(0xff, 8, &[0x00]),
            after(0xff, 9, &[0x00]),
            // One more than the largest, and the most that ten groups can hold.
            after(0x80, 9, &[0x02]),
            after(0xff, 9, &[0x7f]),
            // The tenth byte has bit 80, whatever follows it.
            after(0x80, 10, &[]),
            after(0xff, 9, &[0x81]),
            after(0xff, 9, &[0x81, 0x00]),
            after(0x80, 10, &[0x01]),
            after(0xff, 11, &[]),
        ];
        for bytes in wrong {
            assert_eq!(read(&bytes, VALUE), Err(Fault::Form), "{bytes:x?}");
        }
        for (bytes, value) in [
            (after(0x80, 4, &[0x10]), 1 << 32),
            (after(0xff, 4, &[0x7f]), (1 << 35) - 1),
            (after(0x80, 5, &[0x01]), 1 << 35),
            (after(0xff, 8, &[0x7f]), (1 << 63) - 1),
            (after(0x80, 9, &[0x01]), 1 << 63),
            (after(0xff, 9, &[0x01]), u64::MAX),
        ] {
            assert_eq!(read(&bytes, VALUE), Ok((value, bytes.len())));
        }
        for length in 0..VALUE.bytes {
            for byte in [0x80, 0xff] {
                let cut = vec![byte; length];
                assert_eq!(read(&cut, VALUE), Err(Fault::CutOff), "{cut:x?}");
            }
        }
    }
}
