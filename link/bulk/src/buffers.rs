//! Lent buffers with margins on both sides, full of noise before each call.

use oracle::random::Random;
use std::hint::black_box;

/// Numbers on each side of a buffer that a call may not touch.
const MARGIN: usize = 64;
/// How much longer than needed a buffer can be.
pub const MOST_EXTRA: usize = 63;

/// Noise for a buffer of so many numbers, anywhere in it.
fn noise(random: &mut Random, length: usize) -> Vec<u32> {
    let number = |_| match random.below(4) {
        // As numbers of rows and places look.
        0 => 1 + random.below(40) as u32,
        1 => u32::MAX - random.below(6) as u32,
        _ => 1 | random.bits() as u32,
    };
    (0..length).map(number).collect()
}

/// A buffer of a changing length within its margins. None of its noise is 0.
pub struct Buffer<T> {
    noise: Vec<T>,
    all: Vec<T>,
    /// Where in the noise the present content began.
    from: usize,
    length: usize,
}

impl<T: Copy + PartialEq + Default> Buffer<T> {
    /// A buffer for up to `usual + MOST_EXTRA` numbers.
    pub fn new(random: &mut Random, usual: usize, number: fn(u32) -> T) -> Buffer<T> {
        let most = usual + MOST_EXTRA + 2 * MARGIN;
        let noise = noise(random, most + 1024);
        Buffer {
            noise: noise.into_iter().map(number).collect(),
            all: vec![T::default(); most],
            from: 0,
            length: 0,
        }
    }

    /// Fills the buffer and its margins with noise, and lends the buffer.
    pub fn lend(&mut self, random: &mut Random, length: usize) -> &mut [T] {
        let end = length + 2 * MARGIN;
        self.from = random.below(self.noise.len() - end);
        self.length = length;
        self.all[..end].copy_from_slice(&self.noise[self.from..self.from + end]);
        &mut self.all[MARGIN..MARGIN + length]
    }

    /// What the buffer holds.
    pub fn content(&self) -> &[T] {
        &self.all[MARGIN..MARGIN + self.length]
    }

    /// Whether all is as it was lent from number `first` of the buffer on, and before the buffer.
    pub fn kept(&self, first: usize) -> bool {
        // The compiler might otherwise reason that a call can't have changed what it wasn't lent.
        let all = black_box(&self.all);
        let same = |from: usize, end: usize| {
            all[from..end] == self.noise[self.from + from..self.from + end]
        };
        same(0, MARGIN) && same(MARGIN + first, self.length + 2 * MARGIN)
    }

    /// Whether the margins are as they were.
    pub fn margins_kept(&self) -> bool {
        self.kept(self.length)
    }
}

#[cfg(test)]
mod tests {
    use super::*;

    fn lent(length: usize) -> Buffer<i32> {
        let mut random = Random::new(1);
        let mut buffer = Buffer::new(&mut random, 24, |n| n as i32);
        assert!(buffer
            .lend(&mut random, length)
            .iter()
            .all(|&number| number != 0));
        buffer
    }

    #[test]
    fn a_changed_margin_is_seen() {
        for length in [0, 23, 24, 24 + MOST_EXTRA] {
            for at in [0, MARGIN - 1, MARGIN + length, length + 2 * MARGIN - 1] {
                let mut buffer = lent(length);
                assert!(buffer.margins_kept());
                buffer.all[at] = 0;
                assert!(!buffer.margins_kept(), "length {length}, number {at}");
            }
        }
    }

    #[test]
    fn noise_in_bytes_has_no_0() {
        let mut random = Random::new(1);
        let mut buffer = Buffer::new(&mut random, 10_000, |n| n as u8);
        assert!(!buffer.lend(&mut random, 10_000).contains(&0));
    }

    #[test]
    fn a_change_from_some_number_on_is_seen() {
        let mut buffer = lent(5);
        buffer.all[MARGIN + 2] = 0;
        assert!(buffer.kept(3) && !buffer.kept(2) && !buffer.kept(0));
    }
}
