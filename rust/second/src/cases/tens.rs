//! Words of ten bytes: every error within one byte and within two, edges, and words from a seed with any damage.

use super::Cases;
use crate::bytes::{byte_write, single_errors, spoilt};

/// A word that is written, with every error within one byte (70) and within two (2,205).
fn all_errors(word: u64) -> impl Iterator<Item = u64> {
    let twice = single_errors().flat_map(move |(s, first)| {
        let higher = single_errors().filter(move |&(t, _)| t > s);
        higher.map(move |(t, second)| spoilt(spoilt(word, s, first), t, second))
    });
    let once = single_errors().map(move |(t, pattern)| spoilt(word, t, pattern));
    [word].into_iter().chain(once).chain(twice)
}

/// Numbers at every edge: none, each single bit, all bits below each, with the lowest besides.
pub fn edges_of_bits() -> impl Iterator<Item = u64> {
    (0..64).flat_map(|bit| [1 << bit, (1 << bit) - 1, 1 << bit | 1]).chain([u64::MAX])
}

impl Cases {
    /// Data to write: mostly 21 bits, now and then more.
    pub fn byte_data(&mut self) -> u64 {
        let bits = if self.random.once_in(8) { 22 + self.random.below(43) } else { 21 };
        self.random.draw() >> (64 - bits)
    }

    /// A data word, written, and every error within one byte and within two.
    pub fn byte_errors(&mut self) -> impl Iterator<Item = u64> {
        all_errors(byte_write(self.random.draw() >> 43).word)
    }

    /// A word as read: written, then up to five bytes spoilt, or any bits; now and then with stray ones.
    pub fn byte_word(&mut self) -> u64 {
        let mut word = byte_write(self.random.draw() >> 43).word;
        for _ in 0..self.random.below(6) {
            word = spoilt(word, self.random.below(10), 1 + self.random.below(7) as u64);
        }
        match self.random.below(16) {
            0 => self.random.draw(),
            1 => word | 1 << (30 + self.random.below(34)),
            2..=5 => self.random.draw() >> 34,
            _ => word,
        }
    }
}
