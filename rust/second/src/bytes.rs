//! Words of ten bytes of three bits (document 02, request 114), by distance.
//!
//! What a word must be is equation 4 of document 000, in the field of its table 4: a vector of three bits is an element,
//! and powers of x stand for powers of T. The check bytes are found by trying. A word as read is looked for among the
//! words that are written, then each of the 70 words that differ from it within one byte. No syndrome is formed, and no
//! matrix is multiplied.

use crate::answers::{refused, Refusal};

/// Bytes of data, and of a word.
const DATA: usize = 7;
const ALL: usize = 10;
/// The byte number where none is named.
const NO_BYTE: usize = 255;

/// Table 4 of document 000: the powers of x from the 0th to the 6th. A vector's lowest bit is its top one.
const POWERS: [u64; 7] = [0b001, 0b010, 0b100, 0b011, 0b110, 0b111, 0b101];
/// The line of the table in which each vector stands, but for zero.
const LINES: [usize; 8] = [7, 0, 1, 3, 2, 6, 4, 5];

/// A vector multiplied by a power of x: exponents are added, and the seventh power is the 0th.
fn times_x(vector: u64, power: usize) -> u64 {
    match vector {
        0 => 0,
        _ => POWERS[(LINES[vector as usize] + power) % 7],
    }
}

/// The word with these data bits: in each row of equation 4, the check byte with which the row comes to zero.
fn word_of(data: u64) -> u64 {
    let mut word = data;
    for row in 0..3 {
        let terms = (0..DATA).map(|i| times_x(data >> (3 * i) & 7, row * i));
        let sum = terms.fold(0, |sum, term| sum ^ term);
        let check = (0..8).find(|check| sum ^ check == 0).expect("one of eight fits");
        word |= check << (3 * (DATA + row));
    }
    word
}

thread_local! {
    /// The word for each data word.
    static WORDS: Vec<u32> = (0..1 << (3 * DATA)).map(|data| word_of(data) as u32).collect();
}

/// Whether this is a word that is written for some data.
fn is_written(word: u64) -> bool {
    WORDS.with(|words| u64::from(words[word as usize % words.len()]) == word)
}

/// The answer to writing: the whole word.
#[derive(Clone, Copy, PartialEq, Eq, Debug, Default)]
pub struct ByteWritten {
    pub number: usize,
    pub told: usize,
    pub word: u64,
}

/// The answer to reading: the verdict, the byte's number, and the word put right or as read.
#[derive(Clone, Copy, PartialEq, Eq, Debug, Default)]
pub struct ByteRead {
    pub number: usize,
    pub told: usize,
    pub verdict: usize,
    pub byte: usize,
    pub word: u64,
}

refused!(ByteWritten ByteRead);

/// A word with the bits of a pattern flipped in byte t.
pub fn spoilt(word: u64, t: usize, pattern: u64) -> u64 {
    word ^ pattern << (3 * t)
}

/// Every error within one byte: 70 bytes and patterns.
pub fn single_errors() -> impl Iterator<Item = (usize, u64)> + Clone {
    (0..ALL).flat_map(|t| (1..8).map(move |pattern| (t, pattern)))
}

/// Writing: the word of 30 bits with these data bits.
pub fn byte_write(data: u64) -> ByteWritten {
    if data >= 1 << (3 * DATA) {
        return Refusal::plain(7).into();
    }
    ByteWritten { word: word_of(data), ..ByteWritten::default() }
}

/// Reading: the written word that differs from this one within no byte, or within one.
pub fn byte_read(word: u64) -> ByteRead {
    if word >= 1 << (3 * ALL) {
        return Refusal::plain(7).into();
    }
    let left = |verdict: usize| ByteRead { verdict, byte: NO_BYTE, word, ..ByteRead::default() };
    if is_written(word) {
        return left(0);
    }
    match single_errors().find(|&(t, pattern)| is_written(spoilt(word, t, pattern))) {
        Some((t, pattern)) => {
            let verdict = if t < DATA { 1 } else { 2 };
            ByteRead { verdict, byte: t, word: spoilt(word, t, pattern), ..ByteRead::default() }
        }
        None => left(3),
    }
}
