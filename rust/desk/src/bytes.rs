//! Words of ten bytes of three bits, which outlive a whole failed card.

use crate::code::done;
use crate::{ffi, ByteNumber, Refusal, NO_BYTE};

/// What reading says of a word of ten bytes.
#[derive(Clone, Copy, PartialEq, Eq, PartialOrd, Ord, Hash, Debug)]
pub enum ByteVerdict {
    /// 0: nothing is wrong.
    Clean,
    /// 1: one data byte was wrong, and is put right.
    Data,
    /// 2: one check byte was wrong, and is put right.
    Check,
    /// 3: no error within one byte explains it; the word stays as read.
    Flagged,
}

impl ByteVerdict {
    /// All verdicts, each at its number.
    pub const ALL: [ByteVerdict; 4] = [ByteVerdict::Clean, ByteVerdict::Data, ByteVerdict::Check, ByteVerdict::Flagged];

    /// The verdict's number, 0 to 3.
    pub fn number(self) -> usize {
        self as usize
    }

    /// The verdict of this number.
    pub fn of(number: usize) -> Option<ByteVerdict> {
        ByteVerdict::ALL.get(number).copied()
    }
}

/// What is in a word of ten bytes as read.
#[derive(Clone, Copy, PartialEq, Eq, Hash, Debug)]
pub struct ByteReading {
    /// What is wrong.
    pub verdict: ByteVerdict,
    /// The byte that was wrong, with [`ByteVerdict::Data`] and [`ByteVerdict::Check`]; the desk's 255 is `None`.
    pub byte: Option<ByteNumber>,
    /// The word put right, or as read where it is not.
    pub word: u64,
}

/// The word of 30 bits with these data bits, which are its bits 0 to 20.
///
/// Byte t is bits 3t to 3t + 2: data bytes 0 to 6, check bytes 7 to 9.
///
/// ```
/// assert_eq!(desk::byte_write(8), Ok(8 | 1 << 21 | 2 << 24 | 4 << 27));
/// assert_eq!(desk::byte_write(1 << 21), Err(desk::Refusal::StrayBits));
/// ```
pub fn byte_write(data: u64) -> Result<u64, Refusal> {
    let answer = ffi::byte_write(data);
    done(answer.number, answer.told, answer.word)
}

/// What is in the word of ten bytes as read, and the word put right where an error within one byte explains it.
///
/// ```
/// use desk::{byte_read, byte_write, ByteNumber, ByteVerdict, Refusal};
///
/// # fn main() -> Result<(), Refusal> {
/// let word = byte_write(8)?;
///
/// // The card of byte 6 fails: all its three bits are wrong.
/// let reading = byte_read(word ^ 0b111 << 18)?;
/// assert_eq!((reading.verdict, reading.byte), (ByteVerdict::Data, Some(ByteNumber(6))));
/// assert_eq!(reading.word, word);
///
/// // Two cards fail: the word is flagged and left.
/// let twice = word ^ 0b111 << 18 ^ 0b001 << 27;
/// let reading = byte_read(twice)?;
/// assert_eq!((reading.verdict, reading.byte, reading.word), (ByteVerdict::Flagged, None, twice));
///
/// assert_eq!(byte_read(word | 1 << 30), Err(Refusal::StrayBits));
/// # Ok(())
/// # }
/// ```
pub fn byte_read(word: u64) -> Result<ByteReading, Refusal> {
    let answer = ffi::byte_read(word);
    done(answer.number, answer.told, ())?;
    let verdict = ByteVerdict::of(answer.verdict).expect("a verdict of the table");
    let byte = if answer.byte == NO_BYTE { None } else { Some(answer.byte) };
    Ok(ByteReading { verdict, byte, word: answer.word })
}
