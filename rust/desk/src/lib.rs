//! The mending desk: single-error-correcting, double-error-detecting codes with columns of odd weight.
//!
//! A safe wrapper of `libdesk.a`, whose functions are written in Rattle and proved: every answer, every refusal and
//! every byte of a lent buffer is stated by a definition. Each question is a function here or a method of [`Code`],
//! [`WideCode`], [`RowCode`], [`WideRowCode`] or [`Station`], and answers a [`Result`] whose error is a [`Refusal`], with its
//! number and what it tells.
//!
//! ```
//! use desk::{Code, Explanation, Refusal, Verdict, Word};
//!
//! # fn main() -> Result<(), Refusal> {
//! let code = Code::new(&[28, 26, 25, 22, 21, 19, 14, 13], 5)?;
//! assert_eq!(code.write(0xA5)?, 27);
//!
//! // One flip is found and mended.
//! let reading = code.read(Word { data: 0xA4, check: 27 })?;
//! assert_eq!(reading.verdict, Verdict::Data);
//! assert_eq!(reading.place, Some(0));
//! assert_eq!(reading.syndrome, 28);
//! assert_eq!(reading.word, Word { data: 0xA5, check: 27 });
//!
//! // Two flips are found, and explained.
//! let twice = Word { data: 0xA6, check: 27 };
//! assert_eq!(code.read(twice)?.verdict, Verdict::Even);
//! assert_eq!(code.explain(twice, 2)?[0], Explanation::Two(0, 1));
//!
//! // A refusal says what is wrong.
//! let refusal = Code::new(&[28, 28], 5).unwrap_err();
//! assert_eq!(refusal, Refusal::RepeatedColumn { place: 1 });
//! assert_eq!((refusal.number(), refusal.told()), (6, 1));
//! assert_eq!(refusal.to_string(), "refused 6: column 1 equals an earlier one");
//! # Ok(())
//! # }
//! ```
//!
//! Words of more than 64 data bits have an edition of their own: [`WideCode`] keeps 128 column places and has every
//! question of [`Code`], over a [`WideWord`] of two halves, which an `u128` becomes. Sealed claims stay with [`Code`].
//!
//! Codes whose check columns need not be single ones are [`RowCode`] and [`WideRowCode`]: all n columns, and a set of rows
//! within which each column is odd. They have every question that takes a code.
//!
//! Those who want the plain numbers of the archive find them in [`ffi`]. Either way the first call compares versions, and
//! stops at an archive that is of another than [`VERSION`].
#![deny(missing_docs, unsafe_code)]

pub mod ffi;

mod back;
mod bad;
mod bytes;
mod code;
mod refusal;
mod rows;
mod sheet;
mod tally;
mod version;
mod wide;
mod word;

pub use back::put_back;
pub use bytes::{byte_read, byte_write, ByteReading, ByteVerdict};
pub use code::check_bits_wanted;
pub use ffi::{ByteNumber, Code, RowCode, Sheet, Tally, WideCode, WideRowCode, WideWord};
pub use refusal::Refusal;
pub use sheet::{JudgedSheet, Limit, Station};
pub use tally::Passed;
pub use version::VERSION;
pub use wide::{wide_check_bits_wanted, wide_put_back};
pub use word::{Explanation, Reading, Verdict, Word};

/// Bytes of a record: data in 8, check bits in 2, low byte first.
pub const RECORD: usize = 10;
/// Bytes of a journal entry: stamp in 4, record number in 2, verdict, place, syndrome in 2, 10 bytes as read, 10 as left;
/// numbers low byte first. The syndrome is that of the record as read, and 0 for a stray one.
pub const ENTRY: usize = 30;
/// Bytes of the longest image.
pub const IMAGE: usize = 65_530;
/// Bytes that hold any list of explanations.
pub const LONGEST_LIST: usize = 80;
/// Bytes of a record of the wide edition: data in 16, check bits in 2, low byte first.
pub const WIDE_RECORD: usize = 18;
/// Bytes of a journal entry of the wide edition: as [`ENTRY`], with 18 bytes as read and 18 as left.
pub const WIDE_ENTRY: usize = 46;
/// Bytes of the longest image of the wide edition, which are 3,640 records.
pub const WIDE_IMAGE: usize = 65_520;
/// Bytes that hold any list of explanations of the wide edition.
pub const WIDE_LONGEST_LIST: usize = 144;
/// The place that stands in an entry or in a list where there is none.
pub const NO_PLACE: u8 = 255;
/// The number that stands in a reading of ten bytes where no byte is named.
pub const NO_BYTE: ByteNumber = ByteNumber(255);

/// The page on calling the desk: its Rust blocks are run as examples of this crate.
#[cfg(doctest)]
#[doc = include_str!("../../../docs/CALLING.md")]
struct Calling;

/// The page on choosing a code: its Rust block is run too.
#[cfg(doctest)]
#[doc = include_str!("../../../docs/CHOOSING.md")]
struct Choosing;

/// The page on disputes: its Rust block is run too.
#[cfg(doctest)]
#[doc = include_str!("../../../docs/DISPUTES.md")]
struct Disputes;
