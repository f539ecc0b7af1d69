//! The independent second program: answers every question of document 01, and 02's put-back, sheet, maker, words of ten
//! bytes, bad places and their finder, from the documents alone.
//!
//! It goes by brute force over words of switches. A word is clean when writing its data gives its check bits; reading,
//! explanations and cards flip places and ask that again. The syndrome is handed out, and its ones are counted where no
//! flip helps; nothing is looked up by it, no columns are mixed, and nothing is shared with the desk.
//!
//! Codes with a chosen set of rows are a second family ([`Chosen`]): a word is clean when every row counts an even number of
//! places that are on, and writing tries all check bits.
//!
//! Of passes in any order it says what they must leave, without running one.
//!
//! The questions are [`wanted`], [`judge`], [`row_balance`], [`write`], [`read`], [`explain`], [`card_check`], [`pass`],
//! [`put_back`], [`sheet`], [`make`], [`byte_write`], [`byte_read`], [`recover`], [`find_bad`] and the program [`mend`]. Those
//! about a code, and the put-back, are answered in any edition ([`Coded`]); a word's data is u64 in the ten-byte one and u128
//! in the wide one. [`Desk`] gathers them, [`Questions`] those of one edition, [`OfCodes`] those that take a code of one family
//! and edition. [`Cases`] makes cases from a seed; [`compare`], [`compare_narrow`], [`compare_wide`] and [`compare_rows`] ask
//! several desks; [`worked`], [`worked_wide`] and [`worked_rows`] ask a desk the documents' own cases.

mod answers;
mod back;
mod bad;
mod bytes;
mod cards;
pub mod cases;
mod code;
mod compare;
mod desk;
mod explain;
mod make;
mod orders;
mod pass;
mod program;
mod random;
mod rows;
mod sheet;
mod word;
mod worked;

pub use answers::{Balanced, CardsChecked, Explained, Found, Judged, Passed, PutBack, Reading, Recovered, Refusal};
pub use answers::{Wanted, Written};
pub use back::{put_back, put_back_in};
pub use bad::{find_bad, recover};
pub use bytes::{byte_read, byte_write, single_errors, spoilt, ByteRead, ByteWritten};
pub use cards::card_check;
pub use cases::{Cases, CasesOf};
pub use code::{judge, row_balance, wanted, wanted_in, Code, Coded, Hsiao, WideCode};
pub use compare::{compare, compare_narrow, compare_rows, compare_wide, reason_number, Amounts, Difference, Line};
pub use desk::{Desk, OfCodes, Questions, Second};
pub use explain::explain;
pub use make::{make, make_in, Made};
pub use pass::{counted, pass, stamp_of, Pass};
pub use program::{mend, run, sample_code};
pub use random::Random;
pub use rows::{Chosen, RowCode, WideRowCode};
pub use sheet::{share, sheet, Limit, Sheeted, Station};
pub use word::{read, write};
pub use worked::{worked, worked_rows, worked_wide};
