//! The answers: a number (0 done, else the table's number of the refusal), what is told, and the rest.
//!
//! `told` is the bad column's place for 3 to 6, the list's length for 10, the entries needed for 13, the reason for 20, the
//! first place that is not 0 for 21; 9 and 18 tell in fields of their own. Everything that is not told is 0.

/// Why a question is refused.
#[derive(Clone, Copy, PartialEq, Eq, Debug)]
pub struct Refusal {
    pub number: usize,
    pub told: usize,
}

impl Refusal {
    /// A refusal that tells nothing but its number.
    pub fn plain(number: usize) -> Refusal {
        Refusal { number, told: 0 }
    }
}

#[derive(Clone, Copy, PartialEq, Eq, Debug, Default)]
pub struct Wanted {
    pub number: usize,
    pub check_bits: usize,
}

#[derive(Clone, Copy, PartialEq, Eq, Debug, Default)]
pub struct Judged {
    pub number: usize,
    pub told: usize,
}

#[derive(Clone, Copy, PartialEq, Eq, Debug, Default)]
pub struct Balanced {
    pub number: usize,
    pub told: usize,
    pub rows: [i32; 16],
}

#[derive(Clone, Copy, PartialEq, Eq, Debug, Default)]
pub struct Written {
    pub number: usize,
    pub told: usize,
    pub check: u16,
}

/// Of a word of the ten-byte edition, or with u128 of the wide one.
#[derive(Clone, Copy, PartialEq, Eq, Debug, Default)]
pub struct Reading<D = u64> {
    pub number: usize,
    pub told: usize,
    pub verdict: usize,
    pub place: usize,
    pub data: D,
    pub check: u16,
    /// Of the word as read.
    pub syndrome: u16,
}

#[derive(Clone, Copy, PartialEq, Eq, Debug, Default)]
pub struct Explained {
    pub number: usize,
    pub told: usize,
    /// The length of a done list.
    pub length: usize,
}

#[derive(Clone, Copy, PartialEq, Eq, Debug, Default)]
pub struct CardsChecked {
    pub number: usize,
    pub told: usize,
    /// With number 9: the first weak card; check cards are numbered on from the data cards.
    pub card: usize,
    /// With number 9: the smallest mask on that card.
    pub mask: usize,
}

#[derive(Clone, Copy, PartialEq, Eq, Debug, Default)]
pub struct Passed {
    pub number: usize,
    pub told: usize,
    /// The entries in use after a done pass.
    pub used: usize,
    /// How many records of the run have verdict 0 to 5.
    pub tally: [usize; 6],
}

#[derive(Clone, Copy, PartialEq, Eq, Debug, Default)]
pub struct PutBack {
    pub number: usize,
    pub told: usize,
    /// The entries put back, done or with number 18.
    pub count: usize,
}

/// What an answer with a number and a told value is when the question is refused: the rest is 0.
macro_rules! refused {
    ($($answer:ident)*) => {$(
        impl From<$crate::answers::Refusal> for $answer {
            fn from(refusal: $crate::answers::Refusal) -> $answer {
                $answer { number: refusal.number, told: refusal.told, ..$answer::default() }
            }
        }
    )*};
}

pub(crate) use refused;

impl From<Refusal> for Judged {
    fn from(refusal: Refusal) -> Judged {
        Judged { number: refusal.number, told: refusal.told }
    }
}

/// The code word, where some places are bad.
#[derive(Clone, Copy, PartialEq, Eq, Debug, Default)]
pub struct Recovered<D = u64> {
    pub number: usize,
    pub told: usize,
    pub data: D,
    pub check: u16,
}

/// Bad places, as ones.
#[derive(Clone, Copy, PartialEq, Eq, Debug, Default)]
pub struct Found<D = u64> {
    pub number: usize,
    pub told: usize,
    pub data: D,
    pub check: u16,
}

/// The same of answers with data bits of an edition.
macro_rules! refused_with_data {
    ($($answer:ident)*) => {$(
        impl<D: Default> From<Refusal> for $answer<D> {
            fn from(refusal: Refusal) -> $answer<D> {
                $answer { number: refusal.number, told: refusal.told, ..$answer::default() }
            }
        }
    )*};
}

refused!(Balanced Written Explained CardsChecked Passed PutBack);
refused_with_data!(Reading Recovered Found);
