//! Words, what reading says of them, and what explains them.

use crate::{WideWord, NO_PLACE};

/// A word as it stands in memory.
#[derive(Clone, Copy, PartialEq, Eq, Hash, Debug, Default)]
pub struct Word {
    /// Data bit i is bit i.
    pub data: u64,
    /// Check bit j is bit j; its place in the word is k + j.
    pub check: u16,
}

/// The word with these data bits and no check bit.
impl From<u128> for WideWord {
    fn from(data: u128) -> WideWord {
        WideWord { low: data as u64, high: (data >> 64) as u64, check: 0 }
    }
}

/// Its data bits.
impl From<WideWord> for u128 {
    fn from(word: WideWord) -> u128 {
        u128::from(word.high) << 64 | u128::from(word.low)
    }
}

/// What reading says of a word.
#[derive(Clone, Copy, PartialEq, Eq, PartialOrd, Ord, Hash, Debug)]
pub enum Verdict {
    /// 0: nothing is wrong.
    Clean,
    /// 1: one data bit was flipped, and is mended.
    Data,
    /// 2: one check bit was flipped, and is mended.
    Check,
    /// 3: an even syndrome, two flips at least; the word stays as read.
    Even,
    /// 4: an odd syndrome that is no column, three flips at least; the word stays as read.
    Odd,
    /// 5, in a pass only: a bit past k or past r is set; the record stays as read.
    Stray,
}

impl Verdict {
    /// All verdicts, each at its number.
    pub const ALL: [Verdict; 6] =
        [Verdict::Clean, Verdict::Data, Verdict::Check, Verdict::Even, Verdict::Odd, Verdict::Stray];

    /// The verdict's number, 0 to 5.
    pub fn number(self) -> usize {
        self as usize
    }

    /// The verdict of this number, as it stands in a journal entry.
    pub fn of(number: usize) -> Option<Verdict> {
        Verdict::ALL.get(number).copied()
    }
}

/// What is in a word as read; the word is a [`Word`], or in the wide edition a [`WideWord`].
#[derive(Clone, Copy, PartialEq, Eq, Hash, Debug)]
pub struct Reading<W = Word> {
    /// Never [`Verdict::Stray`]: a single word with stray bits is refused.
    pub verdict: Verdict,
    /// The flipped place, with [`Verdict::Data`] and [`Verdict::Check`]; the desk's 255 is `None`.
    pub place: Option<usize>,
    /// The syndrome of the word as read: the exclusive or of the columns of all bits that are set; in Hsiao's family that is
    /// what writing the data gives, exclusive-ored with the check bits. It is 0 exactly for a clean word, and the column of
    /// the place where there is one.
    pub syndrome: u16,
    /// The word mended, or as read where it is not mended.
    pub word: W,
}

/// A set of places: flipping exactly these gives a clean word.
#[derive(Clone, Copy, PartialEq, Eq, Hash, Debug)]
pub enum Explanation {
    /// No place: the word is clean as it is.
    Nothing,
    /// One place.
    One(usize),
    /// Two places, the lower first.
    Two(usize, usize),
}

impl Explanation {
    /// An entry of a list, as [`explain_into`](crate::Code::explain_into) writes it.
    pub fn of(entry: [u8; 2]) -> Explanation {
        match entry {
            [NO_PLACE, _] => Explanation::Nothing,
            [place, NO_PLACE] => Explanation::One(place.into()),
            [lower, higher] => Explanation::Two(lower.into(), higher.into()),
        }
    }
}
