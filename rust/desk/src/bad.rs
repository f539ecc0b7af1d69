//! Places known to be bad, and how they are found.

use crate::code::{done, places};
use crate::{ffi, Code, Refusal, Word};

impl Code {
    /// The code word that a word as read was, where some of its places are known to be bad.
    ///
    /// It differs from the word as read in any of the `bad` places and, where none or one is bad, in at most one place
    /// more. There is never a second such word. Place i below k is data bit i, place k + j check bit j; their order does
    /// not matter, and a bad place need not be wrong. With none bad it is the word that [`Code::read`] hands back, where
    /// that is clean or mended.
    ///
    /// ```
    /// use desk::{Code, Refusal, Word};
    ///
    /// # fn main() -> Result<(), Refusal> {
    /// let code = Code::new(&[28, 26, 25, 22, 21, 19, 14, 13], 5)?;
    /// let written = Word { data: 0xA5, check: 27 };
    ///
    /// // Two flips, at places 0 and 1: reading flags them, and one of them being known is enough.
    /// let twice = Word { data: 0xA6, check: 27 };
    /// assert_eq!(code.recover(twice, &[]), Err(Refusal::NoCodeWord));
    /// assert_eq!(code.recover(twice, &[1]), Ok(written));
    ///
    /// // Three flips, at places 0, 1 and 9, need all three.
    /// let thrice = Word { data: 0xA6, check: 25 };
    /// assert_eq!(code.recover(thrice, &[9, 0, 1]), Ok(written));
    /// assert_eq!(code.recover(thrice, &[9, 0]), Err(Refusal::NoCodeWord));
    ///
    /// // At most three places, each once, all below n.
    /// assert_eq!(code.recover(thrice, &[9, 0, 9]), Err(Refusal::BadPlaces));
    /// assert_eq!(code.recover(thrice, &[13]), Err(Refusal::BadPlaces));
    /// # Ok(())
    /// # }
    /// ```
    pub fn recover(&self, word: Word, bad: &[usize]) -> Result<Word, Refusal> {
        let answer = ffi::recover(self, word.data, word.check, bad);
        done(answer.number, answer.told, Word { data: answer.data, check: answer.check })
    }

    /// The bad places, as the ones of a word: those where two reads agree, after a pattern and then its complement were
    /// written. A place that keeps what is written differs in the two; one that is stuck does not.
    ///
    /// ```
    /// use desk::{Code, Refusal, Word};
    ///
    /// # fn main() -> Result<(), Refusal> {
    /// let code = Code::new(&[28, 26, 25, 22, 21, 19, 14, 13], 5)?;
    /// // Places 0 and 9 are stuck at 0: what a memory of 13 places gives back.
    /// let back = |word: Word| Word { data: word.data & !1, check: word.check & !2 };
    ///
    /// let first = back(Word { data: 0xFF, check: 31 });
    /// let second = back(Word { data: 0, check: 0 });
    /// let found = code.find_bad(first, second)?;
    /// assert_eq!(found, Word { data: 1, check: 2 });
    ///
    /// // What was found helps to recover what was written.
    /// let bad = code.places(found);
    /// assert_eq!(bad, [0, 9]);
    /// assert_eq!(code.recover(back(Word { data: 0xA5, check: 27 }), &bad), Ok(Word { data: 0xA5, check: 27 }));
    /// # Ok(())
    /// # }
    /// ```
    pub fn find_bad(&self, first: Word, second: Word) -> Result<Word, Refusal> {
        let answer = ffi::find_bad(self, (first.data, first.check), (second.data, second.check));
        done(answer.number, answer.told, Word { data: answer.data, check: answer.check })
    }

    /// The places at which a word has ones, rising: data bit i is place i, check bit j is place k + j.
    ///
    /// ```
    /// let code = desk::Code::made(8, 5)?;
    /// assert_eq!(code.places(desk::Word { data: 0x81, check: 3 }), [0, 7, 8, 9]);
    /// # Ok::<(), desk::Refusal>(())
    /// ```
    pub fn places(&self, word: Word) -> Vec<usize> {
        places(word.data.into(), word.check, self.k)
    }
}
