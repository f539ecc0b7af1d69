//! The questions of the wide edition: words of up to 128 data bits.

use crate::code::{done, entries, places, reading};
use crate::refusal::Plain;
use crate::{ffi, Explanation, Passed, Reading, Refusal, WideCode, WideWord, WIDE_LONGEST_LIST};
use std::ops::Range;

/// The smallest number of check bits for which a code of `k` data bits exists, in the wide edition.
///
/// ```
/// assert_eq!(desk::wide_check_bits_wanted(64), Ok(8));
/// assert_eq!(desk::wide_check_bits_wanted(120), Ok(8));
/// assert_eq!(desk::wide_check_bits_wanted(121), Ok(9));
/// assert_eq!(desk::wide_check_bits_wanted(129), Err(desk::Refusal::DataBits));
/// ```
pub fn wide_check_bits_wanted(k: usize) -> Result<usize, Refusal> {
    let answer = ffi::wide_check_bits(k);
    done(answer.number, 0, answer.bits)
}

/// Puts back an image of the wide edition, as [`put_back`](crate::put_back) does: records of 18 bytes, entries of 46.
///
/// ```
/// use desk::{wide_put_back, Refusal, WideCode, WIDE_ENTRY, WIDE_RECORD};
///
/// let code = WideCode::made(128, 9)?;
/// let mut image = [0; 2 * WIDE_RECORD];
/// image[WIDE_RECORD + 8] = 1;
/// let as_read = image;
/// let mut journal = [0; WIDE_ENTRY];
/// let passed = code.pass(&mut image, 0..2, &mut journal, 0, 7)?;
/// assert_eq!(image, [0; 2 * WIDE_RECORD]);
/// assert_eq!(wide_put_back(&mut image, &journal, passed.used), Ok(1));
/// assert_eq!(image, as_read);
/// assert_eq!(wide_put_back(&mut image, &journal, 1), Err(Refusal::Mismatch { count: 0 }));
/// assert_eq!(desk::put_back(&mut image, &journal, 1), Err(Refusal::ImageLength));
/// # Ok::<(), Refusal>(())
/// ```
pub fn wide_put_back(image: &mut [u8], journal: &[u8], used: usize) -> Result<usize, Refusal> {
    let ffi::PutBack { number, told, count } = ffi::wide_put_back(image, journal, used);
    Refusal::of(Plain { number, told, count, ..Plain::default() }).map_or(Ok(count), Err)
}

/// Every question answers as that of [`Code`](crate::Code) does, over 128 places.
impl WideCode {
    /// The code of these data columns with `r` check bits, judged.
    ///
    /// ```
    /// use desk::{Refusal, WideCode};
    ///
    /// assert!(WideCode::new(&[7, 11], 4).is_ok());
    /// assert_eq!(WideCode::new(&[7, 12], 4), Err(Refusal::EvenColumn { place: 1 }));
    /// assert_eq!(WideCode::new(&[7; 129], 4), Err(Refusal::DataBits));
    /// ```
    pub fn new(data_columns: &[u16], r: usize) -> Result<WideCode, Refusal> {
        let mut code = WideCode { columns: [0; 128], k: data_columns.len(), r };
        for (place, &column) in code.columns.iter_mut().zip(data_columns) {
            *place = column;
        }
        code.judge()?;
        Ok(code)
    }

    /// The code of `k` data bits and `r` check bits that the desk makes.
    ///
    /// ```
    /// use desk::{Refusal, WideCode};
    ///
    /// let code = WideCode::made(128, 9)?;
    /// assert_eq!((code.k, code.columns[..3].to_vec()), (128, vec![7, 11, 13]));
    /// assert_eq!(WideCode::made(128, 8), Err(Refusal::ColumnRoom));
    /// assert_eq!(WideCode::made(129, 9), Err(Refusal::DataBits));
    /// # Ok::<(), Refusal>(())
    /// ```
    pub fn made(k: usize, r: usize) -> Result<WideCode, Refusal> {
        let answer = ffi::wide_make(k, r);
        done(answer.number, 0, answer.code)
    }

    /// Is this a code? Every other question asks this first and refuses with the same.
    ///
    /// ```
    /// use desk::{Refusal, WideCode};
    ///
    /// let mut code = WideCode::made(65, 8)?;
    /// assert_eq!(code.judge(), Ok(()));
    /// code.columns[127] = 7;
    /// assert_eq!(code.judge(), Err(Refusal::Leftover { place: 127 }));
    /// # Ok::<(), Refusal>(())
    /// ```
    pub fn judge(&self) -> Result<(), Refusal> {
        let answer = ffi::wide_judge(self);
        done(answer.number, answer.told, ())
    }

    /// For each row: r times the ones in that row, less all ones of the matrix; 0 for rows at r or above.
    ///
    /// ```
    /// let code = desk::WideCode::new(&[28, 26, 25, 22, 21, 19, 14, 13], 5)?;
    /// assert_eq!(code.row_balance()?[..5], [-4, -4, 1, 1, 6]);
    /// # Ok::<(), desk::Refusal>(())
    /// ```
    pub fn row_balance(&self) -> Result<[i32; 16], Refusal> {
        let answer = ffi::wide_row_balance(self);
        done(answer.number, answer.told, answer.rows)
    }

    /// The check bits that go with the data.
    ///
    /// ```
    /// use desk::{Refusal, WideCode};
    ///
    /// let code = WideCode::made(128, 9)?;
    /// assert_eq!(code.write(1 << 127), Ok(code.columns[127]));
    /// assert_eq!(WideCode::made(127, 9)?.write(1 << 127), Err(Refusal::StrayBits));
    /// # Ok::<(), Refusal>(())
    /// ```
    pub fn write(&self, data: u128) -> Result<u16, Refusal> {
        let word = WideWord::from(data);
        let answer = ffi::wide_write(self, word.low, word.high);
        done(answer.number, answer.told, answer.check)
    }

    /// What is in the word as read, its syndrome, and the word mended where one flip explains it.
    ///
    /// ```
    /// use desk::{Verdict, WideCode, WideWord};
    ///
    /// let code = WideCode::made(128, 9)?;
    /// let data = u128::MAX / 7;
    /// let written = WideWord { check: code.write(data)?, ..data.into() };
    /// for place in [63, 64, 127] {
    ///     let flipped = WideWord { check: written.check, ..(data ^ 1 << place).into() };
    ///     let reading = code.read(flipped)?;
    ///     assert_eq!((reading.verdict, reading.place), (Verdict::Data, Some(place)));
    ///     assert_eq!(reading.word, written);
    /// }
    /// # Ok::<(), desk::Refusal>(())
    /// ```
    pub fn read(&self, word: WideWord) -> Result<Reading<WideWord>, Refusal> {
        let answer = ffi::wide_read(self, word);
        done(answer.number, answer.told, ())?;
        Ok(reading(answer.verdict, answer.place, answer.syndrome, answer.word))
    }

    /// All sets of at most `limit` places that explain the word: fewer places first, then the lower first place.
    ///
    /// ```
    /// use desk::{Explanation, WideCode, WideWord};
    ///
    /// let code = WideCode::made(128, 9)?;
    /// assert_eq!(code.explain(WideWord::default(), 2)?, [Explanation::Nothing]);
    /// assert_eq!(code.explain((1 << 64).into(), 2)?, [Explanation::One(64)]);
    /// assert!(code.explain((1 << 63 | 1 << 64).into(), 2)?.contains(&Explanation::Two(63, 64)));
    /// # Ok::<(), desk::Refusal>(())
    /// ```
    pub fn explain(&self, word: WideWord, limit: usize) -> Result<Vec<Explanation>, Refusal> {
        let mut list = [0; WIDE_LONGEST_LIST];
        let length = self.explain_into(word, limit, &mut list)?;
        Ok(entries(&list, length))
    }

    /// The same list into a lent buffer, two bytes an entry, 255 where there is no place; answers its length in entries.
    ///
    /// ```
    /// use desk::{Refusal, WideCode};
    ///
    /// let code = WideCode::new(&[28, 26, 25, 22, 21, 19, 14, 13], 5)?;
    /// let word = desk::WideWord { low: 0xA6, high: 0, check: 27 };
    /// let mut list = [0; 10];
    /// assert_eq!(code.explain_into(word, 2, &mut list), Ok(5));
    /// assert_eq!(list, [0, 1, 3, 12, 4, 5, 6, 11, 9, 10]);
    /// assert_eq!(code.explain_into(word, 2, &mut list[..8]), Err(Refusal::ListRoom { length: 5 }));
    /// # Ok::<(), Refusal>(())
    /// ```
    pub fn explain_into(&self, word: WideWord, limit: usize, list: &mut [u8]) -> Result<usize, Refusal> {
        let answer = ffi::wide_explain(self, word, limit, list);
        done(answer.number, answer.told, answer.length)
    }

    /// Is every error of two or more bits within one card of `b` places flagged?
    ///
    /// ```
    /// use desk::{Refusal, WideCode};
    ///
    /// let code = WideCode::new(&[28, 26, 25, 22, 21, 19, 14, 13], 5)?;
    /// assert_eq!(code.card_check(2), Ok(()));
    /// assert_eq!(code.card_check(3), Err(Refusal::WeakCard { card: 1, mask: 7 }));
    /// # Ok::<(), Refusal>(())
    /// ```
    pub fn card_check(&self, b: usize) -> Result<(), Refusal> {
        let ffi::CardCheck { number, told, card, mask } = ffi::wide_cards(self, b);
        Refusal::of(Plain { number, told, card, mask, ..Plain::default() }).map_or(Ok(()), Err)
    }

    /// Passes over a run of the image's records, mends those with one flip, and notes each that is not clean.
    ///
    /// A record has [`WIDE_RECORD`](crate::WIDE_RECORD) bytes, an entry of the journal [`WIDE_ENTRY`](crate::WIDE_ENTRY);
    /// else all is as in [`Code::pass`](crate::Code::pass). An image and its journal keep to one edition.
    ///
    /// ```
    /// use desk::{Refusal, WideCode, WIDE_ENTRY, WIDE_RECORD};
    ///
    /// let code = WideCode::made(128, 9)?;
    /// let mut image = [0; 2 * WIDE_RECORD];
    /// image[WIDE_RECORD + 15] = 0x80;
    /// let mut journal = [0; WIDE_ENTRY];
    /// let passed = code.pass(&mut image, 0..2, &mut journal, 0, 7)?;
    /// assert_eq!((passed.tally.clean, passed.tally.data, passed.used), (1, 1, 1));
    /// assert_eq!(image, [0; 2 * WIDE_RECORD]);
    /// // Stamp 7, record 1, verdict 1, place 127.
    /// assert_eq!(journal[..8], [7, 0, 0, 0, 1, 0, 1, 127]);
    ///
    /// // Records of ten bytes are no image of this edition.
    /// assert_eq!(code.pass(&mut [0; 20], 0..1, &mut journal, 0, 7), Err(Refusal::ImageLength));
    /// # Ok::<(), Refusal>(())
    /// ```
    pub fn pass(
        &self,
        image: &mut [u8],
        run: Range<usize>,
        journal: &mut [u8],
        used: usize,
        stamp: u32,
    ) -> Result<Passed, Refusal> {
        let answer = ffi::wide_pass(self, image, run.start, run.end, journal, used, stamp);
        done(answer.number, answer.told, Passed { used: answer.used, tally: answer.tally })
    }

    /// The same as [`WideCode::pass`] by the quick engine: the same answer, image and journal, whatever is asked.
    ///
    /// ```
    /// use desk::{WideCode, WIDE_ENTRY, WIDE_RECORD};
    ///
    /// let code = WideCode::made(128, 9)?;
    /// let mut image = [0; 100 * WIDE_RECORD];
    /// image[WIDE_RECORD + 15] = 0x80;
    /// let mut quickly = image;
    /// let (mut journal, mut entries) = ([0; WIDE_ENTRY], [0; WIDE_ENTRY]);
    ///
    /// let passed = code.pass(&mut image, 0..100, &mut journal, 0, 7)?;
    /// assert_eq!(code.quick_pass(&mut quickly, 0..100, &mut entries, 0, 7)?, passed);
    /// assert_eq!((quickly, entries), (image, journal));
    /// assert_eq!((passed.tally.clean, passed.tally.data), (99, 1));
    /// # Ok::<(), desk::Refusal>(())
    /// ```
    pub fn quick_pass(
        &self,
        image: &mut [u8],
        run: Range<usize>,
        journal: &mut [u8],
        used: usize,
        stamp: u32,
    ) -> Result<Passed, Refusal> {
        let answer = ffi::wide_quick_pass(self, image, run.start, run.end, journal, used, stamp);
        done(answer.number, answer.told, Passed { used: answer.used, tally: answer.tally })
    }

    /// The code word that a word as read was, where some of its places are known to be bad, as
    /// [`Code::recover`](crate::Code::recover) finds it.
    ///
    /// ```
    /// use desk::{Refusal, WideCode, WideWord};
    ///
    /// let code = WideCode::made(128, 9)?;
    /// let data = u128::MAX / 7;
    /// let written = WideWord { check: code.write(data)?, ..data.into() };
    /// let thrice = WideWord { check: written.check ^ 256, ..(data ^ 1 << 63 ^ 1 << 64).into() };
    /// assert_eq!(code.recover(thrice, &[136, 64, 63]), Ok(written));
    /// assert_eq!(code.recover(thrice, &[64, 64]), Err(Refusal::BadPlaces));
    /// assert_eq!(code.recover(thrice, &[137]), Err(Refusal::BadPlaces));
    /// # Ok::<(), Refusal>(())
    /// ```
    pub fn recover(&self, word: WideWord, bad: &[usize]) -> Result<WideWord, Refusal> {
        let answer = ffi::wide_recover(self, word, bad);
        done(answer.number, answer.told, answer.word)
    }

    /// The bad places, as the ones of a word: those where two reads agree, after a pattern and then its complement were
    /// written.
    ///
    /// ```
    /// use desk::{WideCode, WideWord};
    ///
    /// let code = WideCode::made(128, 9)?;
    /// // Places 64 and 136 are stuck at 0.
    /// let back = |word: WideWord| WideWord { low: word.low, high: word.high & !1, check: word.check & !256 };
    /// let (ones, none) = (WideWord { check: 511, ..u128::MAX.into() }, WideWord::default());
    /// let found = code.find_bad(back(ones), back(none))?;
    /// assert_eq!(code.places(found), [64, 136]);
    /// # Ok::<(), desk::Refusal>(())
    /// ```
    pub fn find_bad(&self, first: WideWord, second: WideWord) -> Result<WideWord, Refusal> {
        let answer = ffi::wide_find_bad(self, first, second);
        done(answer.number, answer.told, answer.word)
    }

    /// The places at which a word has ones, rising: data bit i is place i, check bit j is place k + j.
    ///
    /// ```
    /// let code = desk::WideCode::made(128, 9)?;
    /// assert_eq!(code.places(desk::WideWord { low: 1, high: 1 << 63, check: 3 }), [0, 127, 128, 129]);
    /// # Ok::<(), desk::Refusal>(())
    /// ```
    pub fn places(&self, word: WideWord) -> Vec<usize> {
        places(word.into(), word.check, self.k)
    }
}
