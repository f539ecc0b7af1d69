//! The questions of codes with a set of rows, in both editions.

use crate::code::{done, entries, places, reading};
use crate::refusal::Plain;
use crate::{ffi, Explanation, Passed, Reading, Refusal, RowCode, WideRowCode, WideWord, Word};
use crate::{LONGEST_LIST, WIDE_LONGEST_LIST};
use std::ops::Range;

/// Every question answers as that of [`Code`](crate::Code) does, by the code's own check columns and its set of rows.
impl RowCode {
    /// The code of these n columns, the last `r` of them check columns, and this set of rows, judged.
    ///
    /// ```
    /// use desk::{Refusal, RowCode};
    ///
    /// // Source document 002, figure 1: its last row alone makes every column odd.
    /// let columns = [28, 26, 25, 22, 21, 19, 30, 29, 17, 18, 20, 24, 16];
    /// assert!(RowCode::new(&columns, 5, 16).is_ok());
    /// // Not all rows do, and there is no row 5.
    /// assert_eq!(RowCode::new(&columns, 5, 31), Err(Refusal::RowSet { reason: 4 }));
    /// assert_eq!(RowCode::new(&columns, 5, 32), Err(Refusal::RowSet { reason: 1 }));
    /// assert_eq!(RowCode::new(&columns[8..], 5, 16), Err(Refusal::DataBits));
    /// ```
    pub fn new(columns: &[u16], r: usize, rows: u16) -> Result<RowCode, Refusal> {
        let mut code = RowCode { columns: [0; 80], n: columns.len(), r, rows };
        for (place, &column) in code.columns.iter_mut().zip(columns) {
            *place = column;
        }
        code.judge()?;
        Ok(code)
    }

    /// Is this a code? Every other question asks this first and refuses with the same.
    ///
    /// ```
    /// use desk::{Refusal, RowCode};
    ///
    /// let mut code = RowCode::new(&[28, 14, 22, 26, 29, 3, 5, 9, 17, 2, 4, 8, 16], 5, 30)?;
    /// code.columns[8] = 28;
    /// assert_eq!(code.judge(), Err(Refusal::RowSet { reason: 2 }));
    /// code.columns[8] = 25;
    /// assert_eq!(code.judge(), Err(Refusal::RowSet { reason: 4 }));
    /// code.columns[9] = 1;
    /// assert_eq!(code.judge(), Err(Refusal::RowSet { reason: 3 }));
    /// # Ok::<(), Refusal>(())
    /// ```
    pub fn judge(&self) -> Result<(), Refusal> {
        let answer = ffi::rows_judge(self);
        done(answer.number, answer.told, ())
    }

    /// For each row: r times the ones in that row, less all ones of the matrix; 0 for rows at r or above.
    ///
    /// ```
    /// let code = desk::RowCode::new(&[28, 26, 25, 22, 21, 19, 30, 29, 17, 18, 20, 24, 16], 5, 16)?;
    /// assert_eq!(code.row_balance()?[..5], [-10, -10, -5, -5, 30]);
    /// # Ok::<(), desk::Refusal>(())
    /// ```
    pub fn row_balance(&self) -> Result<[i32; 16], Refusal> {
        let answer = ffi::rows_row_balance(self);
        done(answer.number, answer.told, answer.rows)
    }

    /// The check bits that go with the data: the only ones with which every row counts an even number of ones.
    ///
    /// ```
    /// use desk::{Code, RowCode};
    ///
    /// // Figures 1 and 2 of source document 002 write the same check bits.
    /// let one = RowCode::new(&[28, 26, 25, 22, 21, 19, 30, 29, 17, 18, 20, 24, 16], 5, 16)?;
    /// let two = Code::new(&[28, 26, 25, 22, 21, 19, 14, 13], 5)?;
    /// for data in 0..256 {
    ///     assert_eq!(one.write(data), two.write(data));
    /// }
    /// # Ok::<(), desk::Refusal>(())
    /// ```
    pub fn write(&self, data: u64) -> Result<u16, Refusal> {
        let answer = ffi::rows_write(self, data);
        done(answer.number, answer.told, answer.check)
    }

    /// What is in the word as read, its syndrome, and the word mended where one flip explains it.
    ///
    /// ```
    /// use desk::{RowCode, Verdict, Word};
    ///
    /// let code = RowCode::new(&[28, 14, 22, 26, 29, 3, 5, 9, 17, 2, 4, 8, 16], 5, 30)?;
    /// let clean = Word { data: 0xA5, check: code.write(0xA5)? };
    /// let reading = code.read(Word { data: 0xA4, ..clean })?;
    /// assert_eq!((reading.verdict, reading.place, reading.syndrome), (Verdict::Data, Some(0), 28));
    /// assert_eq!(reading.word, clean);
    /// assert_eq!(code.read(Word { data: 0xA6, ..clean })?.verdict, Verdict::Even);
    /// # Ok::<(), desk::Refusal>(())
    /// ```
    pub fn read(&self, word: Word) -> Result<Reading, Refusal> {
        let answer = ffi::rows_read(self, word.data, word.check);
        done(answer.number, answer.told, ())?;
        let word = Word { data: answer.data, check: answer.check };
        Ok(reading(answer.verdict, answer.place, answer.syndrome, word))
    }

    /// All sets of at most `limit` places that explain the word: fewer places first, then the lower first place.
    ///
    /// ```
    /// use desk::{Explanation, RowCode, Word};
    ///
    /// let code = RowCode::new(&[28, 14, 22, 26, 29, 3, 5, 9, 17, 2, 4, 8, 16], 5, 30)?;
    /// let clean = Word { data: 0xA5, check: code.write(0xA5)? };
    /// assert_eq!(code.explain(clean, 2)?, [Explanation::Nothing]);
    /// assert!(code.explain(Word { data: 0xA6, ..clean }, 2)?.contains(&Explanation::Two(0, 1)));
    /// # Ok::<(), desk::Refusal>(())
    /// ```
    pub fn explain(&self, word: Word, limit: usize) -> Result<Vec<Explanation>, Refusal> {
        let mut list = [0; LONGEST_LIST];
        let length = self.explain_into(word, limit, &mut list)?;
        Ok(entries(&list, length))
    }

    /// The same list into a lent buffer, two bytes an entry, 255 where there is no place; answers its length in entries.
    ///
    /// ```
    /// use desk::{RowCode, Word};
    ///
    /// let code = RowCode::new(&[28, 14, 22, 26, 29, 3, 5, 9, 17, 2, 4, 8, 16], 5, 30)?;
    /// let mut list = [7; 3];
    /// assert_eq!(code.explain_into(Word::default(), 0, &mut list), Ok(1));
    /// assert_eq!(list, [255, 255, 7]);
    /// # Ok::<(), desk::Refusal>(())
    /// ```
    pub fn explain_into(&self, word: Word, limit: usize, list: &mut [u8]) -> Result<usize, Refusal> {
        let answer = ffi::rows_explain(self, word.data, word.check, limit, list);
        done(answer.number, answer.told, answer.length)
    }

    /// Is every error of two or more bits within one card of `b` places flagged? Cards begin again at place n - r.
    ///
    /// ```
    /// use desk::{Refusal, RowCode};
    ///
    /// let code = RowCode::new(&[28, 26, 25, 22, 21, 19, 30, 29, 17, 18, 20, 24, 16], 5, 16)?;
    /// assert_eq!(code.card_check(2), Ok(()));
    /// assert_eq!(code.card_check(9), Err(Refusal::CardSize));
    /// # Ok::<(), Refusal>(())
    /// ```
    pub fn card_check(&self, b: usize) -> Result<(), Refusal> {
        let ffi::CardCheck { number, told, card, mask } = ffi::rows_cards(self, b);
        Refusal::of(Plain { number, told, card, mask, ..Plain::default() }).map_or(Ok(()), Err)
    }

    /// Passes over a run of the image's records, mends those with one flip, and notes each that is not clean; as
    /// [`Code::pass`](crate::Code::pass).
    ///
    /// ```
    /// use desk::{RowCode, ENTRY, RECORD};
    ///
    /// let code = RowCode::new(&[28, 14, 22, 26, 29, 3, 5, 9, 17, 2, 4, 8, 16], 5, 30)?;
    /// let (mut image, mut journal) = ([0; 2 * RECORD], [0; ENTRY]);
    /// image[RECORD] = 1;
    /// let passed = code.pass(&mut image, 0..2, &mut journal, 0, 7)?;
    /// assert_eq!((passed.tally.clean, passed.tally.data, passed.used), (1, 1, 1));
    /// assert_eq!(image, [0; 2 * RECORD]);
    /// // Stamp 7, record 1, verdict 1, place 0, syndrome 28.
    /// assert_eq!(journal[..10], [7, 0, 0, 0, 1, 0, 1, 0, 28, 0]);
    /// # Ok::<(), desk::Refusal>(())
    /// ```
    pub fn pass(
        &self,
        image: &mut [u8],
        run: Range<usize>,
        journal: &mut [u8],
        used: usize,
        stamp: u32,
    ) -> Result<Passed, Refusal> {
        let answer = ffi::rows_pass(self, image, run.start, run.end, journal, used, stamp);
        done(answer.number, answer.told, Passed { used: answer.used, tally: answer.tally })
    }

    /// The same as [`RowCode::pass`] by the quick engine: the same answer, image and journal, whatever is asked.
    ///
    /// ```
    /// use desk::{RowCode, ENTRY, RECORD};
    ///
    /// let code = RowCode::new(&[28, 14, 22, 26, 29, 3, 5, 9, 17, 2, 4, 8, 16], 5, 30)?;
    /// let mut image = [0; 100 * RECORD];
    /// image[RECORD] = 1;
    /// let mut quickly = image;
    /// let (mut journal, mut entries) = ([0; ENTRY], [0; ENTRY]);
    ///
    /// let passed = code.pass(&mut image, 0..100, &mut journal, 0, 7)?;
    /// assert_eq!(code.quick_pass(&mut quickly, 0..100, &mut entries, 0, 7)?, passed);
    /// assert_eq!((quickly, entries), (image, journal));
    /// assert_eq!((passed.tally.clean, passed.tally.data), (99, 1));
    /// # Ok::<(), desk::Refusal>(())
    /// ```
    pub fn quick_pass(
        &self,
        image: &mut [u8],
        run: Range<usize>,
        journal: &mut [u8],
        used: usize,
        stamp: u32,
    ) -> Result<Passed, Refusal> {
        let answer = ffi::rows_quick_pass(self, image, run.start, run.end, journal, used, stamp);
        done(answer.number, answer.told, Passed { used: answer.used, tally: answer.tally })
    }

    /// The code word that a word as read was, where some of its places are known to be bad; as
    /// [`Code::recover`](crate::Code::recover).
    ///
    /// ```
    /// use desk::{Refusal, RowCode, Word};
    ///
    /// let code = RowCode::new(&[28, 14, 22, 26, 29, 3, 5, 9, 17, 2, 4, 8, 16], 5, 30)?;
    /// let clean = Word { data: 0xA5, check: code.write(0xA5)? };
    /// let twice = Word { data: 0xA6, ..clean };
    /// assert_eq!(code.recover(twice, &[]), Err(Refusal::NoCodeWord));
    /// assert_eq!(code.recover(twice, &[1]), Ok(clean));
    /// # Ok::<(), Refusal>(())
    /// ```
    pub fn recover(&self, word: Word, bad: &[usize]) -> Result<Word, Refusal> {
        let answer = ffi::rows_recover(self, word.data, word.check, bad);
        done(answer.number, answer.told, Word { data: answer.data, check: answer.check })
    }

    /// The bad places, as the ones of a word: those where two reads agree, after a pattern and then its complement.
    ///
    /// ```
    /// use desk::{RowCode, Word};
    ///
    /// let code = RowCode::new(&[28, 14, 22, 26, 29, 3, 5, 9, 17, 2, 4, 8, 16], 5, 30)?;
    /// // Places 0 and 9 are stuck at 0.
    /// let found = code.find_bad(Word { data: 0xFE, check: 29 }, Word::default())?;
    /// assert_eq!(found, Word { data: 1, check: 2 });
    /// # Ok::<(), desk::Refusal>(())
    /// ```
    pub fn find_bad(&self, first: Word, second: Word) -> Result<Word, Refusal> {
        let answer = ffi::rows_find_bad(self, (first.data, first.check), (second.data, second.check));
        done(answer.number, answer.told, Word { data: answer.data, check: answer.check })
    }

    /// The places at which a word has ones, rising: data bit i is place i, check bit j is place n - r + j.
    ///
    /// ```
    /// let code = desk::RowCode::new(&[28, 14, 22, 26, 29, 3, 5, 9, 17, 2, 4, 8, 16], 5, 30)?;
    /// assert_eq!(code.places(desk::Word { data: 0x81, check: 3 }), [0, 7, 8, 9]);
    /// # Ok::<(), desk::Refusal>(())
    /// ```
    pub fn places(&self, word: Word) -> Vec<usize> {
        places(word.data.into(), word.check, self.n.saturating_sub(self.r))
    }
}

/// Every question answers as that of [`RowCode`] does, over 144 places and words of two halves.
impl WideRowCode {
    /// The code of these n columns, the last `r` of them check columns, and this set of rows, judged.
    ///
    /// ```
    /// use desk::{Refusal, WideRowCode};
    ///
    /// // Source document 002, figure 1: its last row alone makes every column odd.
    /// let columns = [28, 26, 25, 22, 21, 19, 30, 29, 17, 18, 20, 24, 16];
    /// assert!(WideRowCode::new(&columns, 5, 16).is_ok());
    /// // Not all rows do, and there is no row 5.
    /// assert_eq!(WideRowCode::new(&columns, 5, 31), Err(Refusal::RowSet { reason: 4 }));
    /// assert_eq!(WideRowCode::new(&columns, 5, 32), Err(Refusal::RowSet { reason: 1 }));
    /// assert_eq!(WideRowCode::new(&columns[8..], 5, 16), Err(Refusal::DataBits));
    /// ```
    pub fn new(columns: &[u16], r: usize, rows: u16) -> Result<WideRowCode, Refusal> {
        let mut code = WideRowCode { columns: [0; 144], n: columns.len(), r, rows };
        for (place, &column) in code.columns.iter_mut().zip(columns) {
            *place = column;
        }
        code.judge()?;
        Ok(code)
    }

    /// Is this a code? Every other question asks this first and refuses with the same.
    ///
    /// ```
    /// use desk::{Refusal, WideRowCode};
    ///
    /// let mut code = WideRowCode::new(&[28, 14, 22, 26, 29, 3, 5, 9, 17, 2, 4, 8, 16], 5, 30)?;
    /// code.columns[8] = 28;
    /// assert_eq!(code.judge(), Err(Refusal::RowSet { reason: 2 }));
    /// code.columns[8] = 25;
    /// assert_eq!(code.judge(), Err(Refusal::RowSet { reason: 4 }));
    /// code.columns[9] = 1;
    /// assert_eq!(code.judge(), Err(Refusal::RowSet { reason: 3 }));
    /// # Ok::<(), Refusal>(())
    /// ```
    pub fn judge(&self) -> Result<(), Refusal> {
        let answer = ffi::wide_rows_judge(self);
        done(answer.number, answer.told, ())
    }

    /// For each row: r times the ones in that row, less all ones of the matrix; 0 for rows at r or above.
    ///
    /// ```
    /// let code = desk::WideRowCode::new(&[28, 26, 25, 22, 21, 19, 30, 29, 17, 18, 20, 24, 16], 5, 16)?;
    /// assert_eq!(code.row_balance()?[..5], [-10, -10, -5, -5, 30]);
    /// # Ok::<(), desk::Refusal>(())
    /// ```
    pub fn row_balance(&self) -> Result<[i32; 16], Refusal> {
        let answer = ffi::wide_rows_row_balance(self);
        done(answer.number, answer.told, answer.rows)
    }

    /// The check bits that go with the data: the only ones with which every row counts an even number of ones.
    ///
    /// ```
    /// use desk::{WideCode, WideRowCode};
    ///
    /// // Figures 1 and 2 of source document 002 write the same check bits.
    /// let one = WideRowCode::new(&[28, 26, 25, 22, 21, 19, 30, 29, 17, 18, 20, 24, 16], 5, 16)?;
    /// let two = WideCode::new(&[28, 26, 25, 22, 21, 19, 14, 13], 5)?;
    /// for data in 0..256 {
    ///     assert_eq!(one.write(data), two.write(data));
    /// }
    /// # Ok::<(), desk::Refusal>(())
    /// ```
    pub fn write(&self, data: u128) -> Result<u16, Refusal> {
        let WideWord { low, high, .. } = data.into();
        let answer = ffi::wide_rows_write(self, low, high);
        done(answer.number, answer.told, answer.check)
    }

    /// What is in the word as read, its syndrome, and the word mended where one flip explains it.
    ///
    /// ```
    /// use desk::{WideRowCode, Verdict, WideWord};
    ///
    /// let code = WideRowCode::new(&[28, 14, 22, 26, 29, 3, 5, 9, 17, 2, 4, 8, 16], 5, 30)?;
    /// let clean = WideWord { check: code.write(0xA5)?, ..0xA5.into() };
    /// let reading = code.read(WideWord { low: 0xA4, ..clean })?;
    /// assert_eq!((reading.verdict, reading.place, reading.syndrome), (Verdict::Data, Some(0), 28));
    /// assert_eq!(reading.word, clean);
    /// assert_eq!(code.read(WideWord { low: 0xA6, ..clean })?.verdict, Verdict::Even);
    /// # Ok::<(), desk::Refusal>(())
    /// ```
    pub fn read(&self, word: WideWord) -> Result<Reading<WideWord>, Refusal> {
        let answer = ffi::wide_rows_read(self, word);
        done(answer.number, answer.told, ())?;
        Ok(reading(answer.verdict, answer.place, answer.syndrome, answer.word))
    }

    /// All sets of at most `limit` places that explain the word: fewer places first, then the lower first place.
    ///
    /// ```
    /// use desk::{Explanation, WideRowCode, WideWord};
    ///
    /// let code = WideRowCode::new(&[28, 14, 22, 26, 29, 3, 5, 9, 17, 2, 4, 8, 16], 5, 30)?;
    /// let clean = WideWord { check: code.write(0xA5)?, ..0xA5.into() };
    /// assert_eq!(code.explain(clean, 2)?, [Explanation::Nothing]);
    /// assert!(code.explain(WideWord { low: 0xA6, ..clean }, 2)?.contains(&Explanation::Two(0, 1)));
    /// # Ok::<(), desk::Refusal>(())
    /// ```
    pub fn explain(&self, word: WideWord, limit: usize) -> Result<Vec<Explanation>, Refusal> {
        let mut list = [0; WIDE_LONGEST_LIST];
        let length = self.explain_into(word, limit, &mut list)?;
        Ok(entries(&list, length))
    }

    /// The same list into a lent buffer, two bytes an entry, 255 where there is no place; answers its length in entries.
    ///
    /// ```
    /// use desk::{WideRowCode, WideWord};
    ///
    /// let code = WideRowCode::new(&[28, 14, 22, 26, 29, 3, 5, 9, 17, 2, 4, 8, 16], 5, 30)?;
    /// let mut list = [7; 3];
    /// assert_eq!(code.explain_into(WideWord::default(), 0, &mut list), Ok(1));
    /// assert_eq!(list, [255, 255, 7]);
    /// # Ok::<(), desk::Refusal>(())
    /// ```
    pub fn explain_into(&self, word: WideWord, limit: usize, list: &mut [u8]) -> Result<usize, Refusal> {
        let answer = ffi::wide_rows_explain(self, word, limit, list);
        done(answer.number, answer.told, answer.length)
    }

    /// Is every error of two or more bits within one card of `b` places flagged? Cards begin again at place n - r.
    ///
    /// ```
    /// use desk::{Refusal, WideRowCode};
    ///
    /// let code = WideRowCode::new(&[28, 26, 25, 22, 21, 19, 30, 29, 17, 18, 20, 24, 16], 5, 16)?;
    /// assert_eq!(code.card_check(2), Ok(()));
    /// assert_eq!(code.card_check(9), Err(Refusal::CardSize));
    /// # Ok::<(), Refusal>(())
    /// ```
    pub fn card_check(&self, b: usize) -> Result<(), Refusal> {
        let ffi::CardCheck { number, told, card, mask } = ffi::wide_rows_cards(self, b);
        Refusal::of(Plain { number, told, card, mask, ..Plain::default() }).map_or(Ok(()), Err)
    }

    /// Passes over a run of the image's records, mends those with one flip, and notes each that is not clean; as
    /// [`WideCode::pass`](crate::WideCode::pass).
    ///
    /// ```
    /// use desk::{WideRowCode, WIDE_ENTRY, WIDE_RECORD};
    ///
    /// let code = WideRowCode::new(&[28, 14, 22, 26, 29, 3, 5, 9, 17, 2, 4, 8, 16], 5, 30)?;
    /// let (mut image, mut journal) = ([0; 2 * WIDE_RECORD], [0; WIDE_ENTRY]);
    /// image[WIDE_RECORD] = 1;
    /// let passed = code.pass(&mut image, 0..2, &mut journal, 0, 7)?;
    /// assert_eq!((passed.tally.clean, passed.tally.data, passed.used), (1, 1, 1));
    /// assert_eq!(image, [0; 2 * WIDE_RECORD]);
    /// // Stamp 7, record 1, verdict 1, place 0, syndrome 28.
    /// assert_eq!(journal[..10], [7, 0, 0, 0, 1, 0, 1, 0, 28, 0]);
    /// # Ok::<(), desk::Refusal>(())
    /// ```
    pub fn pass(
        &self,
        image: &mut [u8],
        run: Range<usize>,
        journal: &mut [u8],
        used: usize,
        stamp: u32,
    ) -> Result<Passed, Refusal> {
        let answer = ffi::wide_rows_pass(self, image, run.start, run.end, journal, used, stamp);
        done(answer.number, answer.told, Passed { used: answer.used, tally: answer.tally })
    }

    /// The same as [`WideRowCode::pass`] by the quick engine: the same answer, image and journal, whatever is asked.
    ///
    /// ```
    /// use desk::{WideRowCode, WIDE_ENTRY, WIDE_RECORD};
    ///
    /// let code = WideRowCode::new(&[28, 14, 22, 26, 29, 3, 5, 9, 17, 2, 4, 8, 16], 5, 30)?;
    /// let mut image = [0; 100 * WIDE_RECORD];
    /// image[WIDE_RECORD] = 1;
    /// let mut quickly = image;
    /// let (mut journal, mut entries) = ([0; WIDE_ENTRY], [0; WIDE_ENTRY]);
    ///
    /// let passed = code.pass(&mut image, 0..100, &mut journal, 0, 7)?;
    /// assert_eq!(code.quick_pass(&mut quickly, 0..100, &mut entries, 0, 7)?, passed);
    /// assert_eq!((quickly, entries), (image, journal));
    /// assert_eq!((passed.tally.clean, passed.tally.data), (99, 1));
    /// # Ok::<(), desk::Refusal>(())
    /// ```
    pub fn quick_pass(
        &self,
        image: &mut [u8],
        run: Range<usize>,
        journal: &mut [u8],
        used: usize,
        stamp: u32,
    ) -> Result<Passed, Refusal> {
        let answer = ffi::wide_rows_quick_pass(self, image, run.start, run.end, journal, used, stamp);
        done(answer.number, answer.told, Passed { used: answer.used, tally: answer.tally })
    }

    /// The code word that a word as read was, where some of its places are known to be bad; as
    /// [`WideCode::recover`](crate::WideCode::recover).
    ///
    /// ```
    /// use desk::{Refusal, WideRowCode, WideWord};
    ///
    /// let code = WideRowCode::new(&[28, 14, 22, 26, 29, 3, 5, 9, 17, 2, 4, 8, 16], 5, 30)?;
    /// let clean = WideWord { check: code.write(0xA5)?, ..0xA5.into() };
    /// let twice = WideWord { low: 0xA6, ..clean };
    /// assert_eq!(code.recover(twice, &[]), Err(Refusal::NoCodeWord));
    /// assert_eq!(code.recover(twice, &[1]), Ok(clean));
    /// # Ok::<(), Refusal>(())
    /// ```
    pub fn recover(&self, word: WideWord, bad: &[usize]) -> Result<WideWord, Refusal> {
        let answer = ffi::wide_rows_recover(self, word, bad);
        done(answer.number, answer.told, answer.word)
    }

    /// The bad places, as the ones of a word: those where two reads agree, after a pattern and then its complement.
    ///
    /// ```
    /// use desk::{WideRowCode, WideWord};
    ///
    /// let code = WideRowCode::new(&[28, 14, 22, 26, 29, 3, 5, 9, 17, 2, 4, 8, 16], 5, 30)?;
    /// // Places 0 and 9 are stuck at 0.
    /// let found = code.find_bad(WideWord { low: 0xFE, high: 0, check: 29 }, WideWord::default())?;
    /// assert_eq!(found, WideWord { low: 1, high: 0, check: 2 });
    /// # Ok::<(), desk::Refusal>(())
    /// ```
    pub fn find_bad(&self, first: WideWord, second: WideWord) -> Result<WideWord, Refusal> {
        let answer = ffi::wide_rows_find_bad(self, first, second);
        done(answer.number, answer.told, answer.word)
    }

    /// The places at which a word has ones, rising: data bit i is place i, check bit j is place n - r + j.
    ///
    /// ```
    /// let code = desk::WideRowCode::new(&[28, 14, 22, 26, 29, 3, 5, 9, 17, 2, 4, 8, 16], 5, 30)?;
    /// assert_eq!(code.places(desk::WideWord { low: 0x81, high: 0, check: 3 }), [0, 7, 8, 9]);
    /// # Ok::<(), desk::Refusal>(())
    /// ```
    pub fn places(&self, word: WideWord) -> Vec<usize> {
        places(word.into(), word.check, self.n.saturating_sub(self.r))
    }
}
