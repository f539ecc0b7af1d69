//! The questions.

use crate::refusal::Plain;
use crate::{ffi, Code, Explanation, Passed, Reading, Refusal, Verdict, Word, LONGEST_LIST, NO_PLACE};
use std::ops::Range;

/// The answer where the number is 0, else the refusal that these numbers are.
pub(crate) fn done<T>(number: usize, told: usize, answer: T) -> Result<T, Refusal> {
    Refusal::of(Plain { number, told, ..Plain::default() }).map_or(Ok(answer), Err)
}

/// A reading by its plain numbers.
pub(crate) fn reading<W>(verdict: usize, place: usize, syndrome: u16, word: W) -> Reading<W> {
    let verdict = Verdict::of(verdict).expect("a verdict of the table");
    let place = if place == usize::from(NO_PLACE) { None } else { Some(place) };
    Reading { verdict, place, syndrome, word }
}

/// The entries of a list, as many as it has.
pub(crate) fn entries(list: &[u8], length: usize) -> Vec<Explanation> {
    list.chunks_exact(2).take(length).map(|entry| Explanation::of([entry[0], entry[1]])).collect()
}

/// The places at which a word of `k` data bits has ones, rising.
pub(crate) fn places(data: u128, check: u16, k: usize) -> Vec<usize> {
    let data = (0..128).filter(|&i| data >> i & 1 == 1);
    let check = (0..16).filter(|&j| check >> j & 1 == 1);
    data.chain(check.map(|j| k.saturating_add(j))).collect()
}

/// The smallest number of check bits for which a code of `k` data bits exists.
///
/// ```
/// assert_eq!(desk::check_bits_wanted(64), Ok(8));
/// assert_eq!(desk::check_bits_wanted(65), Err(desk::Refusal::DataBits));
/// ```
pub fn check_bits_wanted(k: usize) -> Result<usize, Refusal> {
    let answer = ffi::check_bits(k);
    done(answer.number, 0, answer.bits)
}

impl Code {
    /// The code of these data columns with `r` check bits, judged.
    ///
    /// ```
    /// use desk::{Code, Refusal};
    ///
    /// assert!(Code::new(&[7, 11], 4).is_ok());
    /// assert_eq!(Code::new(&[7, 12], 4), Err(Refusal::EvenColumn { place: 1 }));
    /// assert_eq!(Code::new(&[7; 65], 4), Err(Refusal::DataBits));
    /// ```
    pub fn new(data_columns: &[u16], r: usize) -> Result<Code, Refusal> {
        let mut code = Code { columns: [0; 64], k: data_columns.len(), r };
        for (place, &column) in code.columns.iter_mut().zip(data_columns) {
            *place = column;
        }
        code.judge()?;
        Ok(code)
    }

    /// The code of `k` data bits and `r` check bits that the desk makes: columns of three ones first, then of five and
    /// so on, within a count the smaller number first. No code of the same k and r has fewer ones in all.
    ///
    /// There is one wherever r is at least [`check_bits_wanted`] for k.
    ///
    /// ```
    /// use desk::{Code, Refusal};
    ///
    /// assert_eq!(Code::made(8, 5), Code::new(&[7, 11, 13, 14, 19, 21, 22, 25], 5));
    /// assert_eq!(Code::made(12, 5), Err(Refusal::ColumnRoom));
    /// assert_eq!(Code::made(12, 2), Err(Refusal::CheckBits));
    /// assert_eq!(Code::made(65, 2), Err(Refusal::DataBits));
    /// ```
    pub fn made(k: usize, r: usize) -> Result<Code, Refusal> {
        let answer = ffi::make(k, r);
        done(answer.number, 0, answer.code)
    }

    /// Is this a code? Every other question asks this first and refuses with the same.
    ///
    /// ```
    /// use desk::{Code, Refusal};
    ///
    /// let by_hand = Code { columns: [0; 64], k: 8, r: 2 };
    /// assert_eq!(by_hand.judge(), Err(Refusal::CheckBits));
    /// assert_eq!(by_hand.write(1), Err(Refusal::CheckBits));
    /// ```
    pub fn judge(&self) -> Result<(), Refusal> {
        let answer = ffi::judge(self);
        done(answer.number, answer.told, ())
    }

    /// For each row: r times the ones in that row, less all ones of the matrix; 0 for rows at r or above.
    ///
    /// ```
    /// # fn main() -> Result<(), desk::Refusal> {
    /// let code = desk::Code::new(&[28, 26, 25, 22, 21, 19, 14, 13], 5)?;
    /// assert_eq!(code.row_balance()?, [-4, -4, 1, 1, 6, 0, 0, 0, 0, 0, 0, 0, 0, 0, 0, 0]);
    /// # Ok(())
    /// # }
    /// ```
    pub fn row_balance(&self) -> Result<[i32; 16], Refusal> {
        let answer = ffi::row_balance(self);
        done(answer.number, answer.told, answer.rows)
    }

    /// The check bits that go with the data.
    ///
    /// ```
    /// # fn main() -> Result<(), desk::Refusal> {
    /// let code = desk::Code::new(&[28, 26, 25, 22, 21, 19, 14, 13], 5)?;
    /// assert_eq!(code.write(0xFF), Ok(12));
    /// assert_eq!(code.write(0x100), Err(desk::Refusal::StrayBits));
    /// # Ok(())
    /// # }
    /// ```
    pub fn write(&self, data: u64) -> Result<u16, Refusal> {
        let answer = ffi::write(self, data);
        done(answer.number, answer.told, answer.check)
    }

    /// What is in the word as read, its syndrome, and the word mended where one flip explains it.
    ///
    /// ```
    /// use desk::{Code, Verdict, Word};
    ///
    /// # fn main() -> Result<(), desk::Refusal> {
    /// let code = Code::new(&[28, 26, 25, 22, 21, 19, 14, 13], 5)?;
    /// let reading = code.read(Word { data: 0xA5, check: 26 })?;
    /// assert_eq!((reading.verdict, reading.place), (Verdict::Check, Some(8)));
    /// assert_eq!(reading.word, Word { data: 0xA5, check: 27 });
    ///
    /// // The syndrome of one flip is the column of its place: row 0 for check bit 0, the data column for a data bit.
    /// assert_eq!(reading.syndrome, 1);
    /// assert_eq!(code.read(Word { data: 0xA4, check: 27 })?.syndrome, code.columns[0]);
    /// // It is what writing the data gives, against the check bits as read.
    /// let twice = code.read(Word { data: 0xA6, check: 27 })?;
    /// assert_eq!((twice.verdict, twice.syndrome), (Verdict::Even, code.write(0xA6)? ^ 27));
    /// # Ok(())
    /// # }
    /// ```
    pub fn read(&self, word: Word) -> Result<Reading, Refusal> {
        let answer = ffi::read(self, word.data, word.check);
        done(answer.number, answer.told, ())?;
        let word = Word { data: answer.data, check: answer.check };
        Ok(reading(answer.verdict, answer.place, answer.syndrome, word))
    }

    /// All sets of at most `limit` places that explain the word: fewer places first, then the lower first place.
    ///
    /// ```
    /// use desk::{Code, Explanation, Refusal, Word};
    ///
    /// # fn main() -> Result<(), Refusal> {
    /// let code = Code::new(&[28, 26, 25, 22, 21, 19, 14, 13], 5)?;
    /// assert_eq!(code.explain(Word { data: 0xA5, check: 27 }, 1)?, [Explanation::Nothing]);
    /// assert_eq!(code.explain(Word { data: 0xA4, check: 27 }, 1)?, [Explanation::One(0)]);
    /// assert_eq!(code.explain(Word { data: 0xA6, check: 27 }, 2)?.len(), 5);
    /// assert_eq!(code.explain(Word { data: 0xA6, check: 27 }, 3), Err(Refusal::FlipLimit));
    /// # Ok(())
    /// # }
    /// ```
    pub fn explain(&self, word: Word, limit: usize) -> Result<Vec<Explanation>, Refusal> {
        let mut list = [0; LONGEST_LIST];
        let length = self.explain_into(word, limit, &mut list)?;
        Ok(entries(&list, length))
    }

    /// The same list into a lent buffer, two bytes an entry, 255 where there is no place; answers its length in entries.
    ///
    /// Bytes past the list stay, and a refusal writes nothing.
    ///
    /// ```
    /// use desk::{Code, Refusal, Word};
    ///
    /// # fn main() -> Result<(), Refusal> {
    /// let code = Code::new(&[28, 26, 25, 22, 21, 19, 14, 13], 5)?;
    /// let word = Word { data: 0xA6, check: 27 };
    /// let mut list = [0; 10];
    /// assert_eq!(code.explain_into(word, 2, &mut list), Ok(5));
    /// assert_eq!(list, [0, 1, 3, 12, 4, 5, 6, 11, 9, 10]);
    /// assert_eq!(code.explain_into(word, 2, &mut list[..8]), Err(Refusal::ListRoom { length: 5 }));
    /// # Ok(())
    /// # }
    /// ```
    pub fn explain_into(&self, word: Word, limit: usize, list: &mut [u8]) -> Result<usize, Refusal> {
        let answer = ffi::explain(self, word.data, word.check, limit, list);
        done(answer.number, answer.told, answer.length)
    }

    /// Is every error of two or more bits within one card of `b` places flagged?
    ///
    /// Cards take `b` places each from place 0 on, and begin again at place k, the first check place: no card has data
    /// and check bits, and the last card of either part may be short. Numbers run on, so the first check card has the
    /// number k / b, rounded up.
    ///
    /// If not, the first weak card is told, and the smallest mask on it that breaks the rule; bit t is the card's place t.
    ///
    /// ```
    /// use desk::{Code, Refusal};
    ///
    /// # fn main() -> Result<(), Refusal> {
    /// let code = Code::new(&[28, 26, 25, 22, 21, 19, 14, 13], 5)?;
    /// assert_eq!(code.card_check(2), Ok(()));
    /// assert_eq!(code.card_check(3), Err(Refusal::WeakCard { card: 1, mask: 7 }));
    ///
    /// // One short data card, then the check cards: rows 0, 1 and 2 make column 7.
    /// let two = Code::new(&[7, 11], 4)?;
    /// assert_eq!(two.card_check(3), Err(Refusal::WeakCard { card: 1, mask: 7 }));
    /// # Ok(())
    /// # }
    /// ```
    pub fn card_check(&self, b: usize) -> Result<(), Refusal> {
        let ffi::CardCheck { number, told, card, mask } = ffi::cards(self, b);
        Refusal::of(Plain { number, told, card, mask, ..Plain::default() }).map_or(Ok(()), Err)
    }

    /// Passes over a run of the image's records, mends those with one flip, and notes each that is not clean.
    ///
    /// A record has [`RECORD`](crate::RECORD) bytes, an entry of the journal [`ENTRY`](crate::ENTRY). The journal has
    /// `used` entries in use, which stay; the new ones stand right behind them, each with the pass's `stamp` and with the
    /// syndrome that reading the record gives, 0 where it is stray. Bytes outside the run and past the entries stay, and a
    /// refusal writes nothing.
    ///
    /// ```
    /// use desk::{Code, Refusal, ENTRY};
    ///
    /// # fn main() -> Result<(), Refusal> {
    /// let code = Code::new(&[28, 26, 25, 22, 21, 19, 14, 13], 5)?;
    /// let mut image = [0xA4, 0, 0, 0, 0, 0, 0, 0, 27, 0, 0xA6, 0, 0, 0, 0, 0, 0, 0, 27, 0];
    ///
    /// // A pass with no journal tells how many entries it needs.
    /// let refusal = code.pass(&mut image, 0..2, &mut [], 0, 7).unwrap_err();
    /// assert_eq!(refusal, Refusal::JournalRoom { needed: 2 });
    ///
    /// let mut journal = vec![0; refusal.told() * ENTRY];
    /// let passed = code.pass(&mut image, 0..2, &mut journal, 0, 7)?;
    /// assert_eq!((passed.tally.data, passed.tally.even, passed.used), (1, 1, 2));
    /// assert_eq!(image[0], 0xA5);
    /// // The second entry: stamp 7, record 1, verdict 3, no place, syndrome 6, and the record as read.
    /// assert_eq!(journal[ENTRY..ENTRY + 11], [7, 0, 0, 0, 1, 0, 3, 255, 6, 0, 0xA6]);
    /// # Ok(())
    /// # }
    /// ```
    ///
    /// Passes follow one another in one journal by the count in use alone: each is told what the one before handed back.
    ///
    /// ```
    /// use desk::{Code, Refusal, ENTRY};
    ///
    /// # fn main() -> Result<(), Refusal> {
    /// let code = Code::new(&[28, 26, 25, 22, 21, 19, 14, 13], 5)?;
    /// let mut image = [0xA4, 0, 0, 0, 0, 0, 0, 0, 27, 0, 0xA6, 0, 0, 0, 0, 0, 0, 0, 27, 0];
    /// let mut journal = [0; 3 * ENTRY];
    ///
    /// let first = code.pass(&mut image, 0..1, &mut journal, 0, 1_000)?;
    /// assert_eq!((first.used, first.tally.data), (1, 1));
    /// let second = code.pass(&mut image, 1..2, &mut journal, first.used, 1_060)?;
    /// assert_eq!((second.used, second.tally.even), (2, 1));
    ///
    /// // Each entry has the stamp of its pass, low byte first; the third has not been written.
    /// let stamps = journal.chunks(ENTRY).map(|entry| u32::from_le_bytes(entry[..4].try_into().unwrap()));
    /// assert_eq!(stamps.collect::<Vec<_>>(), [1_000, 1_060, 0]);
    ///
    /// // A stamp may be the last one's, and not below it.
    /// assert_eq!(code.pass(&mut image, 0..1, &mut journal, second.used, 1_059), Err(Refusal::Stamp));
    /// let third = code.pass(&mut image, 0..1, &mut journal, second.used, 1_060)?;
    /// assert_eq!((third.used, third.tally.clean), (2, 1));
    ///
    /// // No more entries are in use than there is room for.
    /// assert_eq!(code.pass(&mut image, 0..1, &mut journal, 4, 1_060), Err(Refusal::CountInUse));
    /// # Ok(())
    /// # }
    /// ```
    pub fn pass(
        &self,
        image: &mut [u8],
        run: Range<usize>,
        journal: &mut [u8],
        used: usize,
        stamp: u32,
    ) -> Result<Passed, Refusal> {
        let answer = ffi::pass(self, image, run.start, run.end, journal, used, stamp);
        done(answer.number, answer.told, Passed { used: answer.used, tally: answer.tally })
    }

    /// The same as [`Code::pass`] by the quick engine: the same answer, image and journal, whatever is asked.
    ///
    /// ```
    /// use desk::{Code, Refusal, ENTRY};
    ///
    /// # fn main() -> Result<(), Refusal> {
    /// let code = Code::new(&[28, 26, 25, 22, 21, 19, 14, 13], 5)?;
    /// let mut image = [0xA4, 0, 0, 0, 0, 0, 0, 0, 27, 0].repeat(100);
    /// let mut quickly = image.clone();
    /// let (mut journal, mut entries) = ([0; 100 * ENTRY], [0; 100 * ENTRY]);
    ///
    /// let passed = code.pass(&mut image, 0..100, &mut journal, 0, 7)?;
    /// assert_eq!(code.quick_pass(&mut quickly, 0..100, &mut entries, 0, 7)?, passed);
    /// assert_eq!((quickly, entries), (image, journal));
    /// assert_eq!(passed.tally.data, 100);
    /// # Ok(())
    /// # }
    /// ```
    pub fn quick_pass(
        &self,
        image: &mut [u8],
        run: Range<usize>,
        journal: &mut [u8],
        used: usize,
        stamp: u32,
    ) -> Result<Passed, Refusal> {
        let answer = ffi::quick_pass(self, image, run.start, run.end, journal, used, stamp);
        done(answer.number, answer.told, Passed { used: answer.used, tally: answer.tally })
    }
}
