//! Passes under one code over runs of one image: runs apart, to be gone over in every order, and two that overlap.

use super::images::record_of;
use super::CasesOf;
use crate::code::{Code, Hsiao};
use crate::pass::stamp_of;

/// Runs of one image apart from each other, a journal with so many entries in use and room for the entries of all runs,
/// and a stamp for each pass: the first for the one that comes first, and none goes back.
#[derive(Clone, Debug)]
pub struct OrdersCase<C = Code> {
    pub code: C,
    pub image: Vec<u8>,
    pub journal: Vec<u8>,
    pub used: usize,
    pub runs: Vec<(usize, usize)>,
    pub stamps: Vec<u32>,
}

/// Passes over one image, of which the first and the last have records in common: start, end and stamp each. Those between
/// may be refused.
#[derive(Clone, Debug)]
pub struct OverlapCase<C = Code> {
    pub code: C,
    pub image: Vec<u8>,
    pub journal: Vec<u8>,
    pub used: usize,
    pub passes: Vec<(usize, usize, u32)>,
}

impl<C: Hsiao> CasesOf<C> {
    /// Two to five runs apart; now and then one is empty, and may then lie within another.
    pub fn orders(&mut self) -> OrdersCase<C> {
        let code = self.sound_code();
        let image = self.records_under(&code);
        let records = image.len() / C::RECORD;
        let mut cuts: Vec<usize> =
            (0..2 * (2 + self.random.below(4))).map(|_| self.random.below(records + 1)).collect();
        cuts.sort_unstable();
        let mut runs: Vec<(usize, usize)> = cuts.chunks(2).map(|ends| (ends[0], ends[1])).collect();
        if self.random.once_in(4) {
            let anywhere = self.random.below(records + 1);
            runs[0] = (anywhere, anywhere);
        }
        let needed = runs.iter().map(|&(start, end)| Self::needed(&code, &image, start, end)).sum();
        let (journal, used) = self.journal_for(needed);
        let stamps = self.stamps_after(&journal, used, runs.len());
        OrdersCase { code, image, journal, used, runs, stamps }
    }

    /// Two runs that overlap, and up to three passes between them.
    pub fn overlap(&mut self) -> OverlapCase<C> {
        let code = self.sound_code();
        let image = self.records_under(&code);
        let records = image.len() / C::RECORD;
        let shared = self.random.below(records);
        let mut around = || (self.random.below(shared + 1), shared + 1 + self.random.below(records - shared));
        let (first, last) = (around(), around());
        let between = self.random.below(4);
        let runs: Vec<(usize, usize)> =
            [first].into_iter().chain((0..between).map(|_| self.run(records))).chain([last]).collect();
        let needed = runs.len() * Self::needed(&code, &image, 0, records);
        let (journal, used) = self.journal_for(needed);
        let stamps = self.stamps_after(&journal, used, runs.len());
        let passes = runs.into_iter().zip(stamps).map(|((start, end), stamp)| (start, end, stamp)).collect();
        OverlapCase { code, image, journal, used, passes }
    }

    /// One to thirty records of words of every kind.
    fn records_under(&mut self, code: &C) -> Vec<u8> {
        let words = (0..=self.random.below(30)).map(|_| self.word_under(code)).collect::<Vec<_>>();
        words.iter().flat_map(record_of).collect()
    }

    /// A journal with some entries in use and room for so many more, exactly or and some.
    fn journal_for(&mut self, needed: usize) -> (Vec<u8>, usize) {
        let used = self.used_before();
        let more = self.random.pick(&[0, 0, 1, C::ENTRY - 1, C::ENTRY, 100]);
        (self.filled_journal(C::ENTRY * (used + needed) + more, used), used)
    }

    /// So many stamps that do not go back, the first not below the last used entry's.
    fn stamps_after(&mut self, journal: &[u8], used: usize, count: usize) -> Vec<u32> {
        let last = journal[..C::ENTRY * used].chunks_exact(C::ENTRY).last();
        let mut stamp = last.map_or(0, stamp_of);
        let mut next = || {
            stamp = stamp.saturating_add(self.random.pick(&[0, 0, 1, 255, 1 << 16]));
            stamp
        };
        (0..count).map(|_| next()).collect()
    }
}
