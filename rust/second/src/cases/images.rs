//! Images with runs and journals of every shape, and inputs of the program.

use super::{Cases, CasesOf, WordCase, HUGE};
use crate::code::{Code, Coded, WideCode};
use crate::pass::{pass, stamp_of, Pass};
use crate::program::sample_code;

/// An image under a code, a filled journal, and what a pass is told.
#[derive(Clone, Debug)]
pub struct ImageCase<C = Code> {
    pub code: C,
    pub image: Vec<u8>,
    pub journal: Vec<u8>,
    pub asked: Pass,
}

/// An image and a journal of which no entry is in use, and passes that follow one another: code, start, end and stamp each.
/// The count in use is the one that the desk handed back last.
#[derive(Clone, Debug)]
pub struct TurnsCase<C = Code> {
    pub image: Vec<u8>,
    pub journal: Vec<u8>,
    pub turns: Vec<(C, usize, usize, u32)>,
}

/// The record of a word.
pub(super) fn record_of<C: Coded>(word: &WordCase<C>) -> Vec<u8> {
    let data: u128 = word.data.into();
    [&data.to_le_bytes()[..C::RECORD - 2], &word.check.to_le_bytes()].concat()
}

impl Cases {
    /// What the program may be given: an image of the sample code, of any length.
    pub fn program_input(&mut self) -> Vec<u8> {
        self.image_under(&sample_code())
    }
}

impl<C: Coded> CasesOf<C> {
    pub fn image(&mut self) -> ImageCase<C> {
        let code = self.serving_code(2);
        let image = self.image_under(&code);
        self.image_case(code, image)
    }

    /// An image of the other edition's length, or a journal of its entries, or both.
    pub fn across(&mut self) -> ImageCase<C> {
        let (record, entry) =
            if C::RECORD == Code::RECORD { (WideCode::RECORD, WideCode::ENTRY) } else { (Code::RECORD, Code::ENTRY) };
        let code = self.serving_code(2);
        let mut image = self.image_under(&code);
        if self.random.once_in(2) {
            image.resize(record * self.random.below(40), 0x5A);
        }
        let mut case = self.image_case(code, image);
        if self.random.once_in(2) {
            let entries = self.random.below(2 + case.image.len() / C::RECORD);
            case.journal.resize(entry * entries, 0xA5);
        }
        case
    }

    fn image_case(&mut self, code: C, image: Vec<u8>) -> ImageCase<C> {
        let (start, end) = self.run(image.len() / C::RECORD);
        let meant = self.used_before();
        let length = self.journal_length(meant + Self::needed(&code, &image, start, end));
        let used = self.told_used(meant, length / C::ENTRY);
        let journal = self.filled_journal(length, used);
        let stamp = self.stamp_after(&journal[..C::ENTRY * used.min(length / C::ENTRY)]);
        ImageCase { code, image, journal, asked: Pass { start, end, used, stamp } }
    }

    /// Records of words of every kind; now and then a length that is refused, or the longest image.
    fn image_under(&mut self, code: &C) -> Vec<u8> {
        let records = match self.random.below(100) {
            0 => C::IMAGE / C::RECORD,
            1 => C::IMAGE / C::RECORD + 1,
            2..=9 => 0,
            10..=19 => 1,
            20..=29 => 2,
            30..=34 => 200 + self.random.below(200),
            _ => 3 + self.random.below(40),
        };
        let all_alike = self.random.once_in(10);
        let mut image = Vec::with_capacity(C::RECORD * records + C::RECORD);
        for record in 0..records {
            if all_alike && record > 0 {
                image.extend_from_within(..C::RECORD);
                continue;
            }
            let word = self.word_under(code);
            image.extend(record_of(&word));
        }
        if self.random.once_in(if image.len() == C::IMAGE { 3 } else { 16 }) {
            let odd_bytes = 1 + self.random.below(C::RECORD - 1);
            image.extend(self.random.bytes(odd_bytes));
        }
        image
    }

    /// A run over so many records: whole, a part, with equal ends, backwards, or beyond.
    pub(super) fn run(&mut self, records: usize) -> (usize, usize) {
        let one = self.random.below(records + 1);
        let other = self.random.below(records + 1);
        let far = self.random.pick(&HUGE);
        match self.random.below(20) {
            0..=6 => (0, records),
            7..=12 => (one.min(other), one.max(other)),
            13 => (one, one),
            14 => (one.max(other), one.min(other)),
            15 => (one + 1, one),
            16 => (one, records + 1),
            17 => (one, far),
            18 => (far, one),
            _ => (records, records + self.random.below(2)),
        }
    }

    /// How many entries are in use before a pass: often none or few.
    pub(super) fn used_before(&mut self) -> usize {
        match self.random.below(8) {
            0..=2 => 0,
            3 => 1,
            4 => 2,
            _ => self.random.below(20),
        }
    }

    /// A journal's length for so many entries: exact, short, odd, overlong, or none.
    fn journal_length(&mut self, entries: usize) -> usize {
        let exact = C::ENTRY * entries;
        match self.random.below(12) {
            0..=4 => exact,
            5 => exact.saturating_sub(1),
            6 => exact.saturating_sub(C::ENTRY),
            7 => exact + self.random.pick(&[1, 2, C::ENTRY / 2, C::ENTRY - 1]),
            8 => self.random.below(exact + 1),
            9 => self.random.pick(&[0, 0, 1, C::ENTRY - 1]),
            _ => exact + self.random.below(200),
        }
    }

    /// A count in use that is told of a journal with this room: mostly the one that is meant, else an edge or any.
    fn told_used(&mut self, meant: usize, room: usize) -> usize {
        match self.random.below(16) {
            0 => room,
            1 => room + 1,
            2 => room + 1 + self.random.below(5),
            3 => self.random.pick(&HUGE),
            4 => self.random.below(room + 1),
            _ => meant.min(room),
        }
    }

    /// A stamp such that edges are met: 0, the highest, a single byte, any.
    fn any_stamp(&mut self) -> u32 {
        let any = self.random.draw() as u32;
        let byte = 1 << (8 * self.random.below(4));
        self.random.pick(&[0, 1, u32::MAX, byte, byte - 1, any, any, any])
    }

    /// The stamp of the pass after one with this stamp: the same, a later one, now and then any.
    pub(super) fn next_stamp(&mut self, stamp: u32) -> u32 {
        match self.random.below(8) {
            0..=3 => stamp,
            4 => self.any_stamp(),
            _ => stamp.saturating_add(self.random.below(300) as u32),
        }
    }

    /// A stamp against the entries in use: the last one's, next to it, the first one's, its bytes the other way round, any.
    fn stamp_after(&mut self, in_use: &[u8]) -> u32 {
        let any = self.any_stamp();
        let stamp_at = |entry: Option<&[u8]>| entry.map_or(any, stamp_of);
        let last = stamp_at(in_use.chunks_exact(C::ENTRY).last());
        let first = stamp_at(in_use.chunks_exact(C::ENTRY).next());
        match self.random.below(10) {
            0..=2 => last,
            3 => last.wrapping_add(1),
            4 => last.wrapping_sub(1),
            5 => first,
            6 => last.swap_bytes(),
            7 => u32::MAX,
            _ => any,
        }
    }

    /// A journal filled with anything; of the entries in use the first and the last often have a stamp that is an edge.
    pub(super) fn filled_journal(&mut self, length: usize, used: usize) -> Vec<u8> {
        let mut journal = self.random.bytes(length);
        let room = length / C::ENTRY;
        for at in [0, used.saturating_sub(1)] {
            if at < room && self.random.once_in(2) {
                let stamp = self.any_stamp();
                journal[C::ENTRY * at..C::ENTRY * at + 4].copy_from_slice(&stamp.to_le_bytes());
            }
        }
        journal
    }

    /// The entries that a run needs, 0 where the pass is refused anyhow.
    pub(super) fn needed(code: &C, image: &[u8], start: usize, end: usize) -> usize {
        let mut ample = vec![0; image.len() / C::RECORD * C::ENTRY];
        pass(code, &mut image.to_vec(), &mut ample, &Pass { start, end, used: 0, stamp: 0 }).used
    }

    /// Passes that follow one another in one journal, under one code or now and then another.
    pub fn turns(&mut self) -> TurnsCase<C> {
        let code = self.serving_code(2);
        let records = self.random.below(30);
        let words = (0..records).map(|_| self.word_under(&code)).collect::<Vec<_>>();
        let image: Vec<u8> = words.iter().flat_map(record_of).collect();
        let length = self.journal_length(2 * Self::needed(&code, &image, 0, records));
        let journal = self.random.bytes(length);
        let mut stamp = if self.random.once_in(2) { 0 } else { self.any_stamp() };
        let turns = (0..2 + self.random.below(5)).map(|_| {
            let code = if self.random.once_in(8) { self.code() } else { code };
            let (start, end) = self.run(records);
            stamp = self.next_stamp(stamp);
            (code, start, end, stamp)
        });
        TurnsCase { turns: turns.collect(), image, journal }
    }
}
