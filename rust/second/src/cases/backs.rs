//! Images and journals to put back with, sound and damaged in every way, and histories of passes.

use super::images::record_of;
use super::{CasesOf, TurnsCase, HUGE};
use crate::code::Hsiao;
use crate::pass::{pass, Pass};

/// Where an entry has its record number and its bytes as read; those as left are behind them.
const NUMBER: usize = 4;
const READ: usize = 10;

/// An image, a journal, and how many of its entries are in use.
#[derive(Clone, Debug)]
pub struct BackCase {
    pub image: Vec<u8>,
    pub journal: Vec<u8>,
    pub used: usize,
}

impl BackCase {
    /// The entry at `at`, of so many bytes.
    fn entry(&mut self, size: usize, at: usize) -> &mut [u8] {
        &mut self.journal[size * at..size * (at + 1)]
    }
}

impl<C: Hsiao> CasesOf<C> {
    /// What passes or single steps have left, with room behind the entries in use; then mostly something is damaged.
    pub fn back(&mut self) -> BackCase {
        let mut case = if self.random.once_in(4) { self.left_by_passes() } else { self.left_by_steps() };
        self.add_room(&mut case);
        for _ in 0..self.random.pick(&[0, 1, 1, 1, 1, 2]) {
            match self.random.below(8) {
                0..=3 => self.damage_entry(&mut case),
                4 | 5 => self.damage_count(&mut case),
                _ => self.damage_image(&mut case),
            }
        }
        case
    }

    /// Image and journal after a history.
    fn left_by_passes(&mut self) -> BackCase {
        let TurnsCase { mut image, mut journal, turns } = self.history();
        let mut used = 0;
        for (code, start, end, stamp) in turns {
            let answer = pass(&code, &mut image, &mut journal, &Pass { start, end, used, stamp });
            used = if answer.number == 0 { answer.used } else { used };
        }
        BackCase { image, journal, used }
    }

    /// Image and journal after any changes of any records, one after the other; the heads of entries are anything.
    fn left_by_steps(&mut self) -> BackCase {
        let records = match self.random.below(100) {
            0 => C::IMAGE / C::RECORD,
            1..=4 => 0,
            5..=14 => 1,
            15..=19 => 250 + self.random.below(100),
            _ => 2 + self.random.below(12),
        };
        let all_alike = self.random.once_in(4);
        let mut image = if all_alike { vec![0; C::RECORD * records] } else { self.random.bytes(C::RECORD * records) };
        let mut journal = Vec::new();
        let steps = if records == 0 { 0 } else { self.random.below(16) };
        for _ in 0..steps {
            let any = self.random.below(records);
            let record = self.random.pick(&[0, records - 1, any, any]);
            let read = image[C::RECORD * record..][..C::RECORD].to_vec();
            let left = self.changed_record(&read, &image);
            image[C::RECORD * record..][..C::RECORD].copy_from_slice(&left);
            let mut head = self.random.bytes(READ);
            head[NUMBER..NUMBER + 2].copy_from_slice(&(record as u16).to_le_bytes());
            journal.extend([head, read, left].concat());
        }
        BackCase { image, journal, used: steps }
    }

    /// What a step makes of a record: the same, with a bit turned, another record's bytes, any.
    fn changed_record(&mut self, read: &[u8], image: &[u8]) -> Vec<u8> {
        let mut left = read.to_vec();
        match self.random.below(4) {
            0 => {}
            1 => self.turn_bit(&mut left),
            2 => left.copy_from_slice(&image[C::RECORD * self.random.below(image.len() / C::RECORD)..][..C::RECORD]),
            _ => left = self.random.bytes(C::RECORD),
        }
        left
    }

    fn turn_bit(&mut self, bytes: &mut [u8]) {
        if !bytes.is_empty() {
            let at = self.random.below(bytes.len());
            bytes[at] ^= 1 << self.random.below(8);
        }
    }

    /// Entries past those in use (any bytes, the last one again, or one that would match), and a tail that is no entry.
    fn add_room(&mut self, case: &mut BackCase) {
        for _ in 0..self.random.below(3) {
            let mut entry = self.random.bytes(C::ENTRY);
            if self.random.once_in(2) && case.image.len() >= C::RECORD {
                entry[NUMBER..NUMBER + 2].fill(0);
                entry[READ + C::RECORD..].copy_from_slice(&case.image[..C::RECORD]);
            } else if self.random.once_in(2) && case.used > 0 {
                entry.copy_from_slice(case.entry(C::ENTRY, case.used - 1));
            }
            let end = C::ENTRY * case.used;
            case.journal.splice(end..end, entry);
        }
        if self.random.once_in(2) {
            let tail = 1 + self.random.below(C::ENTRY - 1);
            case.journal.extend(self.random.bytes(tail));
        }
    }

    /// One entry in use: its number (inside the image or outside), a bit as left, a bit as read, what is not judged, its
    /// place in the journal.
    fn damage_entry(&mut self, case: &mut BackCase) {
        let used = case.used.min(case.journal.len() / C::ENTRY);
        if used == 0 {
            return;
        }
        let any = self.random.below(used);
        let at = self.random.pick(&[0, used - 1, any, any]);
        let records = case.image.len() / C::RECORD;
        let entry = case.entry(C::ENTRY, at);
        let number = u16::from_le_bytes([entry[NUMBER], entry[NUMBER + 1]]);
        let another = match self.random.below(8) {
            0..=2 => self.random.below(records + 1),
            3 => records,
            4 => records + 1,
            5 => number.swap_bytes().into(),
            6 => usize::from(number ^ 1 << 8),
            _ => 65_535,
        };
        match self.random.below(12) {
            0..=3 => entry[NUMBER..NUMBER + 2].copy_from_slice(&(another as u16).to_le_bytes()),
            4 | 5 => self.turn_bit(&mut entry[READ + C::RECORD..]),
            6 | 7 => self.turn_bit(&mut entry[READ..READ + C::RECORD]),
            8 => self.turn_bit(&mut entry[..NUMBER]),
            9 => self.turn_bit(&mut entry[NUMBER + 2..READ]),
            10 => entry[READ..].rotate_left(C::RECORD),
            _ if at > 0 => case.journal[C::ENTRY * (at - 1)..C::ENTRY * (at + 1)].rotate_left(C::ENTRY),
            _ => {}
        }
    }

    /// The count in use, or the journal's room for it: one too many or too few, any, none, more than the room.
    fn damage_count(&mut self, case: &mut BackCase) {
        let room = case.journal.len() / C::ENTRY;
        case.used = match self.random.below(10) {
            0..=2 => case.used.saturating_add(1),
            3 | 4 => case.used.saturating_sub(1),
            5 => room,
            6 => room + 1,
            7 => self.random.pick(&HUGE),
            8 => self.random.below(room + 1),
            _ => {
                case.journal.truncate((C::ENTRY * case.used.min(room)).saturating_sub(1));
                case.used
            }
        }
    }

    /// The image: a bit, some records fewer, a byte more or fewer, over the limit, none.
    fn damage_image(&mut self, case: &mut BackCase) {
        let length = case.image.len();
        let fewer = C::RECORD * (1 + self.random.below(length / C::RECORD + 1));
        match self.random.below(10) {
            0..=2 => self.turn_bit(&mut case.image),
            3 | 4 => case.image.truncate(length.saturating_sub(fewer)),
            5 => case.image.truncate(length.saturating_sub(1)),
            6 => case.image.resize(length + 1, 0),
            7 => case.image.resize(length + 1 + self.random.below(C::RECORD), 0),
            8 => case.image.resize(
                self.random.pick(&[C::IMAGE, C::IMAGE + 1, C::IMAGE + 6, C::IMAGE + C::RECORD, 2 * C::IMAGE]),
                0,
            ),
            _ => case.image.clear(),
        }
    }

    /// Up to ten passes in a new journal: under one code or several, over runs that overlap, refused ones among them.
    pub fn history(&mut self) -> TurnsCase<C> {
        let codes = self.related_codes();
        let records = self.random.below(16);
        let mut image = Vec::new();
        for _ in 0..records {
            let code = self.random.pick(&codes);
            let word = self.word_under(&code);
            image.extend(record_of(&word));
        }
        let passes = self.random.below(11);
        let ample = C::ENTRY * records * passes;
        let length =
            if self.random.once_in(4) { self.random.below(ample + 1) } else { ample + self.random.below(C::ENTRY) };
        let journal = self.random.bytes(length);
        let stamps_fall = self.random.once_in(3);
        let mut stamp = self.random.below(300) as u32;
        let turns = (0..passes).map(|_| {
            let code = if self.random.once_in(12) { self.damaged_code() } else { self.random.pick(&codes) };
            let (start, end) = self.run(records);
            let later = stamp.saturating_add(self.random.pick(&[0, 0, 1, 60, 1 << 24]));
            stamp = if stamps_fall { self.next_stamp(stamp) } else { later };
            (code, start, end, stamp)
        });
        TurnsCase { turns: turns.collect(), image, journal }
    }

    /// One to three codes, mostly of one shape, so that what one has mended another finds damaged.
    fn related_codes(&mut self) -> Vec<C> {
        let first = self.sound_code();
        let mut codes = vec![first];
        for _ in 0..self.random.below(3) {
            let alike = C::with(&self.sound_columns(first.k(), first.r()), first.k(), first.r());
            codes.push(if self.random.once_in(4) { self.sound_code() } else { alike });
        }
        codes
    }
}
