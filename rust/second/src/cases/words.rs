//! Words as read, lists for their explanations, card checks.

use super::{CasesOf, HUGE};
use crate::code::{Code, Coded, Data};
use crate::explain::explain;
use crate::word::check_bits;

/// A word as read, under a code; its data also goes to the question of writing.
#[derive(Clone, Debug)]
pub struct WordCase<C: Coded = Code> {
    pub code: C,
    pub data: C::Data,
    pub check: u16,
}

/// A word to explain, with a limit and a filled buffer.
#[derive(Clone, Debug)]
pub struct ListCase<C: Coded = Code> {
    pub word: WordCase<C>,
    pub limit: usize,
    pub list: Vec<u8>,
}

#[derive(Clone, Debug)]
pub struct CardCase<C = Code> {
    pub code: C,
    pub b: usize,
}

/// The lowest bits set, as many as `count`.
pub fn lowest(count: usize) -> u128 {
    (0..count.min(128)).fold(0, |bits, bit| bits | 1 << bit)
}

/// Flips one place of a word: of its data bits, of which there are k, or of its check bits.
pub fn flip_place(k: usize, (data, check): &mut (u128, u16), place: usize) {
    if place < k {
        *data ^= 1 << place;
    } else {
        *check ^= 1 << (place - k);
    }
}

impl<C: Coded> CasesOf<C> {
    /// A word as read: clean, with some flips, any, or stray.
    pub fn word(&mut self) -> WordCase<C> {
        let code = self.serving_code(16);
        self.word_under(&code)
    }

    /// A word under a sound code.
    pub fn sound_word(&mut self) -> WordCase<C> {
        let code = C::sound(self);
        self.word_under(&code)
    }

    /// Any data bits: a number, or two halves.
    pub fn draw_data(&mut self) -> u128 {
        let low = u128::from(self.random.draw());
        if C::PLACES == 64 {
            low
        } else {
            low | u128::from(self.random.draw()) << 64
        }
    }

    /// A word as read under the given code.
    pub fn word_under(&mut self, code: &C) -> WordCase<C> {
        let (data, check) = self.bits_under(code);
        WordCase { code: *code, data: C::Data::of(data), check }
    }

    /// Its data bits and its check bits.
    pub fn bits_under(&mut self, code: &C) -> (u128, u16) {
        if self.laid_out(code).is_none() {
            return (self.draw_data(), self.random.draw() as u16);
        }
        let mut word = self.clean_bits(code);
        match self.random.below(20) {
            0..=2 => {}
            3..=6 => self.flip(code, &mut word, 1),
            7..=11 => self.flip(code, &mut word, 2),
            12 | 13 => self.flip(code, &mut word, 3),
            14 => self.flip(code, &mut word, 4),
            15 | 16 => word.1 = self.random.draw() as u16 & lowest(code.r()) as u16,
            17 => self.stray(code, &mut word, true, false),
            18 => self.stray(code, &mut word, false, true),
            _ => self.stray(code, &mut word, true, true),
        }
        word
    }

    /// A word that is written, under a sound code.
    pub fn clean_bits(&mut self, code: &C) -> (u128, u16) {
        let accepted = self.laid_out(code).expect("a sound code");
        let data = match self.random.below(10) {
            0 => 0,
            1 => u128::MAX,
            2 => 1 << self.random.below(C::PLACES),
            _ => self.draw_data(),
        };
        let data = data & lowest(code.k());
        let check = check_bits(&accepted, data).expect("no bit is stray");
        (data, check)
    }

    /// Flips `count` different places; a pair now and then at the first two, where paired columns begin.
    fn flip(&mut self, code: &C, word: &mut (u128, u16), count: usize) {
        let (k, n) = (code.k(), code.k() + code.r());
        let mut places: Vec<usize> = (0..n).collect();
        if count != 2 || !self.random.once_in(3) {
            self.random.shuffle(&mut places, count);
        }
        for &place in &places[..count] {
            flip_place(k, word, place);
        }
    }

    /// Sets bits past k or past r where there are such, on a word that has one flip or none.
    fn stray(&mut self, code: &C, word: &mut (u128, u16), in_data: bool, in_check: bool) {
        let (k, r) = (code.k(), code.r());
        if self.random.once_in(2) {
            self.flip(code, word, 1);
        }
        let all = self.random.once_in(4);
        if in_data && k < C::PLACES {
            let bit = k + self.random.below(C::PLACES - k);
            word.0 |= if all { lowest(C::PLACES) & !lowest(k) } else { 1 << bit };
        }
        if in_check && r < 16 {
            let bit = r + self.random.below(16 - r);
            word.1 |= if all { !(lowest(r) as u16) } else { 1 << bit };
        }
    }

    /// A word to explain: limits 0 to 4 and huge ones; buffers exact, short, odd, overlong, and filled.
    pub fn list(&mut self) -> ListCase<C> {
        let code = self.serving_code(4);
        let word = self.word_under(&code);
        let limit = match self.random.below(16) {
            0 => 0,
            1 | 2 => 1,
            3 => 3,
            4 => 4,
            5 => self.random.pick(&HUGE),
            _ => 2,
        };
        let length = explain(&code, word.data, word.check, limit, &mut [0; 160]).length;
        let room = match self.random.below(10) {
            0..=2 => 2 * length,
            3 => 2 * length + 1,
            4 => (2 * length).saturating_sub(1),
            5 => (2 * length).saturating_sub(2),
            6 => self.random.below(2 * length + 1),
            7 => 2 * length + self.random.below(20),
            8 => self.random.below(4),
            _ => C::PLACES + 16 + self.random.below(40),
        };
        ListCase { word, limit, list: self.random.bytes(room) }
    }

    /// A card check: b from 0 to 10 and huge ones.
    pub fn card(&mut self) -> CardCase<C> {
        let code = self.serving_code(2);
        let b = if self.random.once_in(20) { self.random.pick(&HUGE) } else { self.random.below(11) };
        CardCase { code, b }
    }
}
