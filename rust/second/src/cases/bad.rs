//! Words with places that are said to be bad, and pairs of reads for the finder.

use super::words::{flip_place, lowest};
use super::{CasesOf, WordCase, HUGE};
use crate::code::{Code, Coded, Data, Hsiao};

/// The most places of a code that is asked with every set of bad places.
const SMALL: usize = 20;

/// A word as read, and the places that are said to be bad.
#[derive(Clone, Debug)]
pub struct BadCase<C: Coded = Code> {
    pub word: WordCase<C>,
    pub bad: Vec<usize>,
}

/// Two reads of one word of memory.
#[derive(Clone, Debug)]
pub struct FindCase<C: Coded = Code> {
    pub code: C,
    pub first: (C::Data, u16),
    pub second: (C::Data, u16),
}

/// Every set of at most three of n places, rising.
pub fn sets_of_places(n: usize) -> Vec<Vec<usize>> {
    let mut sets = vec![vec![]];
    for p in 0..n {
        sets.push(vec![p]);
        for q in p + 1..n {
            sets.push(vec![p, q]);
            sets.extend((q + 1..n).map(|s| vec![p, q, s]));
        }
    }
    sets
}

/// The case of a word with these data bits and check bits.
fn word_case<C: Coded>(code: &C, (data, check): (u128, u16)) -> WordCase<C> {
    WordCase { code: *code, data: C::Data::of(data), check }
}

impl<C: Hsiao> CasesOf<C> {
    /// For every (k, r) with at most 20 places, every set of up to three bad places in some order: words that differ in bad
    /// places alone, in one place beside them, in two, and any.
    pub fn small_bad(&mut self) -> Vec<BadCase<C>> {
        let shapes: Vec<(usize, usize)> = self.shapes.iter().copied().filter(|(k, r)| k + r <= SMALL).collect();
        let mut cases = Vec::new();
        for (k, r) in shapes {
            let columns = self.sound_columns(k, r);
            let code = C::with(&columns, k, r);
            for mut bad in sets_of_places(k + r) {
                let count = bad.len();
                self.random.shuffle(&mut bad, count);
                let beside = self.random.below(4);
                let mut word = self.disturbed(&code, &bad, beside);
                if beside == 3 {
                    word.1 = self.random.draw() as u16 & lowest(r) as u16;
                }
                cases.push(BadCase { word: word_case(&code, word), bad });
            }
        }
        cases
    }
}

impl<C: Coded> CasesOf<C> {
    /// A clean word under a sound code, with its bad places at random and `beside` flips at other places.
    fn disturbed(&mut self, code: &C, bad: &[usize], beside: usize) -> (u128, u16) {
        let mut word = self.clean_bits(code);
        for &place in bad {
            if self.random.once_in(2) {
                flip_place(code.k(), &mut word, place);
            }
        }
        let mut others: Vec<usize> = (0..code.k() + code.r()).filter(|place| !bad.contains(place)).collect();
        let beside = beside.min(others.len());
        self.random.shuffle(&mut others, beside);
        others[..beside].iter().for_each(|&place| flip_place(code.k(), &mut word, place));
        word
    }

    /// A word with bad places of every kind: few or many, again, at n or above; the word near a code word or not, or stray.
    pub fn bad(&mut self) -> BadCase<C> {
        let code = self.serving_code(8);
        if self.laid_out(&code).is_none() {
            return BadCase { word: self.word_under(&code), bad: self.any_places(4) };
        }
        let n = code.k() + code.r();
        let mut places: Vec<usize> = (0..n).collect();
        let count = self.random.pick(&[0, 1, 1, 2, 2, 3, 3, 3]).min(n);
        self.random.shuffle(&mut places, count);
        let mut bad = places[..count].to_vec();
        let beside = self.random.pick(&[0, 0, 0, 1, 1, 1, 2, 3]);
        let mut word = self.disturbed(&code, &bad, beside);
        if self.random.once_in(8) {
            word = self.bits_under(&code);
        }
        match self.random.below(16) {
            0 => bad.push(n),
            1 => bad.push(n + self.random.below(200)),
            2 => bad.push(self.random.pick(&HUGE)),
            3 if count > 0 => bad.push(bad[0]),
            4 if count > 0 => bad.insert(0, bad[count - 1]),
            5 => bad = places[..n.min(4 + self.random.below(4))].to_vec(),
            6 if count > 0 => bad[0] += self.random.pick(&[1 << 8, 1 << 16, 1 << 32]),
            7 => bad = self.any_places(6),
            _ => {}
        }
        BadCase { word: word_case(&code, word), bad }
    }

    /// Any places near those of a word, up to `most` of them.
    fn any_places(&mut self, most: usize) -> Vec<usize> {
        (0..self.random.below(most + 1)).map(|_| self.random.below(C::PLACES + 26)).collect()
    }

    /// Two reads: of a memory with some places stuck, after a pattern and its complement; any; or with stray bits.
    pub fn find(&mut self) -> FindCase<C> {
        let code = self.serving_code(8);
        let (one, other) = (self.bits_under(&code), self.bits_under(&code));
        let (k, r) = (lowest(code.k()), lowest(code.r().min(16)) as u16);
        let read = |(data, check)| (C::Data::of(data), check);
        if self.laid_out(&code).is_none() || self.random.once_in(4) {
            return FindCase { code, first: read(one), second: read(other) };
        }
        let mut stuck = (0, 0);
        for _ in 0..self.random.below(5) {
            stuck = (stuck.0 | 1 << self.random.below(C::PLACES), stuck.1 | 1 << self.random.below(16));
        }
        let held = (self.draw_data(), self.random.draw() as u16);
        let back = |(data, check): (u128, u16)| {
            ((data & !stuck.0 | held.0 & stuck.0) & k, (check & !stuck.1 | held.1 & stuck.1) & r)
        };
        let pattern = (self.draw_data(), self.random.draw() as u16);
        let (mut first, mut second) = (back(pattern), back((!pattern.0, !pattern.1)));
        match self.random.below(8) {
            0 => first = one,
            1 => second = one,
            _ => {}
        }
        FindCase { code, first: read(first), second: read(second) }
    }
}
