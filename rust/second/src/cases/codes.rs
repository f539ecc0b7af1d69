//! Codes: sound ones of every shape, and damaged ones.

use super::{CasesOf, HUGE};
use crate::code::{Coded, Hsiao};

/// Shapes that are asked more often: the fullest of each r, the sample's, the largest, the smallest.
const FAVOURED: [(usize, usize); 10] =
    [(1, 3), (4, 4), (11, 5), (8, 5), (26, 6), (57, 7), (64, 8), (64, 16), (63, 16), (1, 16)];

/// The same in the wide edition: past 64 data bits, and about 64 too.
const WIDE_FAVOURED: [(usize, usize); 10] =
    [(63, 8), (64, 8), (65, 8), (120, 8), (121, 9), (127, 9), (128, 9), (128, 16), (65, 16), (11, 5)];

/// The columns below 2^r with an odd count of ones, three at least.
pub fn allowed_columns(r: usize) -> Vec<u16> {
    let all = (0..1u32 << r).filter(|column| column.count_ones() % 2 == 1 && column.count_ones() > 1);
    all.map(|column| column as u16).collect()
}

/// Every (k, r) for which a code exists.
pub fn shapes(columns: &[Vec<u16>], most: usize) -> Vec<(usize, usize)> {
    (3..=16).flat_map(|r| (1..=columns[r].len().min(most)).map(move |k| (k, r))).collect()
}

/// Every k and r that a code of an edition is asked to be made for: all within the limits, and many out of them.
pub fn asked_shapes_in<C: Coded>() -> impl Iterator<Item = (usize, usize)> {
    (0..=C::PLACES + 6).chain(HUGE).flat_map(|k| (0..=20).chain(HUGE).map(move |r| (k, r)))
}

impl<C: Hsiao> CasesOf<C> {
    /// A sound code: each shape in turn, with favoured ones between.
    pub fn sound_code(&mut self) -> C {
        let (k, r) = if self.made % 3 == 2 {
            self.random.pick(if C::PLACES == 64 { &FAVOURED } else { &WIDE_FAVOURED })
        } else {
            self.shapes[(self.made - self.made / 3) % self.shapes.len()]
        };
        self.made += 1;
        let columns = self.sound_columns(k, r);
        C::with(&columns, k, r)
    }

    /// k different allowed columns in one of five styles.
    pub(super) fn sound_columns(&mut self, k: usize, r: usize) -> Vec<u16> {
        let mut columns = match self.random.below(8) {
            0 => self.light[r][..k].to_vec(),
            1 => self.columns[r][..k].to_vec(),
            2 => self.columns[r].iter().rev().copied().take(k).collect(),
            3 => return self.paired_columns(k, r),
            _ => self.columns[r].clone(),
        };
        if columns.len() > k || self.random.once_in(2) {
            self.random.shuffle(&mut columns, k);
        }
        columns.truncate(k);
        columns
    }

    /// Columns of which as many as can be, check columns too, go in pairs with one common difference: long lists.
    fn paired_columns(&mut self, k: usize, r: usize) -> Vec<u16> {
        let mut drawn = self.columns[r].clone();
        let enough = drawn.len().min(300);
        self.random.shuffle(&mut drawn, enough);
        let is_allowed = |column: u16| column.count_ones() > 1;
        let difference = drawn[0] ^ 1 << self.random.below(r);
        let mut paired: Vec<u16> = Vec::new();
        for &column in &drawn {
            let partner = column ^ difference;
            if paired.len() + 2 <= k && is_allowed(partner) && !paired.contains(&column) {
                paired.extend([column, partner]);
            }
            if paired.len() == 2 {
                let of_checks = (0..r).map(|row| difference ^ 1 << row).filter(|&column| is_allowed(column));
                let fresh: Vec<u16> = of_checks.filter(|column| !paired.contains(column)).collect();
                paired.extend(fresh.into_iter().take(k - 2));
            }
        }
        let others = drawn.into_iter().filter(|column| !paired.contains(column));
        let others: Vec<u16> = others.take(k - paired.len()).collect();
        [paired, others].concat()
    }

    /// Leaves something in one place past k, in the first or the last of them, or in many.
    fn leave_past_k(&mut self, code: &mut C) {
        let past = code.k().min(C::PLACES)..C::PLACES;
        if past.is_empty() {
            return;
        }
        let anywhere = past.start + self.random.below(past.len());
        let from = self.random.pick(&[past.start, C::PLACES - 1, anywhere, anywhere]);
        let first = code.columns()[0];
        let left = match self.random.below(4) {
            0 => self.random.draw() as u16,
            1 => first,
            2 => 1 << self.random.below(16),
            _ => u16::MAX,
        };
        code.columns_mut()[from] = left;
        if self.random.once_in(3) {
            code.columns_mut()[from..].fill(left);
        }
    }

    /// A sound code with one or two things done to it; now and then that leaves it sound.
    pub fn damaged_code(&mut self) -> C {
        let mut code = self.sound_code();
        if self.random.once_in(20) {
            return self.any_code();
        }
        for _ in 0..=self.random.below(2) {
            match self.random.below(10) {
                0 => code = C::with(code.columns(), self.bad_k(), code.r()),
                1 => code = C::with(code.columns(), code.k(), self.bad_r()),
                2 | 3 => self.leave_past_k(&mut code),
                _ => self.damage_column(&mut code),
            }
        }
        code
    }

    fn bad_k(&mut self) -> usize {
        if self.random.once_in(2) {
            self.random.pick(&[0, C::PLACES + 1, C::PLACES + 2, 2 * C::PLACES - 1, 2 * C::PLACES])
        } else {
            self.random.pick(&HUGE)
        }
    }

    fn bad_r(&mut self) -> usize {
        if self.random.once_in(2) {
            self.random.pick(&[0, 1, 2, 17, 18, 32, 64])
        } else {
            self.random.pick(&HUGE)
        }
    }

    /// Spoils one column among the first k.
    fn damage_column(&mut self, code: &mut C) {
        let k = code.k().clamp(1, C::PLACES);
        let r = code.r().clamp(3, 16);
        let anywhere = self.random.below(k);
        let place = self.random.pick(&[0, k - 1, anywhere, anywhere, anywhere]);
        let low = 1u16 << self.random.below(r);
        let columns = code.columns_mut();
        columns[place] = match self.random.below(8) {
            0 => columns[place] ^ low,
            1 => 0,
            2 => 1 << self.random.below(16),
            3 => low,
            4 => columns[self.random.below(k)],
            5 => columns[place] | (1u32 << r) as u16,
            6 => columns[place] | 1 << self.random.below(16),
            _ => self.random.draw() as u16,
        };
    }

    /// Any columns, any k and r near the allowed ones.
    fn any_code(&mut self) -> C {
        let k = self.random.below(C::PLACES + 6);
        let r = self.random.below(20);
        let mut code = C::with(&[], k, r);
        for column in code.columns_mut() {
            *column = (self.random.draw() >> self.random.below(16)) as u16;
        }
        code
    }
}
