//! Codes with a chosen set of rows: sound ones with either corner empty, and damaged ones.

use super::{CasesOf, HUGE};
use crate::rows::Chosen;

/// Source document 002, figures 1 to 3: columns, top row as bit 0, and the set.
const FIGURES: [([u16; 13], u16); 3] = [
    ([28, 26, 25, 22, 21, 19, 30, 29, 17, 18, 20, 24, 16], 0b10000),
    ([28, 26, 25, 22, 21, 19, 14, 13, 1, 2, 4, 8, 16], 0b11111),
    ([28, 14, 22, 26, 29, 3, 5, 9, 17, 2, 4, 8, 16], 0b11110),
];

impl<C: Chosen> CasesOf<C> {
    /// A sound code: each shape in turn, a figure now and then.
    pub fn sound_rows(&mut self) -> C {
        self.made += 1;
        if self.random.once_in(24) {
            let (columns, rows) = self.random.pick(&FIGURES);
            return C::with(&columns, 13, 5, rows);
        }
        let (k, r) = self.shapes[self.made % self.shapes.len()];
        let lower = self.random.once_in(2);
        let all = ((1u32 << r) - 1) as u16;
        // The last check column has nothing but its diagonal before an empty corner, the first nothing behind one.
        let needed = if lower { 1 << (r - 1) } else { 1 };
        let rows = match self.random.below(5) {
            0 => all,
            1 => needed,
            _ => self.random.draw() as u16 & all | needed,
        };
        let is_odd = |column: u16| (column & rows).count_ones() % 2 == 1;
        let mut columns: Vec<u16> = Vec::new();
        for row in 0..r {
            let beside = if lower { all & !((1u32 << (row + 1)) - 1) as u16 } else { ((1u32 << row) - 1) as u16 };
            let few = self.random.once_in(2);
            let mut column =
                1 << row | self.random.draw() as u16 & beside & if few { self.random.draw() as u16 } else { all };
            if !is_odd(column) {
                let within: Vec<u16> = (0..r).map(|j| 1 << j).filter(|bit| bit & beside & rows != 0).collect();
                column ^= self.random.pick(&within);
            }
            columns.push(column);
        }
        // A switch for each number that is a check column: there are up to 65,535 to be asked.
        let mut is_check = vec![false; usize::from(all) + 1];
        columns.iter().for_each(|&column| is_check[usize::from(column)] = true);
        let mut data: Vec<u16> = (1..=all).collect();
        data.retain(|&column| is_odd(column) && !is_check[usize::from(column)]);
        match self.random.below(3) {
            0 => data.sort_by_key(|column| column.count_ones()),
            _ => self.random.shuffle(&mut data, k),
        }
        data.truncate(k);
        let columns = [data, columns].concat();
        C::with(&columns, columns.len(), r, rows)
    }

    /// A sound code with one or two things done to it; now and then that leaves it sound.
    pub fn damaged_rows(&mut self) -> C {
        let code = self.sound_rows();
        let (mut columns, mut n, mut r, mut rows) = (code.columns().to_vec(), code.n(), code.r(), code.rows());
        if self.random.once_in(20) {
            n = self.random.below(C::KEPT + 4);
            r = self.random.below(20);
            rows = (self.random.draw() >> self.random.below(16)) as u16;
            columns.iter_mut().for_each(|column| *column = (self.random.draw() >> self.random.below(16)) as u16);
        }
        let k = n.saturating_sub(r).clamp(1, C::PLACES);
        for _ in 0..=self.random.below(2) {
            let bits = r.clamp(1, 16);
            let (data, check) = (self.random.below(k), k + self.random.below(bits));
            let anywhere = self.random.pick(&[data, check, check]).min(C::KEPT - 1);
            match self.random.below(13) {
                0 => {
                    let near =
                        [0, 1, bits - 1, bits, bits + 1, C::PLACES + bits, C::PLACES + bits + 1, C::KEPT, C::KEPT + 1];
                    n = self.random.pick(&near);
                }
                1 => n = self.random.pick(&HUGE),
                2 => r = self.random.pick(&[0, 1, 2, 17, 18, 64, n, 1 << 32, usize::MAX]),
                3 => rows = self.random.pick(&[0, 1 << bits.min(15), u16::MAX, rows | (1u32 << bits) as u16]),
                4 => rows ^= 1 << self.random.below(bits),
                5 => columns[anywhere] = 0,
                6 => columns[data] = columns[check.min(C::KEPT - 1)],
                7 => columns[anywhere] = columns[self.random.below(k)],
                8 => columns[check.min(C::KEPT - 1)] ^= 1 << self.random.below(bits),
                9 => columns[(k + self.random.below(bits)).min(C::KEPT - 1)] &= !(1 << self.random.below(bits)),
                10 => columns[anywhere] |= 1 << self.random.below(16),
                11 => {
                    let past = n.min(C::KEPT - 1);
                    let place = past + self.random.below(C::KEPT - past);
                    columns[self.random.pick(&[past, place, C::KEPT - 1])] = self.random.draw() as u16 | 1;
                }
                _ => columns[anywhere] ^= self.random.draw() as u16 & ((1u32 << bits) - 1) as u16,
            }
        }
        C::with(&columns, n, r, rows)
    }
}
