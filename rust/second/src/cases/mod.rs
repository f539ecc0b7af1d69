//! Cases from a fixed seed, for the second program and for any desk that is compared with it.
//!
//! Each stream of cases is its own [`Cases`], so that asking more of one question moves no case of another.

mod backs;
mod bad;
mod codes;
mod images;
mod orders;
mod rows;
mod stations;
mod tens;
mod words;

use crate::code::{Code, Coded};
use crate::random::Random;
use crate::word::Accepted;
use std::rc::Rc;

pub use backs::BackCase;
pub use bad::{sets_of_places, BadCase, FindCase};
pub use codes::asked_shapes_in;
pub use images::{ImageCase, TurnsCase};
pub use orders::{OrdersCase, OverlapCase};
pub use stations::edges;
pub use tens::edges_of_bits;
pub use words::{CardCase, ListCase, WordCase};

/// Values of k, r, b, limits and ends that no code and no call has: just outside, and such that a narrower number
/// would take for one inside.
pub const HUGE: [usize; 7] = [1 << 8, (1 << 8) + 5, 1 << 16, (1 << 16) + 8, 1 << 32, (1 << 32) + 8, usize::MAX];

/// A stream of cases of the ten-byte edition, and of the questions that have no edition.
pub type Cases = CasesOf<Code>;

/// A stream of cases of an edition.
pub struct CasesOf<C: Coded> {
    random: Random,
    /// Every (k, r) for which a code exists.
    shapes: Vec<(usize, usize)>,
    /// For each r: the columns that a code may have, rising.
    columns: Vec<Vec<u16>>,
    /// The same, those with fewer ones first.
    light: Vec<Vec<u16>>,
    /// Sound codes made so far.
    made: usize,
    /// The code that serves the next words, and how many more.
    serving: Option<(C, usize)>,
    /// The last code that a word was made for, laid out if it is accepted.
    laid_out: Option<(C, Option<Rc<Accepted>>)>,
}

impl<C: Coded> CasesOf<C> {
    /// A code, sound or damaged.
    pub fn code(&mut self) -> C {
        if self.random.once_in(2) {
            C::sound(self)
        } else {
            C::damaged(self)
        }
    }

    pub fn new(seed: u64) -> CasesOf<C> {
        let columns: Vec<Vec<u16>> = (0..=16).map(codes::allowed_columns).collect();
        let mut light = columns.clone();
        for list in &mut light {
            list.sort_by_key(|column| column.count_ones());
        }
        let shapes = codes::shapes(&columns, C::PLACES);
        CasesOf { random: Random::new(seed), shapes, columns, light, made: 0, serving: None, laid_out: None }
    }

    /// A code for words, lists, cards and images: mostly sound, and kept for `words` cases.
    fn serving_code(&mut self, words: usize) -> C {
        match self.serving.take() {
            Some((code, more)) if more > 0 => {
                self.serving = Some((code, more - 1));
                code
            }
            _ => {
                let code = if self.random.once_in(8) { C::damaged(self) } else { C::sound(self) };
                self.serving = Some((code, words - 1));
                code
            }
        }
    }

    /// The code, laid out if it is accepted.
    fn laid_out(&mut self, code: &C) -> Option<Rc<Accepted>> {
        match &self.laid_out {
            Some((last, accepted)) if last == code => accepted.clone(),
            _ => {
                let accepted = Accepted::new(code).ok().map(Rc::new);
                self.laid_out = Some((*code, accepted.clone()));
                accepted
            }
        }
    }
}
