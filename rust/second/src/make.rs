//! The maker: every number below 2^r is tried, and those that may be columns are sorted.

use crate::code::{ones, switches, Code, Hsiao};

/// What is made; a refusal hands back a code of zeros.
#[derive(Clone, Copy, PartialEq, Eq, Debug)]
pub struct Made<C = Code> {
    pub number: usize,
    pub code: C,
}

/// The code of k data bits and r check bits: by count of ones, three first, then by number.
pub fn make(k: usize, r: usize) -> Made {
    make_in(k, r)
}

/// The same in any edition.
pub fn make_in<C: Hsiao>(k: usize, r: usize) -> Made<C> {
    let refused = |number: usize| Made { number, code: C::with(&[], 0, 0) };
    if !(1..=C::PLACES).contains(&k) {
        return refused(1);
    }
    if !(3..=16).contains(&r) {
        return refused(2);
    }
    let counted = (0..1u128 << r).map(|column| (ones(&switches(column, r)), column));
    let mut allowed: Vec<(usize, u128)> = counted.filter(|&(count, _)| count % 2 == 1 && count > 1).collect();
    if allowed.len() < k {
        return refused(15);
    }
    allowed.sort_unstable();
    let columns: Vec<u16> = allowed[..k].iter().map(|&(_, column)| column as u16).collect();
    Made { number: 0, code: C::with(&columns, k, r) }
}
