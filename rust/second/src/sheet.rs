//! The station sheet (document 02, request 107), by integers alone.
//!
//! A figure is the bit pattern of an f64. A quotient is found by looking for it: among all patterns, the one whose value
//! times the count is nearest to what is divided, of two as near the even one. Nothing here adds, divides or compares
//! floats.

use crate::answers::{refused, Refusal};
use std::cmp::Ordering;

/// What 19 bounds the counts of devices and of words by.
const MOST: usize = 65_535;
const SIGN: u64 = 1 << 63;
/// The pattern of plus infinity, the first that is no figure.
const INFINITY: u64 = 0x7FF << 52;

/// A house limit on the share: a ceiling, a band of a low and a high figure, or no limit.
#[derive(Clone, Copy, PartialEq, Eq, Debug)]
pub enum Limit {
    Ceiling(u64),
    Band(u64, u64),
    Open,
}

/// What is asked for a sheet: hours per device, three counts, and the limit.
#[derive(Clone, Copy, PartialEq, Eq, Debug)]
pub struct Station {
    pub hours: u64,
    pub devices: usize,
    pub words: usize,
    pub mended: usize,
    pub limit: Limit,
}

/// The answer: yes or no, and the sheet's three figures.
#[derive(Clone, Copy, PartialEq, Eq, Debug, Default)]
pub struct Sheeted {
    pub number: usize,
    pub told: usize,
    pub yes: bool,
    /// Hours per device.
    pub device: u64,
    /// Hours per station.
    pub station: u64,
    /// The share of words mended.
    pub share: u64,
}

refused!(Sheeted);

/// A number `digits` · 2^`exponent`.
#[derive(Clone, Copy, Debug)]
struct Exact {
    digits: u128,
    exponent: i32,
}

impl Exact {
    fn times(self, count: usize) -> Exact {
        Exact { digits: self.digits * count as u128, ..self }
    }

    /// The digits of both with the same exponent, for numbers whose exponents differ little.
    fn beside(self, other: Exact) -> ([u128; 2], i32) {
        let exponent = self.exponent.min(other.exponent);
        ([self, other].map(|number| number.digits << (number.exponent - exponent)), exponent)
    }

    fn plus(self, other: Exact) -> Exact {
        let ([one, two], exponent) = self.beside(other);
        Exact { digits: one + two, exponent }
    }

    fn compare(self, other: Exact) -> Ordering {
        if self.digits == 0 || other.digits == 0 {
            return self.digits.cmp(&other.digits);
        }
        // The place of the highest one; where both have it at the same place, shifting loses nothing.
        let top = |number: Exact| number.exponent - number.digits.leading_zeros() as i32;
        top(self).cmp(&top(other)).then_with(|| {
            let ([one, two], _) = self.beside(other);
            one.cmp(&two)
        })
    }
}

/// The value of a pattern from plus zero to plus infinity, which stands for 2^1024 here.
fn value(pattern: u64) -> Exact {
    let field = (pattern >> 52) as i32;
    let digits = u128::from(pattern % (1 << 52));
    match field {
        0 => Exact { digits, exponent: -1_074 },
        _ => Exact { digits: digits + (1 << 52), exponent: field - 1_075 },
    }
}

/// The value of a figure that is finite and not below zero; minus zero is zero.
fn figure(pattern: u64) -> Option<Exact> {
    let pattern = if pattern == SIGN { 0 } else { pattern };
    (pattern < INFINITY).then(|| value(pattern))
}

/// The pattern nearest to `dividend` / `count`, of two as near the even one.
fn quotient(dividend: Exact, count: usize) -> u64 {
    // The value of `below` times the count is at most the dividend, that of `above` is more.
    let (mut below, mut above) = (0, INFINITY);
    while above - below > 1 {
        let middle = below + (above - below) / 2;
        match value(middle).times(count).compare(dividend) {
            Ordering::Greater => above = middle,
            _ => below = middle,
        }
    }
    let half = value(below).plus(value(above)).times(count);
    match dividend.times(2).compare(half) {
        Ordering::Less => below,
        Ordering::Greater => above,
        Ordering::Equal => below + below % 2,
    }
}

/// Whether `one` is at most `two`, both figures that are finite and not below zero.
fn at_most(one: u64, two: u64) -> bool {
    matches!((figure(one), figure(two)), (Some(one), Some(two)) if one.compare(two) != Ordering::Greater)
}

fn counts(count: usize) -> bool {
    (1..=MOST).contains(&count)
}

/// The hours, where 19 does not speak of them: finite, and above zero.
fn hours(asked: &Station) -> Option<Exact> {
    figure(asked.hours).filter(|hours| hours.digits > 0)
}

fn limit_stands(limit: Limit) -> bool {
    match limit {
        Limit::Ceiling(high) => figure(high).is_some(),
        Limit::Band(low, high) => figure(low).is_some() && figure(high).is_some() && at_most(low, high),
        Limit::Open => true,
    }
}

/// The sheet of a station, judged on its share; 19 where the counts, the hours or the limit do not stand.
pub fn sheet(asked: &Station) -> Sheeted {
    let hours = match hours(asked) {
        Some(hours) if counts(asked.devices) && counts(asked.words) => hours,
        _ => return Refusal::plain(19).into(),
    };
    if asked.mended > asked.words || !limit_stands(asked.limit) {
        return Refusal::plain(19).into();
    }
    let station = quotient(hours, asked.devices);
    let share = share(asked.mended, asked.words);
    let yes = match asked.limit {
        Limit::Ceiling(high) => at_most(share, high),
        Limit::Band(low, high) => at_most(low, share) && at_most(share, high),
        Limit::Open => true,
    };
    Sheeted { number: 0, told: 0, yes, device: asked.hours, station, share }
}

/// The share of words mended, of which there are some.
pub fn share(mended: usize, words: usize) -> u64 {
    quotient(Exact { digits: mended as u128, exponent: 0 }, words)
}

#[cfg(test)]
mod tests {
    use super::*;
    use crate::random::Random;

    /// The largest figure, and the smallest that has all 53 digits.
    const LARGEST: u64 = INFINITY - 1;
    const NORMAL: u64 = 1 << 52;

    fn divided(pattern: u64, count: usize) -> u64 {
        quotient(value(pattern), count)
    }

    #[test]
    fn by_one_nothing_changes() {
        for pattern in [0, 1, 2, NORMAL - 1, NORMAL, NORMAL + 1, 1.0f64.to_bits(), LARGEST - 1, LARGEST] {
            assert_eq!(divided(pattern, 1), pattern);
        }
    }

    #[test]
    fn ties_go_to_the_even_pattern() {
        // Halves of the smallest figures: 0.5, 1.5, 2.5 and 3.5 of the smallest.
        for (pattern, half) in [(1, 0), (3, 2), (5, 2), (7, 4)] {
            assert_eq!(divided(pattern, 2), half);
        }
        // Quarters round only where a half is met: 1.25, 1.5, 1.75 of the smallest.
        for (pattern, quarter) in [(5, 1), (6, 2), (7, 2)] {
            assert_eq!(divided(pattern, 4), quarter);
        }
        // From a full figure into the ones with fewer digits: the largest of them and a half goes up.
        assert_eq!(divided(2 * NORMAL - 1, 2), NORMAL);
        assert_eq!(divided(2 * NORMAL - 3, 2), NORMAL - 2);
    }

    #[test]
    fn small_quotients_end_at_zero() {
        assert_eq!(divided(1, 65_535), 0);
        assert_eq!(divided(32_767, 65_535), 0);
        assert_eq!(divided(32_768, 65_535), 1);
        assert_eq!(divided(65_535, 65_535), 1);
        assert_eq!(divided(NORMAL, 2), NORMAL / 2);
        assert_eq!(divided(NORMAL, 3), (1 << 52) / 3);
        assert_eq!(divided(NORMAL - 1, 65_535), ((1 << 52) - 1) / 65_535);
    }

    #[test]
    fn large_quotients_keep_their_digits() {
        assert_eq!(divided(LARGEST, 2), LARGEST - (1 << 52));
        assert_eq!(divided(LARGEST, 65_535), (f64::MAX / 65_535.0).to_bits());
        assert_eq!(divided(LARGEST, 3), (f64::MAX / 3.0).to_bits());
    }

    #[test]
    fn shares_are_the_nearest_figures() {
        assert_eq!(share(0, 1), 0);
        assert_eq!(share(0, 65_535), 0);
        assert_eq!(share(65_535, 65_535), 1.0f64.to_bits());
        assert_eq!(share(1, 2), 0.5f64.to_bits());
        assert_eq!(share(1, 3), 0x3FD5_5555_5555_5555);
        assert_eq!(share(2, 3), 0x3FE5_5555_5555_5555);
        assert_eq!(share(1, 10), 0x3FB9_9999_9999_999A);
        assert_eq!(share(65_534, 65_535), (65_534.0f64 / 65_535.0).to_bits());
    }

    /// The machine's own division, which IEEE 754 asks to round once to the nearest.
    #[test]
    fn the_machine_divides_alike() {
        let mut random = Random::new(107);
        for turn in 0..200_000 {
            let count = 1 + random.below(MOST);
            let pattern = match turn % 4 {
                0 => random.draw() % INFINITY,
                1 => random.draw() % (1 << (1 + random.below(62))) % INFINITY,
                2 => random.draw() % (1 << 17),
                _ => NORMAL * (1 + random.below(18) as u64) + random.draw() % NORMAL,
            };
            assert_eq!(divided(pattern, count), (f64::from_bits(pattern) / count as f64).to_bits());
            let mended = random.below(count + 1);
            assert_eq!(share(mended, count), (mended as f64 / count as f64).to_bits());
        }
    }

    #[test]
    fn patterns_compare_as_their_figures() {
        let mut random = Random::new(7);
        for _ in 0..100_000 {
            let one = random.draw() % INFINITY;
            let two = if random.once_in(4) { one ^ (random.draw() % 8) } else { random.draw() % INFINITY };
            if one < INFINITY && two < INFINITY {
                assert_eq!(at_most(one, two), f64::from_bits(one) <= f64::from_bits(two));
            }
        }
        assert!(at_most(SIGN, 0) && at_most(0, SIGN) && at_most(SIGN, 1) && !at_most(1, SIGN));
    }
}
