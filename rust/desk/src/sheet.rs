//! A sheet for each station.

use crate::code::done;
use crate::{ffi, Refusal, Sheet};

/// What a station's sheet is made from. Nothing about it is trusted: 19 covers it and the limit together.
#[derive(Clone, Copy, PartialEq, Debug)]
pub struct Station {
    /// Hours per device: finite, and above zero.
    pub hours: f64,
    /// How many devices, 1 to 65,535.
    pub devices: usize,
    /// How many words, 1 to 65,535.
    pub words: usize,
    /// How many of them are mended (verdicts 1 and 2).
    pub mended: usize,
}

/// A house limit on the share of words mended. Its figures are finite and not below zero; its ends are inside.
#[derive(Clone, Copy, PartialEq, Debug)]
pub enum Limit {
    /// At most this share.
    Ceiling(f64),
    /// From a low share to a high one, which may be equal.
    Band {
        /// The least share.
        low: f64,
        /// The greatest share.
        high: f64,
    },
    /// No limit: every share is within it.
    Open,
}

/// A sheet, judged on its share.
#[derive(Clone, Copy, PartialEq, Debug)]
pub struct JudgedSheet {
    /// Whether the share is within the limit.
    pub yes: bool,
    /// The three figures.
    pub sheet: Sheet,
}

impl Station {
    /// The sheet of this station, judged against the limit.
    ///
    /// ```
    /// use desk::{Limit, Refusal, Sheet, Station};
    ///
    /// # fn main() -> Result<(), Refusal> {
    /// let station = Station { hours: 6.0, devices: 4, words: 8, mended: 1 };
    /// let judged = station.sheet(Limit::Ceiling(0.125))?;
    /// assert!(judged.yes);
    /// assert_eq!(judged.sheet, Sheet { device: 6.0, station: 1.5, share: 0.125 });
    ///
    /// assert!(!station.sheet(Limit::Band { low: 0.25, high: 0.5 })?.yes);
    /// assert_eq!(station.sheet(Limit::Band { low: 0.5, high: 0.25 }), Err(Refusal::Sheet));
    /// assert_eq!(station.sheet(Limit::Ceiling(f64::NAN)), Err(Refusal::Sheet));
    /// assert_eq!(Station { hours: 0.0, ..station }.sheet(Limit::Open), Err(Refusal::Sheet));
    /// # Ok(())
    /// # }
    /// ```
    pub fn sheet(&self, limit: Limit) -> Result<JudgedSheet, Refusal> {
        let Station { hours, devices, words, mended } = *self;
        let answer = match limit {
            Limit::Ceiling(high) => ffi::sheet_ceiling(hours, devices, words, mended, high),
            Limit::Band { low, high } => ffi::sheet_band(hours, devices, words, mended, low, high),
            Limit::Open => ffi::sheet_open(hours, devices, words, mended),
        };
        done(answer.number, answer.told, JudgedSheet { yes: answer.yes, sheet: answer.sheet })
    }
}
